//! Why a subsystem is not opened, and why a call did nothing.

use crate::OK;
use std::fmt;

/// Why a subsystem is not opened.
#[derive(Clone, Copy, Debug, PartialEq, Eq)]
#[non_exhaustive]
pub enum OpenError {
    /// The library is of another version than this crate.
    BadVersion,
    /// An identifier is wrong: of a controller, host or namespace, or of an attachment.
    BadId,
    /// A namespace has no blocks.
    BadSize,
    /// There are more than 16 controllers, 8 namespaces or 128 attachments.
    TooMany,
    /// The namespaces have more blocks together than the bytes.
    DoesNotFit,
    /// Memory was refused.
    NoMemory,
}

/// Why a call did nothing.
#[derive(Clone, Copy, Debug, PartialEq, Eq)]
#[non_exhaustive]
pub enum Refusal {
    /// There is no such controller.
    NoController,
    /// Some of the bytes are outside the host's memory, or some of the blocks outside the namespace.
    Outside,
    /// The bytes are not a whole number of blocks.
    NotWhole,
    /// The medium failed.
    MediumFault,
    /// The controller has no such queue.
    NoQueue,
    /// The controller does not run: its CSTS is not 1.
    NotReady,
    /// A command waits at the queue already, a completion at its completion queue, or the controller has 64 commands.
    Busy,
    /// There is no such namespace.
    NoNamespace,
    /// The blocks are in memory, so none are brought.
    InMemory,
    /// The data and the slot of the entry overlap.
    Overlaps,
}

/// The refusal of a number. A subsystem that is not open has no value here.
pub(crate) fn refusal(number: u32) -> Refusal {
    match number {
        17 => Refusal::NoController,
        18 => Refusal::Outside,
        19 => Refusal::NotWhole,
        28 => Refusal::NoQueue,
        29 => Refusal::NotReady,
        30 => Refusal::Busy,
        31 => Refusal::NoNamespace,
        39 => Refusal::InMemory,
        51 => Refusal::Overlaps,
        _ => Refusal::MediumFault,
    }
}

/// The refusal of a number that is not `OK`.
pub(crate) fn checked(answer: u32) -> Result<(), Refusal> {
    if answer == OK {
        Ok(())
    } else {
        Err(refusal(answer))
    }
}

impl fmt::Display for OpenError {
    fn fmt(&self, f: &mut fmt::Formatter<'_>) -> fmt::Result {
        f.write_str(match self {
            OpenError::BadVersion => "libnvmesim is of another version",
            OpenError::BadId => "an identifier of the configuration is wrong",
            OpenError::BadSize => "a namespace has no blocks",
            OpenError::TooMany => "there are too many controllers, namespaces or attachments",
            OpenError::DoesNotFit => "the namespaces have more blocks than the bytes",
            OpenError::NoMemory => "out of memory",
        })
    }
}

impl fmt::Display for Refusal {
    fn fmt(&self, f: &mut fmt::Formatter<'_>) -> fmt::Result {
        f.write_str(match self {
            Refusal::NoController => "there is no such controller",
            Refusal::Outside => "some of it is outside",
            Refusal::NotWhole => "the bytes are not a whole number of blocks",
            Refusal::MediumFault => "the medium failed",
            Refusal::NoQueue => "the controller has no such queue",
            Refusal::NotReady => "the controller does not run",
            Refusal::Busy => "something waits at the queue",
            Refusal::NoNamespace => "there is no such namespace",
            Refusal::InMemory => "the blocks are in memory",
            Refusal::Overlaps => "the data and the entry overlap",
        })
    }
}

impl std::error::Error for OpenError {}
impl std::error::Error for Refusal {}
