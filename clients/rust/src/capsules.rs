//! The outcomes of the command capsules of a connection: which commands are refused, where the data of the others are,
//! and which controller and queue each is for.
//!
//! ```
//! use nvmesim::capsules::{self, Capsule, Data, Destination, Outcome};
//! use nvmesim::fabrics::{Live, Session};
//! use nvmesim::{responses::Responses, transfers::Transfers};
//!
//! let (mut responses, mut transfers, session) = (Responses::new(), Transfers::new()?, Session::new(7));
//! let mut entry = [0; 64];
//! (entry[0], entry[1], entry[4], entry[33], entry[39]) = (0x7f, 0x40, 1, 4, 1);
//! let capsule = Capsule { entry, data_length: 1024, is_sound: true };
//! let outcome = capsules::take(&mut responses, &mut transfers, &session, &capsule);
//! assert_eq!(outcome, Outcome::Ready(Data::InCapsule(0..1024)));
//! assert_eq!(Destination::of(Live::NotConnected, &entry, false), Destination::Fabrics);
//! entry[0] = 2;
//! let live = Live::Queue { index: 0, qid: 1 };
//! assert_eq!(Destination::of(live, &entry, true), Destination::Io { index: 0, qid: 1 });
//! assert_eq!(Destination::of(live, &entry, false), Destination::Refused { sct: 0, sc: 0x0c });
//! # Ok::<_, nvmesim::OpenError>(())
//! ```

use crate::fabrics::{Live, Session};
use crate::layout::{CapsuleTaken, DestinationSeen};
use crate::numbers::to_usize;
use crate::pdu::Fatal;
use crate::responses::Responses;
use crate::transfers::Transfers;
use crate::{raw, OK};
use std::ops::Range;

/// A command capsule.
#[repr(C)]
#[derive(Clone, Copy, Debug, PartialEq, Eq)]
pub struct Capsule {
    /// Its submission queue entry.
    pub entry: [u8; 64],
    /// The number of bytes of data in it.
    pub data_length: u32,
    /// Whether the digest of its data is right, or there is none.
    pub is_sound: bool,
}

/// The data of a command that is ready.
#[derive(Clone, Debug, PartialEq, Eq)]
pub enum Data {
    /// These bytes of its capsule's data go to the controller.
    InCapsule(Range<usize>),
    /// The controller returns at most this number of bytes, possibly none.
    FromController(usize),
}

/// The outcome of a command capsule.
#[derive(Clone, Debug, PartialEq, Eq)]
pub enum Outcome {
    /// The connection ends: its queue is full, or takes no more commands.
    Breaks(Fatal),
    /// The command is not executed, but answered with this status.
    Refused {
        /// Status Code Type.
        sct: u8,
        /// Status Code.
        sc: u8,
    },
    /// The command waits for this number of bytes, which its host sends in answer to R2T.
    Waits(u32),
    /// The command has its data.
    Ready(Data),
}

/// The destination of a command that is ready.
#[derive(Clone, Copy, Debug, PartialEq, Eq)]
pub enum Destination {
    /// The associations: it is a command of Fabrics.
    Fabrics,
    /// The discovery controller.
    Discovery,
    /// The Admin Queue of the controller at this place, one less than CNTLID.
    Admin(u16),
    /// An I/O queue of the controller at a place.
    Io {
        /// The place, one less than CNTLID.
        index: u16,
        /// The queue.
        qid: u16,
    },
    /// None: it is not executed, but answered with this status.
    Refused {
        /// Status Code Type.
        sct: u8,
        /// Status Code.
        sc: u8,
    },
}

/// Takes a command capsule of a connection: counts its command as [`Responses::accept`] does, and returns the outcome.
/// A command that waits for its data is among `transfers` then, as after [`Transfers::begin`].
#[inline]
pub fn take(responses: &mut Responses, transfers: &mut Transfers, session: &Session, capsule: &Capsule) -> Outcome {
    Outcome::of(&transfers.take_capsule(&mut responses.raw, &session.raw, capsule))
}

const WAITS: u32 = 2;
const TO_CONTROLLER: u32 = 3;
const FROM_CONTROLLER: u32 = 4;

impl Outcome {
    #[inline]
    fn of(it: &CapsuleTaken) -> Outcome {
        if it.what != OK {
            return Outcome::Breaks(Fatal { status: it.fatal, field: it.field });
        }
        let (begin, length) = (to_usize(it.begin), to_usize(it.length));
        match it.outcome {
            WAITS => Outcome::Waits(it.length),
            TO_CONTROLLER => Outcome::Ready(Data::InCapsule(begin..begin + length)),
            FROM_CONTROLLER => Outcome::Ready(Data::FromController(length)),
            _ => Outcome::Refused { sct: it.sct, sc: it.sc },
        }
    }
}

impl Destination {
    /// The destination of a command with this entry, on a connection that is `live` now. `has_queue` says whether the
    /// controller has the queue that the connection is, if it is one.
    #[must_use]
    #[inline]
    pub fn of(live: Live, entry: &[u8; 64], has_queue: bool) -> Destination {
        let DestinationSeen { kind, index, qid, sct, sc } = raw::capsules_destination(&live.raw(), entry, has_queue);
        match kind {
            0 => Destination::Fabrics,
            1 => Destination::Discovery,
            2 => Destination::Admin(index),
            3 => Destination::Io { index, qid },
            _ => Destination::Refused { sct, sc },
        }
    }
}
