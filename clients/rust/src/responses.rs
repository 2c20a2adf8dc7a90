//! The responses of a controller to the commands of a connection: each command that is accepted gets at most one, its
//! own.
//!
//! ```
//! use nvmesim::responses::{Refused, Reply, Responses};
//!
//! let mut responses = Responses::new();
//! assert_eq!(responses.accept(5), Ok(false));
//! responses.connected(1, false);
//! let entry = responses.respond(&Reply { cid: 5, ..Reply::default() }).unwrap();
//! assert_eq!((entry[8], entry[12]), (1, 5));
//! assert_eq!((responses.accept(7), responses.accept(7), responses.accept(8)), (Ok(false), Ok(true), Err(Refused::Full)));
//! let conflict = Reply { cid: 7, sc: 3, ..Reply::default() };
//! assert_eq!(responses.respond(&conflict).unwrap()[14..], [0x06, 0x80]);
//! assert!(responses.respond(&Reply { cid: 9, ..Reply::default() }).is_none());
//! responses.end();
//! assert_eq!((responses.accept(8), responses.outstanding()), (Err(Refused::Ended), &[7][..]));
//! assert!(responses.respond(&Reply { cid: 7, ..Reply::default() }).is_some());
//! ```

use crate::{raw, OK};
use std::{error, fmt};

/// [`Responses::accept`]: the command is accepted, and its identifier in use.
const CONFLICT: u32 = 47;
const QUEUE_FULL: u32 = 48;

/// Why a command is not accepted. It changes nothing.
#[derive(Clone, Copy, Debug, PartialEq, Eq)]
pub enum Refused {
    /// The queue takes no more commands.
    Ended,
    /// As many commands have no response as the queue has entries.
    Full,
}

impl fmt::Display for Refused {
    fn fmt(&self, f: &mut fmt::Formatter<'_>) -> fmt::Result {
        f.write_str(match self {
            Refused::Ended => "the queue takes no more commands",
            Refused::Full => "as many commands have no response as the queue has entries",
        })
    }
}

impl error::Error for Refused {}

/// The outcome of a command: its identifier, its status, and double words 0 and 1.
#[repr(C)]
#[derive(Clone, Copy, Debug, Default, PartialEq, Eq)]
pub struct Reply {
    /// Double word 0, whose meaning depends on the command.
    pub dw0: u32,
    /// Double word 1.
    pub dw1: u32,
    /// The command identifier.
    pub cid: u16,
    /// Status Code Type, of which the lowest three bits count.
    pub sct: u8,
    /// Status Code.
    pub sc: u8,
}

/// The struct of `nvmetcp.h`.
#[repr(C)]
#[derive(Clone, Copy)]
pub(crate) struct Raw {
    sqsize: u16,
    head: u16,
    count: u16,
    stage: u8,
    is_flow_control_disabled: bool,
    outstanding: [u16; 64],
}

/// The commands of a connection that have no response yet, at most 64. It takes no memory.
#[derive(Clone)]
pub struct Responses {
    pub(crate) raw: Raw,
}

impl Default for Responses {
    fn default() -> Responses {
        Responses::new()
    }
}

impl Responses {
    /// A connection that has not connected: its queue has one entry.
    #[must_use]
    pub fn new() -> Responses {
        let (sqsize, head, count, stage, is_flow_control_disabled) = (0, 0, 0, 0, false);
        Responses { raw: Raw { sqsize, head, count, stage, is_flow_control_disabled, outstanding: [0; 64] } }
    }

    /// Counts a command, for programs that don't call [`crate::capsules::take`]. Whether its identifier is that of
    /// another without a response: then its own has to be Command ID Conflict.
    ///
    /// # Errors
    ///
    /// The queue takes no more commands, or is full. Nothing has changed.
    #[inline]
    pub fn accept(&mut self, cid: u16) -> Result<bool, Refused> {
        match raw::responses_accept(&mut self.raw, cid) {
            OK => Ok(false),
            CONFLICT => Ok(true),
            QUEUE_FULL => Err(Refused::Full),
            _ => Err(Refused::Ended),
        }
    }

    /// The completion queue entry that answers a command. `None` if no such command is without a response, or after
    /// [`Responses::stop`]: nothing has changed, and nothing may be sent.
    #[inline]
    pub fn respond(&mut self, reply: &Reply) -> Option<[u8; 16]> {
        let mut entry = [0; 16];
        (raw::responses_respond(&mut self.raw, reply, &mut entry) == OK).then_some(entry)
    }

    /// A command will have no response, since a reset of the controller has dropped it. Whether there was one.
    pub fn forget(&mut self, cid: u16) -> bool {
        raw::responses_forget(&mut self.raw, cid) == OK
    }

    /// Connect has succeeded: SQSIZE, the number of entries less one, and whether SQHD is FFFFh, since flow control of
    /// the submission queue is disabled.
    pub fn connected(&mut self, sqsize: u16, is_flow_control_disabled: bool) {
        raw::responses_connected(&mut self.raw, sqsize, is_flow_control_disabled);
    }

    /// No more commands are accepted. Those without a response may still get one.
    pub fn end(&mut self) {
        raw::responses_end(&mut self.raw);
    }

    /// Nothing is accepted or answered any more.
    pub fn stop(&mut self) {
        raw::responses_stop(&mut self.raw);
    }

    /// Whether it was stopped.
    #[must_use]
    pub fn has_ended(&self) -> bool {
        self.raw.stage > 1
    }

    /// The identifiers of the commands without a response, in no order.
    #[must_use]
    pub fn outstanding(&self) -> &[u16] {
        &self.raw.outstanding[..usize::from(self.raw.count).min(64)]
    }
}

/// The last word of an entry with this status: its phase tag, which is 0, and the status field.
#[must_use]
pub fn status_field(sct: u8, sc: u8) -> u16 {
    raw::responses_status(sct, sc)
}
