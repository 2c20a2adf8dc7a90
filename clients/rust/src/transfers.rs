//! Which data that a host sends in answer to R2T are whose, for one connection.
//!
//! ```
//! use nvmesim::transfers::{Completed, Part, Request, Transfers};
//!
//! let mut transfers = Transfers::new()?;
//! let entry = [1; 64];
//! transfers.begin(&entry, 8)?;
//! assert_eq!(transfers.next_request(), Some(Request { cid: 0x101, tag: 0, length: 8 }));
//! let mut part = Part { cid: 0x101, tag: 0, offset: 0, length: 4, is_last: false, is_sound: true };
//! let mut room = [0; 8];
//! assert!(transfers.store(&part, &[2; 4], &mut room).unwrap().is_none());
//! (part.offset, part.is_last) = (4, true);
//! let whole = transfers.store(&part, &[3; 4], &mut room);
//! assert_eq!(whole, Ok(Some(Completed { entry, length: 8, is_sound: true })));
//! assert_eq!(room, [2, 2, 2, 2, 3, 3, 3, 3]);
//! # Ok::<(), Box<dyn std::error::Error>>(())
//! ```

use crate::capsules::Capsule;
use crate::layout::{CapsuleTaken, PartTaken, Session};
use crate::pdu::Fatal;
use crate::raw::Commands;
use crate::responses::Raw;
use crate::{OpenError, OK};
use std::{error, fmt};

/// How many commands of a connection may have an R2T at a time: the tags are the numbers below it.
pub const TAGS: usize = 8;

/// Why a command is not taken. It changes nothing.
#[derive(Clone, Copy, Debug, PartialEq, Eq)]
pub enum Refused {
    /// The connection has ended.
    Ended,
    /// It expects no bytes, and no R2T asks for none.
    NoData,
    /// Its identifier is that of a command in flight.
    InFlight,
    /// 64 commands wait for their R2T.
    ManyWait,
}

impl fmt::Display for Refused {
    fn fmt(&self, f: &mut fmt::Formatter<'_>) -> fmt::Result {
        f.write_str(match self {
            Refused::Ended => "the connection has ended",
            Refused::NoData => "the command expects no data",
            Refused::InFlight => "a command with its identifier is in flight",
            Refused::ManyWait => "64 commands wait for their R2T",
        })
    }
}

impl error::Error for Refused {}

/// The fields of an R2T, whose R2TO is 0.
#[derive(Clone, Copy, Debug, PartialEq, Eq)]
pub struct Request {
    /// CCCID, the command identifier.
    pub cid: u16,
    /// TTAG, the transfer tag.
    pub tag: u16,
    /// R2TL, the number of bytes.
    pub length: u32,
}

/// What is known of an H2CData PDU.
#[repr(C)]
#[derive(Clone, Copy, Debug, PartialEq, Eq)]
pub struct Part {
    /// CCCID, the command identifier.
    pub cid: u16,
    /// TTAG, the transfer tag of the R2T.
    pub tag: u16,
    /// DATAO, the offset of its data among all data of the command.
    pub offset: u32,
    /// DATAL, the number of its data.
    pub length: u32,
    /// LAST_PDU.
    pub is_last: bool,
    /// Whether the digest of its data is right, or there is none.
    pub is_sound: bool,
}

/// A command that has all its data.
#[derive(Clone, Copy, Debug, PartialEq, Eq)]
pub struct Completed {
    /// Its submission queue entry.
    pub entry: [u8; 64],
    /// The number of its data.
    pub length: u32,
    /// Whether the digests of all its parts were right.
    pub is_sound: bool,
}

/// The commands of a connection that have not got all their data: at most 8 have an R2T, and 64 wait for theirs.
pub struct Transfers {
    raw: Commands,
    /// What `count` has returned, until a call may change it.
    counted: Option<usize>,
}

impl Transfers {
    /// A connection without commands. It takes memory once.
    ///
    /// # Errors
    ///
    /// [`OpenError::NoMemory`].
    pub fn new() -> Result<Transfers, OpenError> {
        match Commands::open() {
            (OK, raw) => Ok(Transfers { raw, counted: None }),
            _ => Err(OpenError::NoMemory),
        }
    }

    /// How many commands there are.
    #[inline]
    pub fn count(&mut self) -> usize {
        match self.counted {
            Some(count) => count,
            None => *self.counted.insert(self.raw.count()),
        }
    }

    /// Whether a command with this identifier is in flight.
    #[inline]
    pub fn has(&mut self, cid: u16) -> bool {
        self.count() != 0 && self.raw.has(cid)
    }

    /// A command that expects `length` bytes waits for its R2T: for programs that don't call [`crate::capsules::take`].
    ///
    /// # Errors
    ///
    /// Each reason of [`Refused`]: nothing has changed.
    pub fn begin(&mut self, entry: &[u8; 64], length: u32) -> Result<(), Refused> {
        self.counted = None;
        match self.raw.begin(entry, length) {
            OK => Ok(()),
            NO_DATA => Err(Refused::NoData),
            IN_FLIGHT => Err(Refused::InFlight),
            MANY_WAIT => Err(Refused::ManyWait),
            _ => Err(Refused::Ended),
        }
    }

    /// Takes a capsule, whose command may wait for its R2T then.
    #[inline]
    pub(crate) fn take_capsule(&mut self, responses: &mut Raw, session: &Session, capsule: &Capsule) -> CapsuleTaken {
        self.counted = None;
        self.raw.take_capsule(responses, session, capsule)
    }

    /// The R2T of the command that waits longest, if a tag is free.
    #[inline]
    pub fn next_request(&mut self) -> Option<Request> {
        self.counted = None;
        let it = self.raw.next_request();
        (it.what == OK).then_some(Request { cid: it.cid, tag: it.tag, length: it.length })
    }

    /// Takes a part whose bytes stay where they are; the command, if it has all its data now. A refused part changes
    /// nothing, and no byte of it may be used.
    ///
    /// # Errors
    ///
    /// The fault for which the connection has to end: nothing has changed.
    #[inline]
    pub fn take(&mut self, part: &Part) -> Result<Option<Completed>, Fatal> {
        self.counted = None;
        completed(&self.raw.take(part))
    }

    /// Takes a part, and copies its bytes to their place in the room of its tag. It is also refused if the bytes are not
    /// as many as it says, or go past the end of the room.
    ///
    /// # Errors
    ///
    /// The fault for which the connection has to end: neither the commands nor the room have changed.
    #[inline]
    pub fn store(&mut self, part: &Part, bytes: &[u8], room: &mut [u8]) -> Result<Option<Completed>, Fatal> {
        self.counted = None;
        completed(&self.raw.store(part, bytes, room))
    }

    /// The connection ends: all commands are dropped, and no more are taken.
    pub fn end(&mut self) {
        self.counted = None;
        self.raw.end();
    }
}

const NO_DATA: u32 = 43;
const IN_FLIGHT: u32 = 44;
const MANY_WAIT: u32 = 45;

#[inline]
fn completed(it: &PartTaken) -> Result<Option<Completed>, Fatal> {
    if it.what != OK {
        return Err(Fatal { status: it.status, field: it.field });
    }
    let PartTaken { entry, length, is_sound, .. } = *it;
    Ok(it.is_complete.then_some(Completed { entry, length, is_sound }))
}
