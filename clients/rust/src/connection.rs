//! A controller's end of an NVMe/TCP connection: which bytes are which PDU, and which break the transport's rules.
//!
//! ```
//! use nvmesim::connection::{Connection, Stage, Verdict};
//!
//! let mut connection = Connection::new();
//! let mut request = [0; 128];
//! (request[2], request[4]) = (128, 128);
//! assert_eq!(connection.take(&request[..8]).count, 8);
//! assert_eq!((connection.stage(), connection.wanted()), (Stage::Taking, 120));
//! connection.take(&request[8..]);
//! assert!(matches!(connection.judge(true, true), Some(Verdict::Completes { is_sound: true, .. })));
//! assert!(connection.is_open());
//! let taken = connection.take(&[4, 0, 71, 0, 72, 0, 0, 0, 1]);
//! assert_eq!((taken.count, taken.breach.map(|it| (it.status, it.field))), (8, Some((1, 2))));
//! assert_eq!(connection.stage(), Stage::Ended);
//! ```

use crate::layout::{self, PduLayout};
use crate::pdu::{Agreed, Fatal, Layout};
use crate::{raw, BAD_PDU, OK};
use std::ops::Range;

/// How far a connection is with the PDU in hand.
#[derive(Clone, Copy, Debug, PartialEq, Eq)]
pub enum Stage {
    /// It takes the bytes of a PDU.
    Taking,
    /// The PDU is whole, and its digests have not been judged yet.
    Whole,
    /// The PDU is complete. The next byte begins another.
    Complete,
    /// The connection has ended, and takes nothing any more.
    Ended,
}

/// What a connection has taken of the bytes that it was given.
#[derive(Clone, Debug, PartialEq, Eq)]
pub struct Taken {
    /// The number of bytes that it has taken, from the first on. The others have to be given again.
    pub count: usize,
    /// Those that are data of the PDU in hand.
    pub data: Range<usize>,
    /// How many of its data came before them; 0 if there are none.
    pub data_offset: usize,
    /// The reason why the connection ends, if they break a rule of the transport.
    pub breach: Option<Fatal>,
}

/// The outcome of a whole PDU.
#[derive(Clone, Copy, Debug, PartialEq, Eq)]
pub enum Verdict {
    /// It is complete. It is not sound if the digest of its data is wrong.
    Completes {
        /// Its layout.
        layout: Layout,
        /// Whether its data are as the host sent them.
        is_sound: bool,
    },
    /// It breaks a rule of the transport. The connection has ended.
    Breaks(Fatal),
}

/// A controller's end of a connection. It takes no memory, and keeps the first 128 bytes of the PDU in hand.
#[derive(Clone)]
pub struct Connection {
    raw: layout::Connection,
}

impl Default for Connection {
    fn default() -> Connection {
        Connection::new()
    }
}

impl Connection {
    /// A connection of which nothing has come.
    #[must_use]
    pub fn new() -> Connection {
        Connection { raw: layout::Connection::NONE }
    }

    /// Takes bytes in their order, up to the end of the PDU in hand, or up to the first that breaks a rule.
    #[inline]
    pub fn take(&mut self, bytes: &[u8]) -> Taken {
        let it = raw::connection_take(&mut self.raw, bytes);
        let breach = (it.what != OK).then_some(Fatal { status: it.status, field: it.field });
        Taken { count: it.count, data: it.data_begin..it.data_end, data_offset: it.data_offset, breach }
    }

    /// Judges the PDU in hand by its digests, if it is whole. Those that it does not have are not looked at.
    #[inline]
    pub fn judge(&mut self, header_is_right: bool, data_are_right: bool) -> Option<Verdict> {
        verdict(raw::connection_judge(&mut self.raw, header_is_right, data_are_right))
    }

    /// Ends the connection, because the complete PDU breaks a rule of a layer above. `None` if there is no such PDU, and
    /// nothing has changed.
    pub fn refuse(&mut self, fatal: Fatal) -> Option<Fatal> {
        match verdict(raw::connection_refuse(&mut self.raw, fatal.status, fatal.field)) {
            Some(Verdict::Breaks(fatal)) => Some(fatal),
            _ => None,
        }
    }

    /// How far it is with the PDU in hand.
    #[must_use]
    #[inline]
    pub fn stage(&self) -> Stage {
        match self.raw.stage {
            0 => Stage::Taking,
            1 => Stage::Whole,
            2 => Stage::Complete,
            _ => Stage::Ended,
        }
    }

    /// Whether ICReq was granted.
    #[must_use]
    #[inline]
    pub fn is_open(&self) -> bool {
        self.raw.is_open
    }

    /// What was agreed on when ICReq was granted. Before, there are no digests.
    #[must_use]
    #[inline]
    pub fn agreed(&self) -> &Agreed {
        &self.raw.agreed
    }

    /// The first bytes of the PDU in hand: 128, or all that have come.
    #[must_use]
    #[inline]
    pub fn kept(&self) -> &[u8] {
        &self.raw.kept[..self.raw.count.min(128)]
    }

    /// The layout of the PDU in hand, once eight bytes have come and until it is judged.
    #[must_use]
    #[inline]
    pub fn layout(&self) -> Option<Layout> {
        laid_out(raw::connection_layout(&self.raw))
    }

    /// How many bytes the PDU in hand wants: up to the eighth, then all that it lacks.
    #[must_use]
    #[inline]
    pub fn wanted(&self) -> usize {
        raw::connection_wanted(&self.raw)
    }
}

#[inline]
fn laid_out(it: PduLayout) -> Option<Layout> {
    (it.what == OK).then(|| it.into())
}

#[inline]
fn verdict(it: layout::Verdict) -> Option<Verdict> {
    if it.layout.what == BAD_PDU {
        return Some(Verdict::Breaks(Fatal { status: it.layout.status, field: it.layout.field }));
    }
    laid_out(it.layout).map(|layout| Verdict::Completes { layout, is_sound: it.is_sound })
}
