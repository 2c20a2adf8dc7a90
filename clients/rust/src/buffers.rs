//! The memory that a controller has with its host, for a program that is both: where the data of each command are, and
//! the entry that leads the controller there and nowhere else.
//!
//! ```
//! use nvmesim::buffers::{is_filled, DataBuffer};
//!
//! let mut read = [0; 64];
//! (read[0], read[1], read[48]) = (2, 0x40, 7);
//! assert!(is_filled(&read, false, 4096));
//! assert_eq!(DataBuffer::AT_ONCE.start(4096), (4 << 20) - 4096);
//! DataBuffer::AT_ONCE.place(&mut read, false, 4096);
//! assert_eq!((read[1], &read[24..32]), (0, &[0, 0xf0, 0x3f, 0, 0, 0, 0, 0][..]));
//! ```

use crate::numbers::to_u64;
use crate::raw;

/// The most bytes of data of a command that is executed as soon as it is fetched.
pub const MOST_DATA: usize = 128 << 10;
/// The most bytes of data of a command that is held between its fetch and its execution.
pub const MOST_HELD_DATA: usize = 8 << 10;
/// The most held commands of a controller.
pub const MOST_HELD: usize = 16;

/// A buffer for the data of one command.
#[derive(Clone, Copy, Debug, PartialEq, Eq)]
pub struct DataBuffer {
    number: u32,
}

impl DataBuffer {
    /// That of a command that is executed as soon as it is fetched.
    pub const AT_ONCE: DataBuffer = DataBuffer { number: 0 };

    /// That of the n-th held command, from 0 to 15. Another has no bytes.
    #[must_use]
    #[allow(clippy::as_conversions, clippy::cast_possible_truncation)] // `try_from` is not `const`.
    pub const fn held(n: usize) -> DataBuffer {
        DataBuffer { number: if n < MOST_HELD { n as u32 + 1 } else { u32::MAX } }
    }

    /// The address of data of `length` bytes, a multiple of 4; 4 MiB, which is no address, if they don't fit.
    #[must_use]
    #[inline]
    pub fn start(self, length: usize) -> u64 {
        raw::buffers_start(self.number, to_u64(length))
    }

    /// Sets PSDT 0 and the PRP entries of an entry of the Admin Queue or another, whose data have `length` bytes here. A
    /// command that moves more bytes gets PRP entries that it can't use.
    #[inline]
    pub fn place(self, entry: &mut [u8; 64], is_admin: bool, length: usize) {
        raw::buffers_place(entry, is_admin, self.number, to_u64(length));
    }
}

/// Whether a command that succeeds writes all `length` bytes of its data. If not, data that come from the controller have
/// to be cleared first.
#[must_use]
#[inline]
pub fn is_filled(entry: &[u8; 64], is_admin: bool, length: usize) -> bool {
    raw::buffers_is_filled(entry, is_admin, to_u64(length))
}

/// The address of the PRP list, and its bytes, which have to be there when a command is executed.
#[must_use]
pub fn prp_list() -> (u64, [u8; 248]) {
    let mut list = [0; 248];
    (raw::buffers_list(&mut list), list)
}

/// The address of a submission queue, a page.
#[must_use]
#[inline]
pub fn submission_queue(qid: u16) -> u64 {
    raw::buffers_submission_queue(qid)
}

/// The address of a completion queue, a page.
#[must_use]
#[inline]
pub fn completion_queue(qid: u16) -> u64 {
    raw::buffers_completion_queue(qid)
}
