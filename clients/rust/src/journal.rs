//! What a program keeps on a disk, so that a subsystem that starts again has the access state of the last one.
//!
//! ```
//! use nvmesim::journal::{kept, lasts};
//!
//! let mut register = [0; 64];
//! register[0] = 0x0d;
//! assert!(lasts(&register, false) && !lasts(&[0; 64], false));
//! assert_eq!(kept(&[7; 64], false), [7; 16]);
//! ```

use crate::numbers::to_usize;
use crate::raw;

/// Whether a command of the Admin Queue or another may change the access state if it succeeds: registrants,
/// reservations, write protection and attachments.
#[must_use]
#[inline]
pub fn lasts(entry: &[u8; 64], is_admin: bool) -> bool {
    raw::journal_lasts(entry, is_admin)
}

/// What such a command reads of its data: two keys, or a list of controllers. With these alone, and zeros after them, it
/// has the same effect.
#[must_use]
pub fn kept(data: &[u8], is_admin: bool) -> &[u8] {
    let length = match data {
        [first, second, ..] => to_usize(raw::journal_kept_length(&[*first, *second], is_admin)),
        _ => data.len(),
    };
    &data[..data.len().min(length)]
}
