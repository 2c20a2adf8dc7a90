//! Conversions between integers that have no `From`, since Rust also runs on processors of 16 and 32 bits.

#![allow(clippy::as_conversions, clippy::cast_possible_truncation)]

// The library is for x86-64.
const _: () = assert!(usize::BITS == 64);

/// A length in memory as the library takes it.
#[inline]
pub const fn to_u64(n: usize) -> u64 {
    n as u64
}

/// A length or an address that the library has returned.
#[inline]
pub const fn to_usize(n: u64) -> usize {
    n as usize
}
