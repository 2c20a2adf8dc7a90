//! Conversions between integers that have no `From`, since Rust also runs on processors of 16 and 32 bits, or none in a
//! `const fn`.

#![allow(clippy::as_conversions, clippy::cast_lossless, clippy::cast_possible_truncation)]

// The library is for x86-64.
const _: () = assert!(usize::BITS == 64);

/// A length or an index as the library takes it.
#[inline]
pub const fn to_u64(n: usize) -> u64 {
    n as u64
}

/// A length or an offset that the library has returned.
#[inline]
pub const fn to_usize(n: u32) -> usize {
    n as usize
}

/// The lower and the higher half of a number.
#[inline]
pub const fn halves(n: u128) -> (u64, u64) {
    (n as u64, (n >> 64) as u64)
}

/// The number with this lower and this higher half.
#[inline]
pub const fn joined(low: u64, high: u64) -> u128 {
    (high as u128) << 64 | low as u128
}
