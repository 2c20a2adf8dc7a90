//! Conversions between integers that have no `From`, since Rust also runs on processors of 16 and 32 bits; and those of
//! numbers that are known to fit. `as` is used only here, and where no function can do it.

#![allow(clippy::as_conversions, clippy::cast_possible_truncation)]

// The target is for 64-bit processors.
const _: () = assert!(usize::BITS == 64);

/// A length, a place or a count in memory, as one of a file.
#[inline]
pub const fn to_u64(n: usize) -> u64 {
    n as u64
}

/// A length, a place or a count of a file, as one in memory.
#[inline]
pub const fn to_usize(n: u64) -> usize {
    n as usize
}

/// A length or an index of 32 bits.
#[inline]
pub const fn index(n: u32) -> usize {
    n as usize
}

/// The lower half of a number.
#[inline]
pub const fn low_u64(n: u128) -> u64 {
    n as u64
}

/// The lower half of a number.
#[inline]
pub const fn low_u32(n: u64) -> u32 {
    n as u32
}

/// The lower half of a number.
#[inline]
pub const fn low_u16(n: u32) -> u16 {
    n as u16
}

/// A number that is known to fit into a smaller type. It panics otherwise.
#[inline]
#[track_caller]
pub fn narrow<N, M: TryFrom<N>>(n: N) -> M {
    M::try_from(n).ok().expect("a number that fits into its type")
}

#[cfg(test)]
mod tests {
    use super::*;

    #[test]
    fn halves_are_cut_and_lengths_kept() {
        assert_eq!((low_u32(0x1_2345_6789), low_u16(0x1_2345)), (0x2345_6789, 0x2345));
        assert_eq!((to_u64(usize::MAX), to_usize(u64::MAX), index(u32::MAX)), (u64::MAX, usize::MAX, 0xffff_ffff));
        assert_eq!(narrow::<u32, u16>(65_535), 65_535);
    }

    #[test]
    #[should_panic(expected = "a number that fits into its type")]
    fn a_number_that_does_not_fit_panics() {
        let _: u16 = narrow(65_536_u32);
    }
}
