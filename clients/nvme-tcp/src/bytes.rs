//! Numbers in bytes, lowest byte first, as NVMe has them.

/// The two bytes at a place.
#[inline]
pub fn u16_at(bytes: &[u8], at: usize) -> u16 {
    u16::from_le_bytes([bytes[at], bytes[at + 1]])
}

/// The four bytes at a place.
#[inline]
pub fn u32_at(bytes: &[u8], at: usize) -> u32 {
    u32::from_le_bytes([bytes[at], bytes[at + 1], bytes[at + 2], bytes[at + 3]])
}

/// The eight bytes at a place.
#[inline]
pub fn u64_at(bytes: &[u8], at: usize) -> u64 {
    u64::from(u32_at(bytes, at)) | u64::from(u32_at(bytes, at + 4)) << 32
}

/// The first `N` bytes, of which there must be as many.
#[inline]
pub fn first<const N: usize>(bytes: &[u8]) -> &[u8; N] {
    bytes[..N].try_into().expect("a slice of N bytes")
}

/// The first `N` bytes, to be written.
#[inline]
pub fn first_mut<const N: usize>(bytes: &mut [u8]) -> &mut [u8; N] {
    (&mut bytes[..N]).try_into().expect("a slice of N bytes")
}

/// Puts bytes at a place.
pub fn put(bytes: &mut [u8], at: usize, part: &[u8]) {
    bytes[at..at + part.len()].copy_from_slice(part);
}

/// A text of a field with a fixed size: the bytes before the first zero.
pub fn text_of(field: &[u8]) -> &[u8] {
    field.split(|byte| *byte == 0).next().unwrap_or(field)
}

#[cfg(test)]
mod tests {
    use super::*;

    #[test]
    fn the_lowest_byte_comes_first() {
        let mut bytes = [0, 1, 2, 3, 4, 5, 6, 7, 8, 9];
        assert_eq!((u16_at(&bytes, 1), u32_at(&bytes, 2)), (0x0201, 0x0504_0302));
        assert_eq!(u64_at(&bytes, 2), 0x0908_0706_0504_0302);
        put(&mut bytes, 8, &[7, 7]);
        *first_mut(&mut bytes) = [5, 6];
        assert_eq!((first(&bytes), bytes[8..].to_vec()), (&[5, 6, 2], vec![7, 7]));
    }

    #[test]
    fn a_text_ends_before_its_first_zero() {
        assert_eq!((text_of(b"nqn\0x\0"), text_of(b"nqn"), text_of(b"\0")), (&b"nqn"[..], &b"nqn"[..], &b""[..]));
    }
}
