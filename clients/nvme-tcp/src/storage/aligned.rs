//! Memory that begins at a multiple of a page, as O_DIRECT requires.

use std::ops::{Deref, DerefMut};

/// The size of a page.
pub const PAGE: usize = 4096;

/// Bytes at a multiple of a page.
pub struct Aligned {
    bytes: Vec<u8>,
    begin: usize,
}

impl Aligned {
    /// Zeros.
    pub fn zeros(count: usize) -> Aligned {
        let bytes = vec![0; count + PAGE - 1];
        let begin = bytes.as_ptr().align_offset(PAGE);
        let mut aligned = Aligned { bytes, begin };
        aligned.bytes.truncate(begin + count);
        aligned
    }
}

impl Deref for Aligned {
    type Target = [u8];

    fn deref(&self) -> &[u8] {
        &self.bytes[self.begin..]
    }
}

impl DerefMut for Aligned {
    fn deref_mut(&mut self) -> &mut [u8] {
        &mut self.bytes[self.begin..]
    }
}

#[cfg(test)]
mod tests {
    use super::*;

    #[test]
    fn memory_is_aligned() {
        for count in [0, 1, 512, 4096, 100_000] {
            let aligned = Aligned::zeros(count);
            assert_eq!((aligned.len(), aligned.as_ptr() as usize % PAGE), (count, 0));
        }
    }
}
