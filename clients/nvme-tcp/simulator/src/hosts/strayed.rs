//! Values that blocks may have by a fault of the disk. They have no digests, so a target can't know.

use super::checker::{value_of, BLOCK};
use super::history::Block;

/// Blocks with the numbers of such values, as long as targets run that may have them in their memory.
#[derive(Default)]
pub struct Strayed {
    list: Vec<(usize, u64)>,
}

impl Strayed {
    /// Blocks may have these bytes from now on. Their values have the numbers after `last`; the last of these.
    pub fn add(&mut self, blocks: &mut [Block], slba: usize, bytes: &[u8], last: u64, now: u64) -> u64 {
        let mut number = last;
        for (at, bytes) in (slba..).zip(bytes.chunks_exact(BLOCK)) {
            number += 1;
            if let Some((block, value)) = blocks.get_mut(at).zip(value_of(bytes)) {
                block.stray(number, value, now);
                self.list.push((at, number));
            }
        }
        number
    }

    /// All targets have ended: from now on blocks have what is on the disk.
    pub fn bound(&mut self, blocks: &mut [Block], end: u64) {
        self.list.drain(..).for_each(|(block, number)| blocks[block].bound(number, end));
    }
}
