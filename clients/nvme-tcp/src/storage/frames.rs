//! Ranges of blocks, and the frames that the cache keeps them in: aligned pieces of the disk of one size, with a bit for
//! each block.

use crate::numbers::{index, narrow, to_usize};
use crate::nvme::BLOCK;
use std::ops::Range;

/// The blocks of a frame, and its bytes.
pub const FRAME: u32 = 32;
pub const FRAME_BYTES: usize = index(FRAME) * to_usize(BLOCK);
/// The most frames that a command with 128 KiB of data has blocks in.
pub const MOST_PARTS: usize = 128 * 1024 / FRAME_BYTES + 1;

/// A bit for each block of a frame, the first one lowest.
pub type Mask = u32;

/// Adjacent blocks of the disk.
#[derive(Clone, Copy, Debug, PartialEq, Eq)]
pub struct Extent {
    pub(super) first: u64,
    pub(super) blocks: u32,
}

impl Extent {
    pub fn end(self) -> u64 {
        self.first + u64::from(self.blocks)
    }

    pub fn place(self) -> u64 {
        self.first * BLOCK
    }

    pub fn bytes(self) -> usize {
        index(self.blocks) * to_usize(BLOCK)
    }

    /// Its first `blocks` blocks.
    pub fn front(self, blocks: u64) -> Extent {
        Extent { first: self.first, blocks: narrow(u64::from(self.blocks).min(blocks)) }
    }

    /// The numbers of the frames that it has blocks of.
    pub fn frames(self) -> Range<u64> {
        let size = u64::from(FRAME);
        self.first / size..(self.end() + size - 1) / size
    }

    /// Its part in one of these frames.
    pub fn part(self, number: u64) -> Part {
        let (size, begin) = (u64::from(FRAME), number * u64::from(FRAME));
        let from = self.first.max(begin) - begin;
        let to = self.end().min(begin + size) - begin;
        Part { number, from: narrow(from), to: narrow(to) }
    }

    /// Its parts in each frame, in order.
    pub fn parts(self) -> impl Iterator<Item = Part> {
        self.frames().map(move |number| self.part(number))
    }

    /// Its blocks before this one.
    pub fn before(self, end: u64) -> Extent {
        self.front(end.saturating_sub(self.first))
    }

    /// It, in pieces of at most `most` blocks.
    pub fn pieces(self, most: u32) -> impl Iterator<Item = Extent> {
        let begins = (0..self.blocks).step_by(index(most));
        begins.map(move |at| Extent { first: self.first + u64::from(at), blocks: most.min(self.blocks - at) })
    }

    /// The only part, if all its blocks are in one frame.
    pub fn only_part(self) -> Option<Part> {
        let Range { start, end } = self.frames();
        (end - start == 1).then(|| self.part(start))
    }

    pub fn overlaps(self, other: Extent) -> bool {
        self.first < other.end() && other.first < self.end()
    }

    /// Whether it has blocks of a frame that the other has blocks of too.
    pub fn meets(self, other: Extent) -> bool {
        let (mine, others) = (self.frames(), other.frames());
        mine.start < others.end && others.start < mine.end
    }
}

/// Blocks of one frame, from `from` up to `to`.
#[derive(Clone, Copy, Debug, PartialEq, Eq)]
pub struct Part {
    pub(super) number: u64,
    pub(super) from: u32,
    pub(super) to: u32,
}

impl Part {
    /// Their bits.
    pub fn mask(self) -> Mask {
        let count = self.to - self.from;
        let ones = if count == FRAME { Mask::MAX } else { (1 << count) - 1 };
        ones << self.from
    }

    /// Their bytes in the frame.
    pub fn range(self) -> Range<usize> {
        index(self.from) * to_usize(BLOCK)..index(self.to) * to_usize(BLOCK)
    }

    pub fn extent(self) -> Extent {
        Extent { first: self.number * u64::from(FRAME) + u64::from(self.from), blocks: self.to - self.from }
    }
}

/// The runs of blocks of a frame whose bits are set, in order.
pub fn runs(number: u64, mask: Mask) -> impl Iterator<Item = Part> {
    let mut rest = mask;
    std::iter::from_fn(move || {
        if rest == 0 {
            return None;
        }
        let from = rest.trailing_zeros();
        let to = from + (!(rest >> from)).trailing_zeros().min(FRAME - from);
        let part = Part { number, from, to };
        rest &= !part.mask();
        Some(part)
    })
}

/// A piece of the disk in memory.
pub struct Frame {
    /// Which piece it is.
    pub(super) number: u64,
    /// Blocks whose newest bytes are here.
    pub(super) valid: Mask,
    /// Those of them that no write to the disk has taken yet.
    pub(super) dirty: Mask,
    /// Blocks that a read in progress brings, whose bytes a thread has; those of them that are zeros by then; and those
    /// that could not be read.
    pub(super) coming: Mask,
    pub(super) zeroed: Mask,
    pub(super) failed: Mask,
    /// Blocks of a write in progress: only one at a time is.
    pub(super) writing: Mask,
    /// The ticket of the last command that has changed it.
    pub(super) changed_by: u64,
    /// Whether it is in the list of frames to write.
    pub(super) is_queued: bool,
    /// How many commands wait for it and need it to stay.
    pub(super) users: u32,
    /// Whether it was used since the cache has looked for a frame to replace.
    pub(super) is_recent: bool,
    /// Whether the cache counts it as one that can't be replaced.
    pub(super) is_busy: bool,
    /// The commands that wait until a read of it ends.
    pub(super) waiting: Vec<u64>,
    /// The tickets of the commands that wait for a write of the dirty blocks, and for the write in progress.
    pub(super) tickets: Vec<u64>,
    pub(super) written: Vec<u64>,
}

impl Frame {
    pub fn new(number: u64) -> Frame {
        Frame {
            number,
            valid: 0,
            dirty: 0,
            coming: 0,
            zeroed: 0,
            failed: 0,
            writing: 0,
            changed_by: 0,
            is_queued: false,
            users: 0,
            is_recent: true,
            is_busy: false,
            waiting: Vec::new(),
            tickets: Vec::new(),
            written: Vec::new(),
        }
    }

    /// Whether it must stay in the cache.
    pub fn must_stay(&self) -> bool {
        self.dirty != 0 || self.coming != 0 || self.writing != 0 || self.users != 0
    }

    /// Whether the disk does not have some blocks yet as they are here.
    pub fn is_ahead(&self, part: Part) -> bool {
        (self.dirty | self.writing) & part.mask() != 0
    }

    /// How many of the first blocks of a part are here.
    pub fn front_of(&self, part: Part) -> u32 {
        (!(self.valid >> part.from)).trailing_zeros().min(part.to - part.from)
    }

    /// Blocks that are neither here nor on the way.
    pub fn missing(&self, part: Part) -> Mask {
        part.mask() & !self.valid & !self.coming
    }

    /// Makes it another piece of the disk, of which nothing is known.
    pub fn become_other(&mut self, number: u64) {
        self.number = number;
        (self.valid, self.failed) = (0, 0);
        self.is_recent = true;
    }
}

#[cfg(test)]
mod tests {
    use super::*;

    #[test]
    fn parts_of_extents() {
        let size = u64::from(FRAME);
        let parts: Vec<Part> = Extent { first: size - 1, blocks: FRAME + 2 }.parts().collect();
        assert_eq!(parts[0], Part { number: 0, from: FRAME - 1, to: FRAME });
        assert_eq!(parts[1], Part { number: 1, from: 0, to: FRAME });
        assert_eq!(parts[2], Part { number: 2, from: 0, to: 1 });
        assert_eq!(parts.len(), 3);
        assert_eq!((parts[1].mask(), parts[2].mask()), (Mask::MAX, 1));
        assert_eq!(parts.iter().map(|it| it.extent().blocks).sum::<u32>(), FRAME + 2);
        assert_eq!(parts[0].extent().first, size - 1);
    }

    #[test]
    fn runs_of_masks() {
        let found: Vec<(u32, u32)> = runs(7, 0b1011_0001).map(|it| (it.from, it.to)).collect();
        assert_eq!(found, [(0, 1), (4, 6), (7, 8)]);
        assert_eq!(runs(7, Mask::MAX).map(|it| (it.from, it.to)).collect::<Vec<_>>(), [(0, FRAME)]);
        let last = Part { number: 7, from: FRAME - 1, to: FRAME };
        assert_eq!(runs(7, last.mask()).collect::<Vec<_>>(), [last]);
        assert_eq!(runs(7, 0).count(), 0);
    }
}
