//! The memory of the cache's frames. Threads borrow blocks of it, and read from the disk into them, while the event loop
//! uses the others.
//!
//! Why it is safe: at most one [`Loan`] has a block, which is marked meanwhile. The arena gives no access to marked
//! blocks, and a `Loan` has access to its own only. `take_back` consumes the `Loan` before it removes the marks; one that
//! is dropped leaves them. Nothing moves the memory, which is freed after the arena and every `Loan`.

use super::aligned::Aligned;
use super::frames::{Extent, Mask, FRAME_BYTES};
use crate::numbers::{narrow, to_u64, to_usize};
use crate::nvme::BLOCK;
use std::ops::{Deref, DerefMut, Range};
use std::slice;
use std::sync::Arc;

/// Memory of several frames, one after the other.
struct Piece {
    first: *mut u8,
    /// Its owner, which nothing else uses.
    _bytes: Aligned,
}

// SAFETY: only the arena and `Loan` use the pointer, each for bytes that nobody else accesses.
unsafe impl Send for Piece {}
// SAFETY: as above.
unsafe impl Sync for Piece {}

impl Piece {
    /// Zeros. The system gives it memory for what is used.
    fn new(bytes: usize) -> Piece {
        let mut bytes = Aligned::zeros(bytes);
        Piece { first: bytes.as_mut_ptr(), _bytes: bytes }
    }
}

/// The memory of frames. Bytes have the range of their places: a frame has `FRAME_BYTES`, in the order of the frames.
pub struct Arena {
    pieces: Vec<Arc<Piece>>,
    /// The size of a piece in bytes.
    piece: usize,
    /// The blocks of each frame that threads have.
    borrowed: Vec<Mask>,
}

/// Blocks that a thread has borrowed.
pub struct Loan {
    piece: Arc<Piece>,
    /// Their place in the piece, and in the arena.
    at: usize,
    range: Range<usize>,
}

impl Arena {
    /// Memory for this many frames. If there are more, it grows by as many.
    pub fn new(frames: usize) -> Arena {
        let piece = frames * FRAME_BYTES;
        Arena { pieces: vec![Arc::new(Piece::new(piece))], piece, borrowed: Vec::new() }
    }

    /// Adds a frame.
    pub fn add(&mut self) {
        self.borrowed.push(0);
        if self.borrowed.len() * FRAME_BYTES > self.pieces.len() * self.piece {
            self.pieces.push(Arc::new(Piece::new(self.piece)));
        }
    }

    /// Whether a range and the next one are adjacent in memory too.
    pub fn continues(&self, range: &Range<usize>, next: &Range<usize>) -> bool {
        range.end == next.start && next.start % self.piece != 0
    }

    pub fn bytes(&self, range: Range<usize>) -> &[u8] {
        let (piece, at) = self.piece_of(&range);
        self.check_own(&range);
        // SAFETY: the bytes are in the piece. No thread has them, and nobody changes them while the arena is borrowed.
        unsafe { slice::from_raw_parts(piece.first.add(at), range.len()) }
    }

    pub fn bytes_mut(&mut self, range: Range<usize>) -> &mut [u8] {
        let (piece, at) = self.piece_of(&range);
        self.check_own(&range);
        // SAFETY: the bytes are in the piece. No thread has them, and nobody else has them while the arena is borrowed.
        unsafe { slice::from_raw_parts_mut(piece.first.add(at), range.len()) }
    }

    /// Blocks for a thread, of which no other has any.
    pub fn borrow(&mut self, range: Range<usize>) -> Loan {
        let (piece, at) = self.piece_of(&range);
        let piece = Arc::clone(piece);
        self.check_own(&range);
        masks(&range).for_each(|(frame, mask)| self.borrowed[frame] |= mask);
        Loan { piece, at, range }
    }

    /// Takes back the blocks of a thread.
    pub fn take_back(&mut self, loan: Loan) {
        let Loan { piece, range, .. } = loan;
        assert!(Arc::ptr_eq(&piece, self.piece_of(&range).0), "blocks of another arena");
        masks(&range).for_each(|(frame, mask)| self.borrowed[frame] &= !mask);
    }

    /// The piece that has all of these bytes, and where they are in it.
    fn piece_of(&self, range: &Range<usize>) -> (&Arc<Piece>, usize) {
        let at = range.start % self.piece;
        assert!(range.start <= range.end && at + range.len() <= self.piece, "bytes of two pieces");
        (&self.pieces[range.start / self.piece], at)
    }

    fn check_own(&self, range: &Range<usize>) {
        assert!(masks(range).all(|(frame, mask)| self.borrowed[frame] & mask == 0), "bytes that a thread has");
    }
}

/// The frames that have some of these bytes, and their blocks that do.
fn masks(range: &Range<usize>) -> impl Iterator<Item = (usize, Mask)> {
    let (first, end) = (to_u64(range.start) / BLOCK, (to_u64(range.end) + BLOCK - 1) / BLOCK);
    Extent { first, blocks: narrow(end - first) }.parts().map(|part| (to_usize(part.number), part.mask()))
}

impl Deref for Loan {
    type Target = [u8];

    fn deref(&self) -> &[u8] {
        // SAFETY: the bytes are in the piece, and nobody else accesses the blocks of a loan.
        unsafe { slice::from_raw_parts(self.piece.first.add(self.at), self.range.len()) }
    }
}

impl DerefMut for Loan {
    fn deref_mut(&mut self) -> &mut [u8] {
        // SAFETY: as above.
        unsafe { slice::from_raw_parts_mut(self.piece.first.add(self.at), self.range.len()) }
    }
}

#[cfg(test)]
mod tests {
    use super::*;
    use std::panic::{catch_unwind, AssertUnwindSafe};
    use std::thread;

    const SIZE: usize = to_usize(BLOCK);

    fn arena(frames: usize) -> Arena {
        let mut arena = Arena::new(frames);
        (0..2 * frames).for_each(|_| arena.add());
        arena
    }

    fn is_refused<R>(act: impl FnOnce() -> R) -> bool {
        catch_unwind(AssertUnwindSafe(|| drop(act()))).is_err()
    }

    #[test]
    fn a_thread_writes_while_other_bytes_are_used() {
        let mut arena = arena(2);
        let mut loan = arena.borrow(3 * SIZE..40 * SIZE);
        let thread = thread::spawn(move || {
            loan.fill(7);
            assert_eq!(loan.len(), 37 * SIZE);
            loan
        });
        arena.bytes_mut(0..3 * SIZE).fill(1);
        arena.bytes_mut(40 * SIZE..2 * FRAME_BYTES).fill(2);
        arena.take_back(thread.join().unwrap());
        let wanted = [vec![1; 3 * SIZE], vec![7; 37 * SIZE], vec![2; 24 * SIZE]].concat();
        assert!(arena.bytes(0..2 * FRAME_BYTES) == wanted);
    }

    #[test]
    fn nobody_else_has_blocks_of_a_loan() {
        let mut arena = arena(2);
        let loan = arena.borrow(3 * SIZE..5 * SIZE);
        for range in [3 * SIZE..4 * SIZE, 0..FRAME_BYTES, 0..3 * SIZE + 1, 5 * SIZE - 1..5 * SIZE] {
            assert!(is_refused(|| arena.bytes(range.clone()).len()));
            assert!(is_refused(|| arena.bytes_mut(range.clone()).fill(1)));
            assert!(is_refused(|| arena.borrow(range)));
        }
        assert_eq!((arena.bytes(0..3 * SIZE).len(), arena.bytes(5 * SIZE..9 * SIZE).len()), (3 * SIZE, 4 * SIZE));
        drop(loan);
        assert!(is_refused(|| arena.bytes(3 * SIZE..4 * SIZE).len()), "nobody has them");
    }

    #[test]
    fn only_its_arena_takes_blocks_back() {
        let (mut one, mut other) = (arena(2), arena(2));
        let loan = one.borrow(0..SIZE);
        assert!(is_refused(|| other.take_back(loan)));
    }

    #[test]
    fn pieces_are_not_adjacent() {
        let mut arena = arena(2);
        let piece = 2 * FRAME_BYTES;
        assert!(is_refused(|| arena.borrow(piece - SIZE..piece + SIZE)));
        assert!(is_refused(|| arena.bytes(2 * piece..2 * piece + SIZE).len()), "there are two");
        let continues = |first: usize| arena.continues(&(first - SIZE..first), &(first..first + SIZE));
        assert_eq!([FRAME_BYTES, piece, piece + SIZE].map(continues), [true, false, true]);
        assert_eq!(arena.bytes_mut(piece..2 * piece).len(), piece);
    }
}
