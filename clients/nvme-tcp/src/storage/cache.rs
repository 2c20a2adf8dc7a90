//! The frames of the disk that are in memory, at most a fixed number of them. A frame that no command and no work of
//! the disk needs is replaced by the CLOCK algorithm: the hand passes frames that were used since it came by last.

use super::arena::{Arena, Loan};
use super::frames::{Extent, Frame, Mask, Part, FRAME, FRAME_BYTES, MOST_PARTS};
use crate::hashing::Chosen;
use crate::numbers::index;
use std::cell::Cell;
use std::ops::Range;

/// The number of no frame.
const NOWHERE: u64 = u64::MAX;

/// The frames in memory.
pub struct Cache {
    frames: Vec<Frame>,
    /// Their bytes, one frame after the other. The system has memory only for those that were in use.
    arena: Arena,
    places: Chosen<usize>,
    /// The number and the place of the frame that was found last: a command asks several times for each of its frames.
    last: Cell<Option<(u64, usize)>>,
    most: usize,
    /// How many frames must stay.
    busy: usize,
    hand: usize,
}

impl Cache {
    /// A cache of at most this many frames, which is at least enough for a few commands.
    pub fn new(most: usize) -> Cache {
        let most = most.max(4 * MOST_PARTS);
        let (frames, places, last) = (Vec::new(), Chosen::default(), Cell::new(None));
        Cache { frames, arena: Arena::new(most), places, last, most, busy: 0, hand: 0 }
    }

    /// How many blocks it can have.
    pub fn blocks(&self) -> usize {
        self.most * index(FRAME)
    }

    /// The place of a frame, if it is in memory.
    pub fn find(&self, number: u64) -> Option<usize> {
        match self.last.get() {
            Some((last, place)) if last == number => Some(place),
            _ => {
                let place = self.places.get(&number).copied()?;
                self.last.set(Some((number, place)));
                Some(place)
            }
        }
    }

    pub fn at(&self, place: usize) -> &Frame {
        &self.frames[place]
    }

    /// The place of a part of a frame in memory.
    pub fn range(place: usize, part: Part) -> Range<usize> {
        let Range { start, end } = part.range();
        place * FRAME_BYTES + start..place * FRAME_BYTES + end
    }

    /// The bytes of a part of a frame.
    pub fn bytes(&self, place: usize, part: Part) -> &[u8] {
        self.arena.bytes(Cache::range(place, part))
    }

    /// The same, for a command that is executed over them.
    pub fn bytes_mut(&mut self, place: usize, part: Part) -> &mut [u8] {
        self.frames[place].is_recent = true;
        self.arena.bytes_mut(Cache::range(place, part))
    }

    /// Bytes for a thread, which reads blocks into them.
    pub fn borrow(&mut self, range: Range<usize>) -> Loan {
        self.arena.borrow(range)
    }

    /// Takes back the bytes of a thread.
    pub fn take_back(&mut self, loan: Loan) {
        self.arena.take_back(loan);
    }

    /// The place of an extent's bytes, if its frames are in memory and adjacent there. Most that came in together are.
    pub fn adjacent(&self, extent: Extent) -> Option<Range<usize>> {
        let mut parts = extent.parts().map(|part| Some(Cache::range(self.find(part.number)?, part)));
        let first = parts.next()??;
        parts.try_fold(first, |range, next| {
            let next = next.filter(|next| self.arena.continues(&range, next))?;
            Some(range.start..next.end)
        })
    }

    /// Whether a range and the next one are adjacent.
    pub fn continues(&self, range: &Range<usize>, next: &Range<usize>) -> bool {
        self.arena.continues(range, next)
    }

    /// These bytes, for a command that is executed over them.
    pub fn all_bytes_mut(&mut self, range: Range<usize>) -> &mut [u8] {
        let places = range.start / FRAME_BYTES..(range.end + FRAME_BYTES - 1) / FRAME_BYTES;
        self.frames[places].iter_mut().for_each(|frame| frame.is_recent = true);
        self.arena.bytes_mut(range)
    }

    /// The frame of a part of an extent, if it is in memory.
    pub fn of(&self, part: Part) -> Option<&Frame> {
        self.find(part.number).map(|place| &self.frames[place])
    }

    /// Whether all blocks are in memory.
    pub fn has(&self, extent: Extent) -> bool {
        extent.parts().all(|part| self.of(part).map_or(false, |it| part.mask() & !it.valid == 0))
    }

    /// Blocks of a frame are valid from now on, and these are their bytes.
    pub fn put(&mut self, place: usize, part: Part, bytes: &[u8]) {
        self.bytes_mut(place, part).copy_from_slice(bytes);
        self.make_valid(place, part);
    }

    /// Blocks of a frame are zeros from now on.
    pub fn zero(&mut self, place: usize, part: Part) {
        self.bytes_mut(place, part).fill(0);
        self.make_valid(place, part);
    }

    /// Blocks of a frame are valid from now on.
    pub fn make_valid(&mut self, place: usize, part: Part) {
        let frame = &mut self.frames[place];
        frame.valid |= part.mask();
        frame.failed &= !part.mask();
    }

    /// Drops a frame, if the part is all of it and no command and no work of the disk needs it; whether it is gone.
    pub fn drop_whole(&mut self, part: Part) -> bool {
        match self.find(part.number) {
            Some(place) if part.mask() == Mask::MAX && !self.frames[place].is_busy => {
                self.places.remove(&part.number);
                self.last.set(None);
                self.frames[place].become_other(NOWHERE);
                self.frames[place].is_recent = false;
                true
            }
            _ => false,
        }
    }

    /// Changes a frame, and counts it again if it must stay.
    pub fn change<R>(&mut self, place: usize, act: impl FnOnce(&mut Frame) -> R) -> R {
        let frame = &mut self.frames[place];
        let result = act(frame);
        let is_busy = frame.must_stay();
        if is_busy != frame.is_busy {
            frame.is_busy = is_busy;
            self.busy = if is_busy { self.busy + 1 } else { self.busy - 1 };
        }
        result
    }

    /// Whether any command can get its frames.
    pub fn has_room(&self) -> bool {
        self.busy + MOST_PARTS <= self.most
    }

    /// Whether a Write can get its frames. It leaves as many to Reads, which wait for no writes then.
    pub fn has_room_to_write(&self) -> bool {
        self.busy + 2 * MOST_PARTS <= self.most
    }

    /// Whether more than half of the frames can be replaced.
    pub fn is_mostly_free(&self) -> bool {
        self.busy < self.most / 2
    }

    /// The place of a frame that was not in memory: it is new, or replaces another, and has no valid block.
    pub fn take(&mut self, number: u64) -> usize {
        let place = if let Some(place) = self.replaceable() {
            self.places.remove(&self.frames[place].number);
            self.frames[place].become_other(number);
            place
        } else {
            self.frames.push(Frame::new(number));
            self.arena.add();
            self.frames.len() - 1
        };
        self.places.insert(number, place);
        self.last.set(Some((number, place)));
        place
    }

    /// A frame to replace, unless there is memory for one more. If all must stay there is none, and the cache grows. The
    /// target takes no commands without room for them, except those that were held between fetch and execution.
    fn replaceable(&mut self) -> Option<usize> {
        if self.frames.len() < self.most || self.busy == self.frames.len() {
            return None;
        }
        loop {
            self.hand = (self.hand + 1) % self.frames.len();
            let frame = &mut self.frames[self.hand];
            if !frame.is_busy && !std::mem::take(&mut frame.is_recent) {
                return Some(self.hand);
            }
        }
    }
}

#[cfg(test)]
mod tests {
    use super::*;

    #[test]
    fn frames_are_replaced() {
        let mut cache = Cache::new(0);
        let most = cache.most as u64;
        for number in 0..most {
            let place = cache.take(number);
            cache.change(place, |it| it.valid = 1);
        }
        for number in [3, 4, 5] {
            let place = cache.find(number).unwrap();
            cache.change(place, |it| it.dirty = 1);
        }
        for number in most..4 * most {
            let place = cache.take(number);
            assert_eq!(cache.at(place).valid, 0);
        }
        assert_eq!((cache.frames.len() as u64, cache.busy), (most, 3));
        assert!((0..most).all(|it| cache.find(it).is_some() == (3..6).contains(&it)));
        assert!((3 * most + 3..4 * most).all(|it| cache.find(it).is_some()));
    }

    #[test]
    fn whole_frames_are_dropped() {
        let mut cache = Cache::new(0);
        let whole = |number| Part { number, from: 0, to: FRAME };
        for number in 0..3 {
            let place = cache.take(number);
            cache.make_valid(place, whole(number));
        }
        let busy = cache.find(1).unwrap();
        cache.change(busy, |it| it.dirty = 1);
        let parts = [whole(0), whole(1), Part { to: FRAME - 1, ..whole(2) }, whole(3)];
        assert_eq!(parts.map(|it| cache.drop_whole(it)), [true, false, false, false]);
        assert_eq!([0, 1, 2, 3].map(|it| cache.find(it).is_some()), [false, true, true, false]);
        for number in 9..9 + cache.most as u64 {
            cache.take(number);
        }
        let place = cache.take(0);
        assert_eq!((cache.at(place).valid, cache.frames.len()), (0, cache.most));
    }

    #[test]
    fn frames_in_use_stay() {
        let mut cache = Cache::new(0);
        let most = cache.most as u64;
        for number in 0..most {
            assert_eq!(cache.has_room(), number <= most - MOST_PARTS as u64);
            let place = cache.take(number);
            cache.change(place, |it| it.users = 1);
        }
        cache.take(most);
        assert!((0..=most).all(|it| cache.find(it).is_some()) && !cache.has_room());
        (0..cache.most).for_each(|it| cache.change(it, |it| it.users = 0));
        assert!(cache.has_room() && cache.busy == 0);
        for number in most + 1..9 * most {
            cache.take(number);
        }
        assert_eq!(cache.frames.len() as u64, most + 1);
    }
}
