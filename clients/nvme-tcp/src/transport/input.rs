//! Received bytes that were not taken yet. A connection has memory of its own for a few; the next bytes are received
//! into a shared buffer, which the processor has in its cache. A connection keeps such a buffer while many bytes wait
//! there, such as the part of a long PDU.

use std::mem;

/// With more bytes than these a connection keeps its buffer.
const FEW: usize = 16 << 10;

/// Rooms of one size that no connection keeps.
pub struct Rooms {
    size: usize,
    free: Vec<Vec<u8>>,
}

impl Rooms {
    /// Buffers of this size.
    pub fn new(size: usize) -> Rooms {
        Rooms { size, free: Vec::new() }
    }

    fn next(&mut self) -> Vec<u8> {
        self.free.pop().unwrap_or_else(|| vec![0; self.size])
    }
}

/// The bytes of a connection.
#[derive(Default)]
pub struct Input {
    /// A buffer, or few bytes.
    bytes: Vec<u8>,
    begin: usize,
    end: usize,
    /// How many of them, from the first on, are of the PDU in hand.
    in_hand: usize,
    has_room: bool,
}

impl Input {
    /// The bytes.
    #[inline]
    pub fn waiting(&self) -> &[u8] {
        &self.bytes[self.begin..self.end]
    }

    /// Those of the PDU in hand, as far as they were taken.
    #[inline]
    pub fn unit(&self) -> &[u8] {
        &self.waiting()[..self.in_hand]
    }

    /// Those that were not taken yet.
    #[inline]
    pub fn fresh(&self) -> &[u8] {
        &self.waiting()[self.in_hand..]
    }

    /// Number of bytes taken of those that were not.
    #[inline]
    pub fn taken(&mut self, count: usize) {
        self.in_hand += count;
    }

    /// The PDU in hand is done: its bytes are not needed any more.
    #[inline]
    pub fn drop_unit(&mut self) {
        self.begin += self.in_hand;
        self.in_hand = 0;
    }

    /// None of them is needed any more.
    pub fn clear(&mut self) {
        self.begin = self.end;
        self.in_hand = 0;
    }

    /// Appends what `receive` returns, up to `most` bytes in all. `receive` returns how many bytes it has written to
    /// the front of its slice.
    #[inline]
    pub fn fill<E>(
        &mut self,
        rooms: &mut Rooms,
        most: usize,
        receive: impl FnOnce(&mut [u8]) -> Result<usize, E>,
    ) -> Result<usize, E> {
        if self.has_room {
            self.bytes.copy_within(self.begin..self.end, 0);
        } else {
            let few = mem::replace(&mut self.bytes, rooms.next());
            self.bytes[..self.end - self.begin].copy_from_slice(&few[self.begin..self.end]);
            self.has_room = true;
        }
        (self.begin, self.end) = (0, self.end - self.begin);
        let last = most.min(self.bytes.len());
        let count = receive(&mut self.bytes[self.end..last])?;
        self.end += count;
        Ok(count)
    }

    /// Returns the buffer, unless many bytes wait there.
    #[inline]
    pub fn leave(&mut self, rooms: &mut Rooms) {
        if self.has_room && self.end - self.begin <= FEW {
            let few = self.waiting().to_vec();
            rooms.free.push(mem::replace(&mut self.bytes, few));
            (self.begin, self.end) = (0, self.bytes.len());
            self.has_room = false;
        }
    }
}

#[cfg(test)]
mod tests {
    use super::*;

    fn receive(input: &mut Input, rooms: &mut Rooms, bytes: &[u8]) {
        let put = |room: &mut [u8]| {
            room[..bytes.len()].copy_from_slice(bytes);
            Ok::<usize, ()>(bytes.len())
        };
        assert_eq!(input.fill(rooms, usize::MAX, put), Ok(bytes.len()));
    }

    #[test]
    fn bytes_stay_in_their_order() {
        let (mut rooms, mut inputs) = (Rooms::new(3 * FEW), [Input::default(), Input::default()]);
        let (mut waits, mut next) = ([vec![], vec![]], 0_u8);
        for turn in 1..60 {
            for (input, waits) in inputs.iter_mut().zip(&mut waits) {
                next = next.wrapping_add(1);
                let bytes = vec![next; turn * 97 % FEW];
                receive(input, &mut rooms, &bytes);
                waits.extend(bytes);
                assert!(input.waiting() == waits);
                let count = if turn % 3 == 0 { waits.len() / 2 } else { waits.len() };
                let count = count.max(input.unit().len());
                input.taken(count - input.unit().len());
                input.leave(&mut rooms);
                assert!(input.unit() == &waits[..count] && input.fresh() == &waits[count..]);
                if turn % 2 == 0 {
                    input.drop_unit();
                    waits.drain(..count);
                }
                assert!(input.waiting() == waits);
            }
        }
        assert!(rooms.free.len() <= 2);
    }

    #[test]
    fn a_room_is_kept_for_much() {
        let (mut rooms, mut input) = (Rooms::new(3 * FEW), Input::default());
        receive(&mut input, &mut rooms, &[7; FEW + 1]);
        input.leave(&mut rooms);
        assert!(input.has_room && rooms.free.is_empty());
        input.taken(1);
        input.drop_unit();
        input.leave(&mut rooms);
        assert!(!input.has_room && rooms.free.len() == 1 && input.waiting() == [7; FEW]);
        let count = input.fill(&mut rooms, FEW + 5, |room| Ok::<usize, ()>(room.len()));
        assert_eq!((count, input.waiting().len()), (Ok(5), FEW + 5));
    }
}
