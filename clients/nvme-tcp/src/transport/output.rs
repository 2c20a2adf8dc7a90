//! Bytes to send. Connections share buffers: one without bytes to send has none, and the next bytes go into a buffer
//! that the processor has in its cache.

use std::mem;

/// The most bytes of a buffer that is kept, and how many are.
const LONG: usize = 512 << 10;
const MOST_KEPT: usize = 4;

/// Buffers that no connection has.
#[derive(Default)]
pub struct Buffers {
    free: Vec<Vec<u8>>,
}

/// Bytes in the order in which they go.
#[derive(Default)]
pub struct Output {
    bytes: Vec<u8>,
    begin: usize,
    end: usize,
}

impl Output {
    /// How many bytes there are.
    pub fn len(&self) -> usize {
        self.end - self.begin
    }

    /// The bytes.
    pub fn waiting(&self) -> &[u8] {
        &self.bytes[self.begin..self.end]
    }

    /// Number of bytes sent.
    pub fn sent(&mut self, count: usize) {
        self.begin += count;
        if self.begin == self.end {
            (self.begin, self.end) = (0, 0);
        }
    }

    /// Takes a buffer, unless there is one.
    pub fn take_from(&mut self, buffers: &mut Buffers) {
        if self.bytes.is_empty() {
            self.bytes = buffers.free.pop().unwrap_or_default();
        }
    }

    /// Returns the buffer, if all bytes were sent.
    pub fn leave_to(&mut self, buffers: &mut Buffers) {
        if self.len() == 0 {
            let bytes = mem::take(&mut self.bytes);
            if !bytes.is_empty() && bytes.len() <= LONG && buffers.free.len() < MOST_KEPT {
                buffers.free.push(bytes);
            }
        }
    }

    /// Appends bytes.
    pub fn put(&mut self, part: &[u8]) {
        self.room(part.len()).copy_from_slice(part);
    }

    /// Appends at most `most` bytes by a function that returns how many it has written. If it fails, none are appended.
    pub fn fill<E>(&mut self, most: usize, put: impl FnOnce(&mut [u8]) -> Result<usize, E>) -> Result<(), E> {
        let put = put(self.room(most));
        self.end -= most - *put.as_ref().unwrap_or(&0);
        put.map(|_| ())
    }

    /// Extends the bytes by `length`. The caller must overwrite all of them: they are old ones.
    pub fn room(&mut self, length: usize) -> &mut [u8] {
        if self.begin != 0 && self.end + length > self.bytes.len() {
            self.bytes.copy_within(self.begin..self.end, 0);
            (self.begin, self.end) = (0, self.len());
        }
        let place = self.end;
        self.end += length;
        if self.end > self.bytes.len() {
            self.bytes.resize(self.end, 0);
        }
        &mut self.bytes[place..self.end]
    }
}

#[cfg(test)]
mod tests {
    use super::*;
    use crate::numbers::narrow;

    #[test]
    fn bytes_go_in_their_order() {
        let (mut output, mut came) = (Output::default(), Vec::<u8>::new());
        for count in 1..200_u8 {
            output.put(&vec![count; usize::from(count)]);
            let taken = output.len().min(90);
            came.extend(&output.waiting()[..taken]);
            output.sent(taken);
        }
        came.extend(output.waiting());
        let wanted: Vec<u8> = (1..200_u8).flat_map(|count| vec![count; usize::from(count)]).collect();
        assert_eq!(came, wanted);
        output.sent(output.len());
        output.put(&[1]);
        assert_eq!(output.waiting(), [1]);
        for (most, wanted) in [(5, Ok(2)), (9, Err(7)), (3, Ok(3))] {
            let put = |room: &mut [u8]| {
                room.fill(narrow(most));
                wanted
            };
            assert_eq!(output.fill(most, put), wanted.map(|_| ()));
        }
        assert_eq!(output.waiting(), [1, 5, 5, 3, 3, 3]);
    }

    #[test]
    fn buffers_are_shared() {
        let mut buffers = Buffers::default();
        let mut outputs: Vec<Output> = (0..2 * MOST_KEPT).map(|_| Output::default()).collect();
        for output in &mut outputs {
            output.take_from(&mut buffers);
            output.put(&[7; 100]);
            output.leave_to(&mut buffers);
            assert_eq!((output.waiting(), buffers.free.len()), (&[7; 100][..], 0), "they are not sent yet");
        }
        for output in &mut outputs {
            output.sent(100);
            output.leave_to(&mut buffers);
        }
        assert_eq!((buffers.free.len(), outputs[0].bytes.capacity()), (MOST_KEPT, 0));
        outputs[0].take_from(&mut buffers);
        outputs[0].put(&vec![1; LONG + 1]);
        outputs[0].sent(LONG + 1);
        outputs[0].leave_to(&mut buffers);
        assert_eq!(buffers.free.len(), MOST_KEPT - 1);
    }
}
