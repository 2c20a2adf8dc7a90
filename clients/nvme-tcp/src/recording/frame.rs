//! Frames: each has one batch of a recording. A frame has its position in the file and two digests, so that a reader
//! detects a frame that is cut, damaged, missing or moved.

use crate::bytes::{put, u32_at, u64_at};
use crate::digest::{crc32c, crc32c_after};
use crate::numbers::{index, narrow, to_u64};
use std::fmt;
use std::io::{self, ErrorKind, Read};

/// The size of a head: the position of its frame in the file, the length of its content, the number of its events, a
/// digest of the content, and a digest of these four.
const HEAD: usize = 24;
const LENGTH_AT: usize = 8;
const EVENTS_AT: usize = 12;
const CONTENT_DIGEST_AT: usize = 16;
const HEAD_DIGEST_AT: usize = 20;
/// The greatest length of a content in bytes.
const MOST: usize = 8 << 20;
/// The number of bytes to read at a time.
const READ: usize = 1 << 20;

/// The head of a frame, without its position.
#[derive(Clone, Copy, Debug, Default)]
pub struct Head {
    events: usize,
    length: usize,
    digest: u32,
}

impl Head {
    /// The head for a content, given in two parts. Each event takes at least one byte of it.
    pub fn new(events: usize, first: &[u8], then: &[u8]) -> Head {
        Head { events, length: first.len() + then.len(), digest: crc32c_after(crc32c(first), then) }
    }

    /// The bytes of this head for a frame at `place` of the file. An error if its content is longer than a reader takes.
    pub fn bytes(&self, place: u64) -> io::Result<[u8; HEAD]> {
        let (length, mut bytes) = (self.length.max(self.events), [0; HEAD]);
        if length > MOST {
            let text = format!("a frame has at most {MOST} bytes, not {length}");
            return Err(io::Error::new(ErrorKind::InvalidData, text));
        }
        put(&mut bytes, 0, &place.to_le_bytes());
        put(&mut bytes, LENGTH_AT, &narrow::<_, u32>(self.length).to_le_bytes());
        put(&mut bytes, EVENTS_AT, &narrow::<_, u32>(self.events).to_le_bytes());
        put(&mut bytes, CONTENT_DIGEST_AT, &self.digest.to_le_bytes());
        let digest = crc32c(&bytes[..HEAD_DIGEST_AT]);
        put(&mut bytes, HEAD_DIGEST_AT, &digest.to_le_bytes());
        Ok(bytes)
    }

    /// The head that `bytes`, which are at `place` of the file, begin with, if there is one.
    fn of(bytes: &[u8], place: u64) -> Option<Head> {
        let bytes = bytes.get(..HEAD).filter(|it| u64_at(it, 0) == place)?;
        let [length, events] = [LENGTH_AT, EVENTS_AT].map(|at| index(u32_at(bytes, at)));
        let head = Head { events, length, digest: u32_at(bytes, CONTENT_DIGEST_AT) };
        let is_right = crc32c(&bytes[..HEAD_DIGEST_AT]) == u32_at(bytes, HEAD_DIGEST_AT) && length <= MOST;
        is_right.then_some(head)
    }
}

/// Why there is no next frame.
#[derive(Debug)]
pub enum Broken {
    /// The last `count` bytes, from `place` on, have no whole frame. `events` is the number of events of the frame at
    /// `place`, if its head is intact.
    Torn { place: u64, count: u64, events: Option<usize> },
    /// The frame at `place` is damaged, and a whole one follows at `next`.
    Damaged { place: u64, next: u64 },
    /// The bytes could not be read.
    System(io::Error),
}

impl From<io::Error> for Broken {
    fn from(error: io::Error) -> Self {
        Broken::System(error)
    }
}

impl fmt::Display for Broken {
    fn fmt(&self, f: &mut fmt::Formatter<'_>) -> fmt::Result {
        match self {
            Broken::Torn { place, count, events } => {
                write!(f, "torn end: left out the last {count} bytes, from byte {place} on, and ")?;
                match events {
                    Some(events) => write!(f, "{events} events"),
                    None => f.write_str("an unknown number of events"),
                }
            }
            Broken::Damaged { place, next } => {
                write!(f, "damaged frame at byte {place}: a whole one follows at byte {next}")
            }
            Broken::System(error) => error.fmt(f),
        }
    }
}

/// Reads the frames of a file or a stream.
pub struct Frames<R> {
    input: R,
    buffer: Vec<u8>,
    /// The index in the buffer of the current frame, and its position in the file.
    at: usize,
    place: u64,
    /// The length of the current frame once it is returned, with its head; otherwise 0.
    read: usize,
}

impl<R: Read> Frames<R> {
    /// The frames of an input whose first byte is at `place` of the file.
    pub fn new(input: R, place: u64) -> Self {
        Frames { input, buffer: Vec::new(), at: 0, place, read: 0 }
    }

    /// The position of the last frame in the file.
    pub fn place(&self) -> u64 {
        self.place
    }

    /// The next frame: the number of its events, and its content. `None` at the end.
    pub fn next(&mut self) -> Result<Option<(usize, &[u8])>, Broken> {
        self.skip(self.read);
        self.read = 0;
        if !self.has(1)? {
            return Ok(None);
        }
        match self.whole()? {
            Some(Head { events, length, .. }) => {
                self.read = HEAD + length;
                let begin = self.at + HEAD;
                Ok(Some((events, &self.buffer[begin..begin + length])))
            }
            None => Err(self.judge()?),
        }
    }

    /// The head of the frame at the current position, if the frame is whole.
    fn whole(&mut self) -> io::Result<Option<Head>> {
        if !self.has(HEAD)? {
            return Ok(None);
        }
        let head = match Head::of(&self.buffer[self.at..], self.place) {
            Some(head) if self.has(HEAD + head.length)? => head,
            _ => return Ok(None),
        };
        let begin = self.at + HEAD;
        let is_whole = crc32c(&self.buffer[begin..begin + head.length]) == head.digest;
        Ok(is_whole.then_some(head))
    }

    /// Why the frame at the current position is not whole: damaged if a whole one follows anywhere, otherwise torn.
    fn judge(&mut self) -> io::Result<Broken> {
        let place = self.place;
        let cut = Head::of(&self.buffer[self.at..], place);
        while self.has(HEAD)? {
            self.skip(1);
            if self.whole()?.is_some() {
                return Ok(Broken::Damaged { place, next: self.place });
            }
        }
        let count = self.place - place + to_u64(self.buffer.len() - self.at);
        Ok(Broken::Torn { place, count, events: cut.map(|it| it.events) })
    }

    fn skip(&mut self, count: usize) {
        self.at += count;
        self.place += to_u64(count);
    }

    /// Reads until the buffer has `count` bytes from the current position on. Returns false if the input ends before.
    fn has(&mut self, count: usize) -> io::Result<bool> {
        while self.buffer.len() - self.at < count {
            self.buffer.drain(..self.at);
            self.at = 0;
            let missing = count - self.buffer.len();
            let most = to_u64(missing.max(READ));
            if self.input.by_ref().take(most).read_to_end(&mut self.buffer)? == 0 {
                return Ok(false);
            }
        }
        Ok(true)
    }
}

#[cfg(test)]
mod tests {
    use super::*;

    const PLACE: u64 = 20;

    /// Frames with these contents, and the ends of each.
    fn frames(contents: &[&[u8]]) -> (Vec<u8>, Vec<usize>) {
        let (mut bytes, mut ends) = (Vec::new(), vec![0]);
        for content in contents {
            let (first, then) = content.split_at(content.len() / 3);
            let place = PLACE + bytes.len() as u64;
            bytes.extend(Head::new(content.len(), first, then).bytes(place).unwrap());
            bytes.extend_from_slice(content);
            ends.push(bytes.len());
        }
        (bytes, ends)
    }

    /// The contents of the frames up to the first broken one, and why that is broken.
    fn read(bytes: &[u8]) -> (Vec<Vec<u8>>, Option<Broken>) {
        let (mut frames, mut contents) = (Frames::new(bytes, PLACE), Vec::new());
        loop {
            match frames.next() {
                Ok(Some((events, content))) => {
                    assert_eq!(events, content.len());
                    contents.push(content.to_vec());
                }
                Ok(None) => return (contents, None),
                Err(broken) => return (contents, Some(broken)),
            }
        }
    }

    fn contents() -> Vec<Vec<u8>> {
        vec![b"a".to_vec(), vec![], (0..=255).collect(), vec![7; 3], b"the last".to_vec()]
    }

    #[test]
    fn frames_are_read() {
        let long: Vec<u8> = (0..3 * READ + 5).map(|at| (at % 251) as u8).collect();
        for contents in [vec![], contents(), vec![long.clone(), vec![1], long]] {
            let (bytes, _) = frames(&contents.iter().map(|it| &it[..]).collect::<Vec<_>>());
            let (found, broken) = read(&bytes);
            assert!(found == contents && broken.is_none());
        }
    }

    #[test]
    fn a_cut_leaves_the_frames_before_it() {
        let contents = contents();
        let (bytes, ends) = frames(&contents.iter().map(|it| &it[..]).collect::<Vec<_>>());
        for cut in 0..=bytes.len() {
            let whole = ends.iter().filter(|end| **end <= cut).count() - 1;
            let (found, broken) = read(&bytes[..cut]);
            assert!(found == contents[..whole], "{cut}");
            match broken {
                None => assert_eq!(cut, ends[whole]),
                Some(Broken::Torn { place, count, events }) => {
                    assert_eq!((place, count), (PLACE + ends[whole] as u64, (cut - ends[whole]) as u64));
                    let has_head = cut - ends[whole] >= HEAD;
                    assert_eq!(events, has_head.then_some(contents[whole].len()));
                }
                Some(other) => panic!("{cut}: {other}"),
            }
        }
    }

    #[test]
    fn a_damaged_frame_is_refused_unless_it_is_the_last() {
        let contents = contents();
        let (bytes, ends) = frames(&contents.iter().map(|it| &it[..]).collect::<Vec<_>>());
        for at in 0..bytes.len() {
            let mut damaged = bytes.clone();
            damaged[at] ^= 1 << (at % 8);
            let which = ends.iter().filter(|end| **end <= at).count() - 1;
            let (found, broken) = read(&damaged);
            assert!(found == contents[..which], "{at}");
            let begin = PLACE + ends[which] as u64;
            match broken {
                Some(Broken::Damaged { place, next }) => {
                    assert_eq!((place, next), (begin, PLACE + ends[which + 1] as u64));
                }
                Some(Broken::Torn { place, .. }) => assert_eq!((place, which), (begin, contents.len() - 1)),
                other => panic!("{at}: {other:?}"),
            }
        }
    }

    #[test]
    fn frames_that_are_missing_or_moved_are_refused() {
        let contents = contents();
        let (bytes, ends) = frames(&contents.iter().map(|it| &it[..]).collect::<Vec<_>>());
        let part = |which: usize| &bytes[ends[which]..ends[which + 1]];
        let moved = [part(0), part(2), part(1), part(3), part(4)].concat();
        assert!(matches!(read(&moved).1, Some(Broken::Damaged { place, .. }) if place == PLACE + ends[1] as u64));
        let missing = [part(0), part(1), part(3), part(4)].concat();
        assert!(matches!(read(&missing).1, Some(Broken::Torn { place, .. }) if place == PLACE + ends[2] as u64));
        // A frame of another file inside a content does not count as a frame of this one.
        let (other, _) = frames(&[b"another file", b"with frames"]);
        let (bytes, ends) = frames(&[b"a", &other]);
        assert!(matches!(read(&bytes[..ends[2] - 1]).1, Some(Broken::Torn { count, .. }) if count as usize
            == ends[2] - 1 - ends[1]));
    }

    #[test]
    fn a_content_that_is_too_long_is_a_fault() {
        assert!(Head::new(1, &vec![0; MOST], &[]).bytes(0).is_ok());
        assert!(Head::new(1, &vec![0; MOST], &[0]).bytes(0).is_err());
        assert!(Head::new(MOST + 1, &[], &[]).bytes(0).is_err());
    }
}
