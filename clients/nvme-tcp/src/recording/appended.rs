//! A file that is written from its beginning to its end. Disk space is reserved ahead, since finding a place for each
//! page as it is written takes longer. The file is never longer than what was written, and unused space is released.

use crate::numbers::to_u64;
use crate::system::reserve;
use std::fs::File;
use std::io::{self, ErrorKind, IoSlice, Write};

/// A file reserves as many bytes as it has: at most the second number, and none if it has fewer than the first.
const MOST: u64 = 64 << 20;
const LEAST: u64 = 1 << 20;

/// A file with its reserved space.
pub struct Appended {
    file: File,
    /// How many bytes were written.
    length: u64,
    /// The end of the reserved space.
    reserved: u64,
    /// Whether more may be: no file that the system has refused it asks again.
    takes_room: bool,
}

impl Appended {
    /// A file that is empty, or is a stream.
    pub fn new(file: File) -> io::Result<Appended> {
        let takes_room = file.metadata()?.is_file();
        Ok(Appended { file, length: 0, reserved: 0, takes_room })
    }

    /// Appends bytes.
    pub fn append(&mut self, bytes: &[u8]) -> io::Result<()> {
        self.make_room(to_u64(bytes.len()));
        self.file.write_all(bytes)?;
        self.length += to_u64(bytes.len());
        Ok(())
    }

    /// Appends bytes, and then others from a second slice.
    pub fn append_both(&mut self, first: &[u8], then: &[u8]) -> io::Result<()> {
        if then.is_empty() {
            return self.append(first);
        }
        let count = first.len() + then.len();
        self.make_room(to_u64(count));
        let done = match self.file.write_vectored(&[IoSlice::new(first), IoSlice::new(then)]) {
            Err(error) if error.kind() == ErrorKind::Interrupted => 0,
            result => result?,
        };
        self.file.write_all(&first[done.min(first.len())..])?;
        self.file.write_all(&then[done.saturating_sub(first.len())..])?;
        self.length += to_u64(count);
        Ok(())
    }

    /// Releases unused space and syncs the file. A pipe has no disk.
    pub fn sync(&mut self) -> io::Result<()> {
        self.give_back();
        match self.file.sync_all() {
            Err(error) if error.kind() == ErrorKind::InvalidInput => Ok(()),
            result => result,
        }
    }

    /// How many bytes it has.
    pub fn length(&self) -> u64 {
        self.length
    }

    /// Reserves space for `count` more bytes and some after them, if it is due. The file works without it if the
    /// system refuses.
    fn make_room(&mut self, count: u64) {
        let (place, room) = match wanted(self.length, count, self.reserved) {
            Some(wanted) if self.takes_room => wanted,
            _ => return,
        };
        self.reserved = place + room;
        if reserve(&self.file, place, room).is_err() {
            self.takes_room = false;
            self.give_back();
        }
    }

    /// Releases the space that nothing was written to, unless the system refuses.
    pub fn give_back(&mut self) {
        if self.reserved > self.length {
            let _ = self.file.metadata().and_then(|it| self.file.set_len(it.len()));
            self.reserved = self.length;
        }
    }
}

impl Drop for Appended {
    fn drop(&mut self) {
        self.give_back();
    }
}

/// Position and length of the space to reserve before `count` bytes are appended to a file of `length` bytes, whose
/// space ends at `reserved`.
fn wanted(length: u64, count: u64, reserved: u64) -> Option<(u64, u64)> {
    let place = length.max(reserved);
    if length < LEAST || length + count <= place {
        None
    } else {
        Some((place, length.min(MOST).max(length + count - place)))
    }
}

#[cfg(test)]
mod tests {
    use super::*;
    use std::fs;
    use std::os::unix::fs::MetadataExt;

    #[test]
    fn room_grows_with_the_file() {
        let (mut length, mut reserved, mut rooms) = (0, 0, Vec::new());
        while length < 512 << 20 {
            if let Some((place, room)) = wanted(length, 256 << 10, reserved) {
                assert!(place == length && room <= length);
                reserved = place + room;
                rooms.push(room >> 20);
            }
            length += 256 << 10;
            assert!(length <= LEAST || length <= reserved);
        }
        assert_eq!(rooms, [1, 2, 4, 8, 16, 32, 64, 64, 64, 64, 64, 64, 64]);
        assert_eq!(wanted(LEAST, MOST + 1, 0), Some((LEAST, MOST + 1)));
        assert_eq!(wanted(5 << 20, 2 << 20, 6 << 20), Some((6 << 20, 5 << 20)));
    }

    #[test]
    fn room_that_is_left_over_is_given_back() {
        let path = std::env::temp_dir().join(format!("nvmetcp-appended-{}", std::process::id()));
        let mut file = Appended::new(File::create(&path).unwrap()).unwrap();
        for count in [LEAST, 1, LEAST] {
            file.append(&vec![7; count as usize]).unwrap();
            file.give_back();
            let there = fs::metadata(&path).unwrap();
            assert!(there.len() == file.length && there.blocks() * 512 < file.length + LEAST / 2);
        }
        drop(file);
        assert!(fs::read(&path).unwrap() == [7; 2 * LEAST as usize + 1]);
        fs::remove_file(path).unwrap();
    }

    #[test]
    fn what_is_no_file_gets_no_room() {
        let mut file = Appended::new(File::create("/dev/null").unwrap()).unwrap();
        for _ in 0..3 {
            file.append(&vec![7; LEAST as usize]).unwrap();
        }
        assert_eq!(file.reserved, 0);
    }
}
