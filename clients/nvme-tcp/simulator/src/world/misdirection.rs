//! Reads and writes that a disk makes at a wrong place.

use super::disk::{Disks, SECTOR};
use crate::chance::Random;
use std::ops::Range;

/// The places of superblock and journal in a volume, and of the journal alone.
const STATE: Range<usize> = 0..1152 << 10;
const JOURNAL: Range<usize> = 128 << 10..1152 << 10;
const PAGE: usize = 4096;
/// What a batch of a state folder's journal begins with: its length, and two digests.
const RECORD_HEAD: usize = 12;
/// What a batch of a volume's journal begins with, and the places of its length, and of the numbers of its segment and
/// of itself.
const MAGIC: &[u8] = b"nvmetcpj";
const LENGTH_AT: usize = 12;
const SEGMENT_AT: usize = 16;
const NUMBER_AT: usize = 24;
const HEAD: usize = 32;
/// The most pages that a read of state has from a wrong place.
const MOST_PAGES: usize = 32;

/// Which call goes to a wrong place.
#[derive(Clone, Copy, Debug, PartialEq, Eq)]
pub enum Stray {
    /// The next write to the journal of a volume or a state folder, to another place of it.
    Journal,
    /// The next write to the superblock or the journal of a volume, or to the journal of a state folder, to another place
    /// of these.
    State,
    /// The next write or read of blocks, to other blocks; or a write of a volume, to its superblock or journal.
    WrittenBlocks,
    ReadBlocks,
    /// The read of superblock or journal, of a volume or a state folder, after this number of others.
    ReadState(usize),
}

/// A write of a file that went to a wrong place.
#[derive(Debug)]
pub struct Misdirected {
    inode: usize,
    wrongs: Vec<Wrong>,
}

/// What is at a place since, and what should be there.
#[derive(Debug)]
struct Wrong {
    place: usize,
    found: Vec<u8>,
    right: Vec<u8>,
}

/// Blocks that a disk has read from, written to, or not written to the right place: the bytes that they may have
/// since.
#[derive(Debug)]
pub struct Strayed {
    pub block: usize,
    pub bytes: Vec<u8>,
}

/// The disk's way to go wrong.
#[derive(Debug, Default)]
pub struct Misdirection {
    /// What goes wrong next, if something does.
    pub next: Option<Stray>,
    /// The write of state that went wrong last.
    pub misdirected: Option<Misdirected>,
    /// How many reads of state went wrong.
    pub reads: u64,
}

fn number_at(bytes: &[u8], at: usize) -> u64 {
    bytes[at..at + 8].iter().rev().fold(0, |sum, it| sum << 8 | u64::from(*it))
}

/// The newest batch of a volume's journal. Without it the journal is as after a loss of power before it was synced, which
/// nobody could tell apart.
fn newest_batch(volume: &[u8]) -> Range<usize> {
    let pages =
        JOURNAL.step_by(PAGE).filter(|at| volume.get(*at..*at + PAGE).map_or(false, |it| it.starts_with(MAGIC)));
    let newest = pages.max_by_key(|at| (number_at(volume, at + SEGMENT_AT), number_at(volume, at + NUMBER_AT)));
    newest.map_or(0..0, |at| at..at + HEAD + (number_at(volume, at + LENGTH_AT) as u32) as usize)
}

fn meets(one: &Range<usize>, other: &Range<usize>) -> bool {
    one.start < other.end && other.start < one.end
}

/// A page of some, for a number of bytes.
fn page_in(all: Range<usize>, count: usize, random: &mut Random) -> usize {
    all.start + PAGE * random.index(all.len().saturating_sub(count) / PAGE + 1)
}

impl Disks {
    fn is_served(&self, inode: usize) -> bool {
        self.served.map_or(false, |(served, _)| served == inode)
    }

    /// The place of the first block in a volume or an image.
    fn first(&self) -> usize {
        self.served.map_or(0, |(_, place)| place)
    }

    fn is_volume(&self) -> bool {
        self.first() != 0
    }

    /// Whether bytes at a place are whole blocks.
    fn are_blocks(&self, inode: usize, place: usize, count: usize) -> bool {
        self.is_served(inode) && place >= self.first() && place % SECTOR == 0 && count % SECTOR == 0 && count != 0
    }

    /// Bytes that are now at a place of the blocks, which other blocks may have from now on.
    fn strayed(&self, place: usize, from: usize, count: usize) -> Strayed {
        let (inode, first) = self.served.unwrap_or_default();
        let bytes = self.inodes[inode].data[from..from + count].to_vec();
        Strayed { block: (place - first) / SECTOR, bytes }
    }

    /// The place to which the disk writes bytes of a file that belong at another, and what blocks may have since.
    pub fn place_of(&mut self, inode: usize, right: usize, bytes: &[u8], random: &mut Random) -> (usize, Vec<Strayed>) {
        let (next, end) = (self.misdirection.next, self.inodes[inode].data.len());
        let blocks = self.are_blocks(inode, right, bytes.len()) && right + bytes.len() <= end;
        let is_state = self.is_volume() && self.is_served(inode) && STATE.contains(&right);
        let wrong = match next {
            Some(Stray::Journal) if is_state && JOURNAL.contains(&right) => page_in(JOURNAL, bytes.len(), random),
            Some(Stray::State) if is_state => page_in(STATE, bytes.len(), random),
            Some(Stray::WrittenBlocks) if blocks && self.is_volume() && random.once_in(3) => {
                page_in(STATE, bytes.len(), random)
            }
            Some(Stray::WrittenBlocks) if blocks => page_in(self.first()..end, bytes.len(), random),
            _ => return (right, Vec::new()),
        };
        let place = wrong..wrong + bytes.len();
        let hides_newest =
            next != Some(Stray::Journal) && self.is_volume() && meets(&place, &newest_batch(&self.inodes[inode].data));
        if wrong == right || place.end > end || hides_newest {
            return (right, Vec::new());
        }
        self.misdirection.next = None;
        let mut strayed = Vec::new();
        if blocks {
            strayed.push(self.strayed(right, right, bytes.len()));
        }
        if is_state || self.is_volume() && wrong < self.first() {
            let data = &self.inodes[inode].data;
            let mut wrongs = vec![Wrong { place: wrong, found: bytes.to_vec(), right: data[place].to_vec() }];
            if right < self.first() {
                let found = data[right..right + bytes.len()].to_vec();
                wrongs.push(Wrong { place: right, found, right: bytes.to_vec() });
            }
            self.misdirection.misdirected = Some(Misdirected { inode, wrongs });
        } else {
            strayed.push(Strayed { block: (wrong - self.first()) / SECTOR, bytes: bytes.to_vec() });
        }
        (wrong, strayed)
    }

    /// An operator undoes a misdirected write, as far as nothing was written there since, and syncs that; whether there
    /// was one. Blocks that are missing stay so.
    pub fn put_back(&mut self) -> bool {
        let Misdirected { inode, wrongs } = match self.misdirection.misdirected.take() {
            Some(it) => it,
            None => return false,
        };
        let file = &mut self.inodes[inode];
        for Wrong { place, found, right } in wrongs {
            if file.data.get(place..place + found.len()) == Some(&found) {
                file.write(place, &right);
            }
        }
        file.sync(file.written());
        true
    }

    /// The disk writes the sectors of a batch that is appended to the journal of a state folder over others of it; whether
    /// it does. The file is longer then by what it had there before: nothing. A disk has no place for a part of a batch.
    pub fn misplace_append(&mut self, inode: usize, right: usize, bytes: &[u8], random: &mut Random) -> bool {
        let is_next = matches!(self.misdirection.next, Some(Stray::Journal | Stray::State));
        let is_batch = bytes.len() > RECORD_HEAD && number_at(bytes, 0) as u32 as usize == bytes.len() - RECORD_HEAD;
        if !is_next || !is_batch || !self.is_of_folder(inode) || right != self.inodes[inode].data.len() {
            return false;
        }
        let begin = right / SECTOR * SECTOR;
        let wrong = SECTOR * random.index(begin / SECTOR + 1);
        if wrong == begin {
            return false;
        }
        let (file, nothing) = (&mut self.inodes[inode], vec![0; bytes.len()]);
        let moved = [&file.data[begin..], bytes].concat();
        file.write(right, &nothing);
        let before = file.data[wrong..wrong + moved.len()].to_vec();
        file.write(wrong, &moved);
        file.sync(file.written());
        let wrongs = vec![
            Wrong { place: wrong, found: moved, right: before },
            Wrong { place: right, found: nothing, right: bytes.to_vec() },
        ];
        (self.misdirection.next, self.misdirection.misdirected) = (None, Some(Misdirected { inode, wrongs }));
        true
    }

    fn is_of_folder(&self, inode: usize) -> bool {
        self.find("/state/journal".as_ref()) == Some(inode)
    }

    /// Changes what was read at a place of a file to what is elsewhere, if the disk does so now; what blocks may have
    /// since.
    pub fn misread(&mut self, inode: usize, place: usize, room: &mut [u8], random: &mut Random) -> Option<Strayed> {
        match self.misdirection.next {
            Some(Stray::ReadBlocks) if self.are_blocks(inode, place, room.len()) => {
                let end = self.inodes[inode].data.len();
                let from = self.first() + SECTOR * random.index((end - self.first() - room.len()) / SECTOR + 1);
                self.misdirection.next = None;
                room.copy_from_slice(&self.inodes[inode].data[from..from + room.len()]);
                Some(self.strayed(place, from, room.len()))
            }
            Some(Stray::ReadState(after)) if self.is_state(inode, place) => {
                self.misdirection.next = after.checked_sub(1).map(Stray::ReadState);
                if after == 0 {
                    self.misread_state(inode, place, room, random);
                }
                None
            }
            _ => None,
        }
    }

    /// Whether bytes of a file are superblock or journal.
    fn is_state(&self, inode: usize, place: usize) -> bool {
        self.is_of_folder(inode) || self.is_volume() && self.is_served(inode) && STATE.contains(&place)
    }

    /// A disk reads in several requests, of which one goes to a wrong place of the same file.
    fn misread_state(&mut self, inode: usize, place: usize, room: &mut [u8], random: &mut Random) {
        let (data, unit) = (&self.inodes[inode].data, if self.is_served(inode) { PAGE } else { SECTOR });
        let units = (room.len() + unit - 1) / unit;
        if units == 0 {
            return;
        }
        let first = random.index(units);
        let count = random.within(1, (units - first).min(MOST_PAGES) as u64) as usize;
        let part = first * unit..((first + count) * unit).min(room.len());
        let most = if random.once_in(2) { STATE.end.min(data.len()) } else { data.len() };
        let from = unit * random.index(most.saturating_sub(part.len()) / unit + 1);
        if from != place + part.start && from + part.len() <= data.len() {
            room[part.clone()].copy_from_slice(&data[from..from + part.len()]);
            self.misdirection.reads += 1;
        }
    }
}

#[cfg(test)]
mod tests {
    use super::super::disk::Kind;
    use super::*;
    use std::path::Path;

    /// A volume of which each sector has its number, and whose journal has nothing.
    fn disks() -> (Disks, usize) {
        let mut disks = Disks::new();
        let inode = disks.create(Path::new("/volume"), Kind::BlockDevice);
        disks.inodes[inode].fill(&(0..6144u32).flat_map(|it| it.to_le_bytes().repeat(SECTOR / 4)).collect::<Vec<u8>>());
        disks.served = Some((inode, 2 << 20));
        (disks, inode)
    }

    #[test]
    fn a_read_of_blocks_brings_others_once() {
        let (mut disks, inode) = disks();
        let (mut random, place) = (Random::new(7), (2 << 20) + 3 * PAGE);
        let mut room = disks.inodes[inode].data[place..place + PAGE].to_vec();
        let right = room.clone();
        assert!(disks.misread(inode, place, &mut room, &mut random).is_none() && room == right);
        disks.misdirection.next = Some(Stray::ReadBlocks);
        let strayed = disks.misread(inode, place, &mut room, &mut random).expect("it is misdirected");
        assert!(strayed.block == 24 && strayed.bytes == room && room != right);
        assert_eq!(disks.misdirection.next, None);
    }

    #[test]
    fn a_write_of_blocks_leaves_what_was_there() {
        let (mut random, place) = (Random::new(7), 2 << 20);
        for _ in 0..50 {
            let (mut disks, inode) = disks();
            disks.misdirection.next = Some(Stray::WrittenBlocks);
            let (wrong, strayed) = disks.place_of(inode, place, &[9; PAGE], &mut random);
            let old = &disks.inodes[inode].data[place..place + PAGE];
            let is_state = wrong < place;
            assert!(wrong == place || strayed.len() == 2 - usize::from(is_state));
            assert!(wrong == place || strayed[0].bytes == old && strayed[0].block == 0);
            assert_eq!(disks.misdirection.misdirected.is_some(), is_state);
        }
    }

    #[test]
    fn an_append_is_put_back() {
        let (mut disks, mut random) = (Disks::new(), Random::new(7));
        let inode = disks.create(Path::new("/state/journal"), Kind::File);
        let before: Vec<u8> = (0..1300).map(|it| it as u8 | 1).collect();
        let batch = [&8u32.to_le_bytes()[..], &[0; 8], b"contents"].concat();
        for next in [None, Some(Stray::Journal), Some(Stray::State)] {
            disks.inodes[inode].fill(&before);
            disks.misdirection.next = next;
            let is_misplaced = (0..50).any(|_| disks.misplace_append(inode, before.len(), &batch, &mut random));
            assert_eq!((is_misplaced, disks.misdirection.next), (next.is_some(), None));
            if is_misplaced {
                let data = &disks.inodes[inode].data;
                assert!(data.ends_with(&[0; 20]) && data[..1024].windows(20).any(|it| it == batch));
                assert!(disks.put_back() && disks.inodes[inode].data == [&before[..], &batch].concat());
            }
        }
    }

    #[test]
    fn a_read_of_state_is_counted_when_it_is_wrong() {
        let (mut disks, inode) = disks();
        let (mut room, mut random) = (disks.inodes[inode].data[..PAGE].to_vec(), Random::new(7));
        disks.misdirection.next = Some(Stray::ReadState(1));
        assert!(disks.misread(inode, 0, &mut room, &mut random).is_none());
        assert_eq!((disks.misdirection.next, disks.misdirection.reads), (Some(Stray::ReadState(0)), 0));
        let before = room.clone();
        disks.misread(inode, 0, &mut room, &mut random);
        assert_eq!((disks.misdirection.next, disks.misdirection.reads == 1), (None, room != before));
    }
}
