//! Work of the disk: what a job reads, writes, zeroes or syncs, and the calls that it makes.

use super::aligned::Aligned;
use super::arena::Loan;
use super::frames::{Extent, Mask, Part};
use crate::numbers::{to_u64, to_usize};
use crate::nvme::BLOCK;
use std::io;

/// A disk. Places and numbers of bytes are multiples of a block.
pub trait Disk: Send + Sync {
    /// Fills a room with the bytes from a place on.
    fn read(&self, place: u64, room: &mut [u8]) -> io::Result<()>;
    /// Writes bytes from a place on. Callers call `check_open` before.
    fn write(&self, place: u64, bytes: &[u8]) -> io::Result<()>;
    /// An error of the kind InvalidData if another program has cut the file.
    fn check_open(&self) -> io::Result<()>;
    /// Replaces bytes by zeros.
    fn zero(&self, place: u64, count: u64) -> io::Result<()>;
    /// Has the disk keep what was written, also without power.
    fn sync(&self) -> io::Result<()>;
    /// How many blocks it has.
    fn blocks(&self) -> u64;
    /// An error of the kind InvalidData if another program has changed it.
    fn check(&self) -> io::Result<()>;
    /// Whether the system takes writes into its memory, so that small ones do not wait.
    fn is_cached(&self) -> bool;
}

/// Blocks of several frames that are written together: runs of adjacent blocks, and their bytes one after the other.
/// Its memory is used for later writes.
pub struct Writing {
    /// The places of the frames in the cache.
    pub(super) frames: Vec<usize>,
    pub(super) runs: Vec<Extent>,
    bytes: Aligned,
    pub(super) length: usize,
}

impl Writing {
    pub fn new() -> Writing {
        Writing { frames: Vec::new(), runs: Vec::new(), bytes: Aligned::zeros(0), length: 0 }
    }

    /// Removes its blocks, and makes room for this many bytes.
    pub fn begin(&mut self, bytes: usize) {
        self.frames.clear();
        self.runs.clear();
        self.length = 0;
        if self.bytes.len() < bytes {
            self.bytes = Aligned::zeros(bytes.next_power_of_two());
        }
    }

    /// Whether it has blocks of this frame. Its runs are in the order of the disk.
    pub fn has(&self, number: u64) -> bool {
        let after = self.runs.partition_point(|run| run.frames().end <= number);
        self.runs.get(after).map_or(false, |run| run.frames().contains(&number))
    }

    /// Adds blocks, which may be adjacent to the last ones.
    pub fn put(&mut self, part: Part, bytes: &[u8]) {
        let extent = part.extent();
        match self.runs.last_mut() {
            Some(last) if last.end() == extent.first => last.blocks += extent.blocks,
            _ => self.runs.push(extent),
        }
        self.bytes[self.length..self.length + bytes.len()].copy_from_slice(bytes);
        self.length += bytes.len();
    }

    /// Writes them. Only the last run can make a file as long again that was cut meanwhile.
    pub fn write(&self, disk: &dyn Disk) -> io::Result<()> {
        let mut begin = 0;
        for (at, run) in (1..).zip(&self.runs) {
            if at == 1 || at == self.runs.len() {
                disk.check_open()?;
            }
            disk.write(run.place(), &self.bytes[begin..begin + run.bytes()])?;
            begin += run.bytes();
        }
        Ok(())
    }
}

/// Blocks that are read together.
pub struct Reading {
    pub(super) extent: Extent,
    /// Their bytes in the cache.
    pub(super) bytes: Loan,
    pub(super) failed: Failed,
    /// Whether they were read before a command needs them.
    pub(super) is_ahead: bool,
}

impl Reading {
    pub fn new(extent: Extent, bytes: Loan, is_ahead: bool) -> Reading {
        Reading { extent, bytes, failed: Failed::default(), is_ahead }
    }

    /// Reads them. If that fails, it reads each block by itself, so that one that can't be read does not hide others.
    fn read(&mut self, disk: &dyn Disk) -> io::Result<()> {
        let error = match disk.read(self.extent.place(), &mut self.bytes) {
            Ok(()) => return Ok(()),
            Err(error) => error,
        };
        let blocks = (self.extent.first..).zip(self.bytes.chunks_exact_mut(to_usize(BLOCK)));
        let is_failed = |(block, room): (u64, &mut [u8])| self.is_ahead || disk.read(block * BLOCK, room).is_err();
        self.failed = Failed { first: self.extent.first, list: blocks.map(is_failed).collect() };
        if self.failed.list.contains(&true) {
            return Err(error);
        }
        Ok(())
    }
}

/// Which blocks from the first one on could not be read, if there are any.
#[derive(Default)]
pub struct Failed {
    first: u64,
    list: Vec<bool>,
}

impl Failed {
    /// Those of a part.
    pub fn of(&self, part: Part) -> Mask {
        if self.list.is_empty() {
            return 0;
        }
        let begin = to_usize(part.extent().first - self.first);
        let failed = self.list.iter().skip(begin).zip(part.from..part.to);
        failed.filter(|(is_failed, _)| **is_failed).fold(0, |mask, (_, block)| mask | 1 << block)
    }
}

/// Work of the disk.
pub enum Job {
    Read(Reading),
    Write(Writing),
    Zero(Extent),
    Sync,
}

impl Job {
    /// Whether it is a read that no command waits for.
    pub fn is_ahead(&self) -> bool {
        matches!(self, Job::Read(Reading { is_ahead: true, .. }))
    }

    pub fn run(&mut self, disk: &dyn Disk) -> io::Result<()> {
        match self {
            Job::Read(reading) => reading.read(disk),
            Job::Write(writing) => writing.write(disk),
            Job::Zero(extent) => disk.zero(extent.place(), to_u64(extent.bytes())),
            Job::Sync => disk.sync(),
        }
    }
}

/// A job that has ended.
pub struct Done {
    pub(super) job: Job,
    pub(super) result: io::Result<()>,
}
