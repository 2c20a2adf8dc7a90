//! The disk: a file or a block device of any size, of which a bounded part is in memory.
//!
//! The library says which blocks a command needs. They are brought from the cache, which has the newest bytes of all
//! that it has; blocks that it lacks are read by threads, while the command waits and others are executed. What a
//! command wrote goes into the cache when it is executed, and to the disk by a thread. It is answered when the system
//! has its blocks. So the order of commands is that of their executions, and nobody reads older bytes.

pub mod aligned;
#[allow(unsafe_code)]
mod arena;
mod barriers;
mod cache;
mod file;
mod frames;
mod jobs;
mod ledger;
pub mod options;
pub mod pending;
mod reading;
mod streams;
mod syncs;
mod workers;
mod writing;
pub mod zeroes;

#[cfg(test)]
mod tests;

use crate::control::log::warn;
use crate::fabrics::association::ConnectionId;
use crate::fault::{Fault, Outcome};
use crate::hashing::Counted;
use crate::nvme::status::{READ_ERROR, WRITE_FAULT};
use crate::nvme::{COMPARE, READ};
use crate::target::answer::Answer;
use crate::waker::Wakeup;
use barriers::Barriers;
use cache::Cache;
pub use file::{blocks_of, is_read_only, Image, ImageDisk};
use frames::{Extent, FRAME_BYTES};
pub use jobs::Disk;
use jobs::{Done, Job, Writing};
use ledger::Ledger;
pub use ledger::Owed;
use nvmesim::{Brought, Need};
use options::Options;
use std::collections::VecDeque;
use std::io::{self, ErrorKind};
use std::mem;
use std::sync::Arc;
use std::time::Instant;
use streams::Streams;
use syncs::Syncs;
use workers::Workers;
use writing::Zeroing;

/// Commands wait with this many that wait for writes, this many zeroes, or this many bytes to read.
const MOST_OPEN: usize = 4096;
const MOST_ZEROES: usize = 256;
const MOST_READ: usize = 4 << 20;

/// The disk with its cache.
pub struct Storage {
    disk: Arc<dyn Disk>,
    workers: Workers,
    cache: Cache,
    ledger: Ledger,
    syncs: Syncs,
    zeroing: Vec<Zeroing>,
    /// Frames with blocks to write, by their places in the cache, and the numbers of those that are being written.
    queued: Vec<usize>,
    writing: Vec<u64>,
    /// The memory of writes that have ended.
    spare: Vec<Writing>,
    /// Which commands may go to the disk, and the frames of those that may not.
    barriers: Barriers,
    held: Vec<usize>,
    bytes_written: usize,
    /// With `--write-through`, what was written and is not synced, and the numbers of the syncs that it waits for.
    unsynced: Vec<(u64, Extent)>,
    /// The blocks that commands read which wait for them.
    asked: Counted<Extent>,
    bytes_asked: usize,
    /// The reads in order of each controller, and how many bytes are being read ahead of commands.
    streams: Streams,
    bytes_ahead: usize,
    /// Commands that wait for frames of the cache.
    starved: Vec<u64>,
    /// The blocks of a command whose frames are not adjacent in memory, and whether the last command has them there.
    room: Vec<u8>,
    is_in_room: bool,
    /// The ticket of a command whose pieces zero blocks in the cache. The disk zeroes them after the last one.
    in_pieces: Option<u64>,
    /// What the disk refused, so that its blocks may be older than those that were written.
    failure: Option<io::Error>,
    /// Whether a failure ends the target, since a kept run has no line for it.
    keeps_run: bool,
    /// What the log calls the disk, and when it last had a warning of reads.
    name: String,
    warned: Option<Instant>,
    options: Options,
    /// Commands that may be executed now, and answers that wait no more.
    ready: VecDeque<u64>,
    answers: VecDeque<Owed>,
}

impl Storage {
    /// Starts the threads of a disk.
    pub fn start(name: String, disk: Arc<dyn Disk>, options: Options, keeps_run: bool) -> io::Result<Storage> {
        let cache = Cache::new(usize::try_from(options.cache).unwrap_or(usize::MAX) / FRAME_BYTES);
        Ok(Storage {
            workers: Workers::start(&disk)?,
            disk,
            streams: Streams::new(cache.blocks()),
            cache,
            ledger: Ledger::default(),
            syncs: Syncs::default(),
            zeroing: Vec::new(),
            queued: Vec::new(),
            writing: Vec::new(),
            spare: Vec::new(),
            barriers: Barriers::default(),
            held: Vec::new(),
            bytes_written: 0,
            unsynced: Vec::new(),
            asked: Counted::default(),
            bytes_asked: 0,
            bytes_ahead: 0,
            starved: Vec::new(),
            room: Vec::new(),
            is_in_room: false,
            in_pieces: None,
            failure: None,
            keeps_run,
            name,
            warned: None,
            options,
            ready: VecDeque::new(),
            answers: VecDeque::new(),
        })
    }

    /// Whether a command of a connection waits for its answer.
    pub fn owes(&self, connection: ConnectionId) -> bool {
        let is_of = |it: &Owed| it.connection == connection;
        self.answers.iter().any(is_of) || self.ledger.owed().any(is_of) || self.syncs.owed().any(is_of)
    }

    /// Readable when a job of the disk has ended.
    pub fn wakeup(&self) -> &Wakeup {
        &self.workers.wakeup
    }

    /// Whether no more zeroes may be taken until some end.
    fn has_many_zeroes(&self) -> bool {
        self.failure.is_none() && self.zeroing.len() >= MOST_ZEROES
    }

    /// Whether the command with this number can be executed, with what it needs now. If not, it is in `ready` later.
    fn prepare(&mut self, need: Need, id: u64) -> bool {
        match need {
            _ if self.failure.is_some() => true,
            Need::Read { first, blocks } => self.prepare_read(Extent { first, blocks }, id),
            Need::Flush => self.syncs.has_flushed(id, self.ledger.next()),
            Need::Write { first, blocks } => {
                let has_frames = self.cache.has_room_to_write();
                self.has_room(id, has_frames) && !self.waits_for_reads(Extent { first, blocks }, id)
            }
            Need::Zero { .. } | Need::Nothing => true,
        }
    }

    /// Whether a command gets frames of the cache, which has some. If not, it waits until work of the disk ends; commands
    /// whose blocks are in the cache do not wait for it.
    fn has_room(&mut self, id: u64, has_frames: bool) -> bool {
        let has_room = has_frames && self.ledger.len() < MOST_OPEN && self.bytes_asked < MOST_READ;
        if !has_room {
            self.starved.push(id);
        }
        has_room
    }

    /// The place of a frame in the cache. One that comes into it has the zeros of zeroes that are in progress.
    fn frame(&mut self, number: u64) -> usize {
        if let Some(place) = self.cache.find(number) {
            return place;
        }
        let place = self.cache.take(number);
        for zeroing in self.zeroing.iter().filter(|it| it.extent.frames().contains(&number)) {
            self.cache.zero(place, zeroing.extent.part(number));
        }
        place
    }

    /// The command with this number waits no more: it is executed, or it is gone.
    pub fn forget(&mut self, id: u64) {
        self.syncs.forget(id);
        if let Some(extent) = self.asked.remove(&id) {
            self.bytes_asked -= extent.bytes();
            for number in extent.frames() {
                if let Some(place) = self.cache.find(number) {
                    self.cache.change(place, |frame| frame.users -= 1);
                }
            }
        }
    }

    /// The blocks that a command needs, in a room for them. For a Read as many are brought as there are before one that
    /// can't be read; once the disk has failed there are none. A command that was prepared has flushed.
    fn bring(&mut self, need: Need) -> (&mut [u8], Brought) {
        let (extent, is_read) = match need {
            Need::Read { first, blocks } => (Extent { first, blocks }, true),
            Need::Write { first, blocks } => (Extent { first, blocks }, false),
            Need::Zero { first, blocks } if self.failure.is_none() => {
                let bytes = Extent { first, blocks }.bytes();
                self.room.resize(bytes.max(self.room.len()), 0);
                return (&mut self.room[..bytes], Brought { first, blocks: 0, flushes: false });
            }
            Need::Zero { .. } | Need::Nothing => return (&mut [], Brought::default()),
            Need::Flush => return (&mut [], Brought { flushes: self.failure.is_none(), ..Brought::default() }),
        };
        let first = extent.first;
        if self.failure.is_some() {
            return (&mut [], Brought { first, blocks: 0, flushes: false });
        }
        if let Some(part) = extent.only_part() {
            let place = self.frame(part.number);
            let blocks = if is_read { self.cache.at(place).front_of(part).into() } else { 0 };
            self.is_in_room = false;
            return (self.cache.bytes_mut(place, part), Brought { first, blocks, flushes: false });
        }
        let blocks = if is_read { self.at_hand(extent) } else { 0 };
        for number in extent.frames() {
            self.frame(number);
        }
        (self.bring_bytes(extent, blocks), Brought { first, blocks, flushes: false })
    }

    /// The bytes of blocks, the first of which are in the cache: in it, or in a room with copies of those.
    fn bring_bytes(&mut self, extent: Extent, blocks: u64) -> &mut [u8] {
        let adjacent = self.cache.adjacent(extent);
        self.is_in_room = adjacent.is_none();
        if let Some(range) = adjacent {
            return self.cache.all_bytes_mut(range);
        }
        self.room.resize(extent.bytes().max(self.room.len()), 0);
        let mut begin = 0;
        for part in extent.front(blocks).parts() {
            let place = self.frame(part.number);
            let bytes = self.cache.bytes(place, part);
            self.room[begin..begin + bytes.len()].copy_from_slice(bytes);
            begin += bytes.len();
        }
        &mut self.room[..extent.bytes()]
    }

    /// How many of the first blocks are in the cache.
    fn at_hand(&self, extent: Extent) -> u64 {
        let mut count = 0;
        for part in extent.parts() {
            let there = self.cache.of(part).map_or(0, |it| it.front_of(part));
            count += u64::from(there);
            if there < part.to - part.from {
                break;
            }
        }
        count
    }

    /// Begins a command that may write: its ticket.
    pub fn open(&mut self, index: usize) -> u64 {
        self.ledger.open(index)
    }

    /// Begins a command of a controller whose pieces zero blocks: its ticket.
    pub fn begin_pieces(&mut self, index: usize) -> u64 {
        let ticket = self.open(index);
        self.in_pieces = Some(ticket);
        ticket
    }

    /// The last piece was executed.
    pub fn end_pieces(&mut self) {
        self.in_pieces = None;
    }

    /// No further piece of the command with this ticket is executed, and it is not answered.
    pub fn leave_pieces(&mut self, ticket: u64) {
        self.end_pieces();
        self.end(&[ticket]);
    }

    /// How many commands of a controller are open.
    pub fn open_of(&self, index: usize) -> usize {
        self.ledger.open_of(index)
    }

    /// A command with this ticket was executed over the blocks that were brought for it. The first `at_hand` blocks of
    /// the room go to the disk if it writes, whatever it is answered.
    pub fn take(&mut self, need: Need, at_hand: u64, ticket: u64) {
        match need {
            Need::Write { first, blocks } if self.failure.is_none() => {
                self.take_written(Extent { first, blocks }, at_hand, ticket);
            }
            Need::Zero { first, blocks } if self.failure.is_none() && at_hand != 0 => {
                self.take_zeros(Extent { first, blocks }.front(at_hand), ticket);
            }
            _ => (),
        }
    }

    /// A command with this ticket is answered so: later, unless no write of it is in progress. Then the answer is given
    /// back.
    pub fn close(&mut self, ticket: u64, owed: Owed) -> Option<Owed> {
        let is_synced = owed.is_synced;
        let owed = self.ledger.close(ticket, owed)?;
        if is_synced && self.failure.is_none() {
            self.syncs.owe(owed);
            return None;
        }
        Some(owed)
    }

    /// What the commands so far have changed waits for this many records of the journal, of which `synced` are synced.
    pub fn wait_for_records(&mut self, records: u64, synced: u64) {
        if self.barriers.note(self.ledger.next(), records, synced) {
            self.queued.append(&mut self.held);
        }
    }

    /// Begins what can begin of writes, zeroes and syncs. If there is one host alone, small writes into the system's
    /// memory are made at once: that is faster than to wake a thread, and no other host waits for it. With more hosts
    /// writes into its memory begin before the event loop waits, those of all hosts together.
    pub fn begin(&mut self, is_alone: bool) -> Outcome<()> {
        if self.failure.is_some() {
            return Ok(());
        }
        if !self.queued.is_empty() && (is_alone || !self.disk.is_cached()) {
            self.begin_writes(is_alone)?;
        }
        if !self.zeroing.is_empty() {
            self.begin_zeros();
        }
        let Storage { syncs, ledger, workers, .. } = self;
        if syncs.begin(|ticket| ledger.has_all_before(ticket)) {
            workers.begin(Job::Sync);
        }
        Ok(())
    }

    /// Begins the writes that have waited for others, and has the threads take what was begun, before the event loop
    /// waits.
    pub fn hand_out(&mut self) -> Outcome<()> {
        if !self.queued.is_empty() && self.failure.is_none() {
            self.begin_writes(false)?;
        }
        self.workers.hand_out();
        Ok(())
    }

    /// Takes back the jobs that have ended.
    pub fn take_finished(&mut self) -> Outcome<()> {
        self.workers.wakeup.clear();
        while let Some(done) = self.workers.take() {
            self.finish(done)?;
        }
        self.feed();
        Ok(())
    }

    /// Commands that wait for frames may come again, after those that are executed now and leave theirs.
    fn feed(&mut self) {
        self.ready.extend(mem::take(&mut self.starved));
    }

    fn finish(&mut self, done: Done) -> Outcome<()> {
        let failure = match done.job {
            Job::Read(reading) => return self.finish_read(reading, done.result),
            Job::Write(writing) => {
                self.finish_write(writing, done.result.is_ok());
                done.result.err()
            }
            Job::Zero(extent) => {
                self.finish_zeros(extent, done.result.is_ok());
                done.result.err()
            }
            Job::Sync => {
                if done.result.is_ok() && self.failure.is_none() {
                    let (owed, ready) = self.syncs.pass();
                    let next = self.syncs.next();
                    self.unsynced.retain(|(number, _)| *number >= next);
                    self.answers.extend(owed);
                    self.ready.extend(ready);
                }
                done.result.err()
            }
        };
        failure.map_or(Ok(()), |error| self.fail(error))
    }

    /// The system has a write of each of these commands.
    fn end(&mut self, tickets: &[u64]) {
        for ticket in tickets {
            match self.ledger.end(*ticket) {
                Some(owed) if owed.is_synced && self.failure.is_none() => self.syncs.owe(owed),
                owed => self.answers.extend(owed),
            }
        }
    }

    /// The disk has refused a write or a sync. The answers that wait for it are Write Fault and Unrecovered Read Error,
    /// and from now on no block is brought: each command on blocks fails. Another program's change of the file ends the
    /// target, and so does every failure while the run is kept.
    fn fail(&mut self, error: io::Error) -> Outcome<()> {
        if self.keeps_run || error.kind() == ErrorKind::InvalidData {
            return Err(Fault::Image(error));
        }
        if self.failure.is_some() {
            return Ok(());
        }
        let end = "all commands on blocks fail from now on; repair it and start the target again";
        warn(format_args!("{}: {error}; {end}", self.name));
        self.failure = Some(error);
        let (owed, flushes) = self.syncs.give_up();
        for mut it in self.ledger.give_up().into_iter().chain(owed) {
            let is_read = matches!(it.entry.opcode(), READ | COMPARE);
            it.answer = Answer::of(if is_read { READ_ERROR } else { WRITE_FAULT });
            self.answers.push_back(it);
        }
        self.ready.extend(flushes);
        self.ready.extend(self.asked.keys());
        self.queued.clear();
        self.held.clear();
        self.feed();
        Ok(())
    }

    /// An error if another program has cut, replaced, renamed or removed the file.
    pub fn check(&self) -> Outcome<()> {
        self.disk.check().map_err(Fault::Image)
    }

    /// Waits until the disk has all blocks, at the end. The journal has synced all records.
    pub fn sync(&mut self) -> Outcome<()> {
        self.wait_for_records(0, u64::MAX);
        self.begin(false)?;
        self.hand_out()?;
        while let Some(done) = self.workers.wait() {
            self.finish(done)?;
            self.begin(false)?;
            self.hand_out()?;
        }
        match self.failure.take() {
            Some(error) => Err(Fault::Image(error)),
            None => self.disk.sync().map_err(Fault::Image),
        }
    }
}
