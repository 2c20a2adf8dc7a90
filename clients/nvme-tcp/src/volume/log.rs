//! The journal of a volume that is kept: batches of records in its segments. If a batch does not fit, the next segment
//! begins, with a checkpoint that has the batch too. So the journal never fills.

use super::area::{self, FIRST_PAGE, SEGMENT, SEGMENTS, SEGMENT_PAGES};
use super::lease::Lease;
use super::refusal::Refusal;
use super::superblock::{self, Superblock, JOURNAL_AT};
use crate::configuration::Configuration;
use crate::files::watched::changed;
use crate::journal::record::{records_of, Event, Record};
use crate::journal::restoring::Replica;
use crate::journal::Log;
use crate::numbers::to_u64;
use crate::storage::aligned::{Aligned, PAGE};
use std::fs::File;
use std::io;
use std::os::unix::fs::FileExt;
use std::sync::Arc;

/// Reads the whole journal, by a file that is open with O_DIRECT. An owner may have written it meanwhile, so a refusal
/// counts if it comes twice.
pub fn read(file: &File) -> Result<area::Kept, Refusal> {
    read_once(file).or_else(|_| read_once(file))
}

fn read_once(file: &File) -> Result<area::Kept, Refusal> {
    let mut bytes = Aligned::zeros(area::BYTES);
    file.read_exact_at(&mut bytes, JOURNAL_AT)?;
    area::read(&bytes)
}

/// Writes the journal of a volume that no target has used.
pub fn write_first(file: &File, configuration: &Configuration) -> Result<(), Refusal> {
    let mut replica = replica(configuration)?;
    let mut bytes = Aligned::zeros(area::BYTES);
    let record = Record { epoch: 0, event: Event::Checkpoint(replica.checkpoint()) }.bytes();
    let pages = area::checkpoint(1, &record);
    bytes[..pages.len()].copy_from_slice(&pages);
    file.write_all_at(&bytes, JOURNAL_AT)?;
    Ok(file.sync_all()?)
}

/// A subsystem with a configuration.
pub fn replica(configuration: &Configuration) -> Result<Replica, Refusal> {
    Replica::new(configuration).map_err(|error| Refusal::Configuration(format!(" {error}")))
}

/// The place that the journal of this target is at.
pub struct VolumeLog {
    file: File,
    lease: Arc<Lease>,
    superblock: Superblock,
    /// What persists after all records.
    replica: Replica,
    /// The number of the segment and its place, the next page in it, and the number of the next batch.
    segment: u64,
    place: usize,
    page: usize,
    number: u64,
}

impl VolumeLog {
    /// Begins a segment with what persists of those before. It leaves a place and a number out, with which the last
    /// owner may have begun a checkpoint: a write of it that is in progress meets nothing of this target, and is older.
    pub fn begin(
        file: File,
        lease: Arc<Lease>,
        superblock: Superblock,
        (kept, replica): (&area::Kept, Replica),
    ) -> io::Result<VolumeLog> {
        let (segment, place) = (kept.segment, kept.place);
        let (page, number) = (FIRST_PAGE, 1);
        let mut log = VolumeLog { file, lease, superblock, replica, segment, place, page, number };
        log.begin_segment(2)?;
        log.file.sync_all()?;
        log.lease.check()?;
        Ok(log)
    }

    /// Begins the segment whose number and place are `further` than those of the last.
    fn begin_segment(&mut self, further: usize) -> io::Result<()> {
        let event = Event::Checkpoint(self.replica.checkpoint());
        let record = Record { epoch: self.superblock.epoch, event }.bytes();
        self.segment += to_u64(further);
        self.place = (self.place + further) % SEGMENTS;
        let pages = area::checkpoint(self.segment, &record);
        self.page = FIRST_PAGE;
        self.number = 1;
        self.write(0, &pages)
    }

    /// Writes pages of the segment.
    fn write(&self, page: usize, pages: &[u8]) -> io::Result<()> {
        self.file.write_all_at(pages, JOURNAL_AT + to_u64(self.place * SEGMENT + page * PAGE))
    }

    /// Executes the commands of records in the replica.
    fn follow(&mut self, records: &[u8]) -> io::Result<()> {
        let events: Vec<Event> = records_of(records, 0)?.0.into_iter().map(|it| it.event).collect();
        self.replica.follow(&events).map_err(|error| changed(error.to_string()))
    }
}

impl Log for VolumeLog {
    fn append(&mut self, records: &[u8]) -> io::Result<()> {
        self.follow(records)?;
        self.lease.check()?;
        let count = area::pages_of(records.len());
        if self.page + count > SEGMENT_PAGES {
            self.begin_segment(1)?;
        } else {
            self.write(self.page, &area::batch(self.segment, self.number, records))?;
            self.page += count;
            self.number += 1;
        }
        self.file.sync_data()?;
        self.lease.check()
    }

    /// The volume has no owner any more.
    fn close(&mut self) -> io::Result<()> {
        self.lease.check()?;
        let before = &self.superblock;
        let superblock = Superblock { revision: before.revision + 1, owner: None, ..before.clone() };
        superblock::write(&self.file, &superblock, [true; 2])
    }
}
