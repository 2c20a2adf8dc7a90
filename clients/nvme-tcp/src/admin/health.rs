//! What a controller has done since the target started, as the log pages Error Information and SMART / Health
//! Information have it.

use crate::bytes::put;
use crate::numbers::{to_u64, to_usize};
use crate::nvme::entry::SubmissionEntry;
use crate::nvme::status::{Status, READ_ERROR, RESERVATION_CONFLICT, WRITE_FAULT};
use crate::nvme::{COMPARE, READ, WRITE};
use std::time::Instant;

/// How many failed commands are kept: Identify Controller's ELPE and one.
pub const MOST_ERRORS: usize = 64;
/// The sizes of an entry of Error Information, and of SMART / Health Information.
const ERROR_BYTES: usize = 64;
const HEALTH_BYTES: usize = 512;
/// The blocks of a data unit of SMART / Health Information.
const DATA_UNIT: u64 = 1000;
/// A field of an error that holds for no place in particular.
const NO_PLACE: u16 = 0xffff;
/// The transport of an error: TCP.
const TCP: u8 = 3;

/// A command that has failed.
#[derive(Clone, Copy, Default)]
struct Failure {
    /// Its number, from 1.
    number: u64,
    qid: u16,
    cid: u16,
    /// The field of its completion.
    status: u16,
    slba: u64,
    nsid: u32,
}

/// The counters of a controller.
pub struct Health {
    started: Instant,
    /// I/O commands that have succeeded, by opcode, and how many blocks they have moved.
    pub succeeded: [u64; 256],
    pub blocks_read: u64,
    pub blocks_written: u64,
    pub blocks_zeroed: u64,
    /// Reads and writes that have failed.
    failed_reads: u64,
    failed_writes: u64,
    pub conflicts: u64,
    media_errors: u64,
    pub errors: u64,
    power_cycles: u64,
    unsafe_shutdowns: u64,
    /// The last failures, by their numbers modulo how many are kept.
    failures: [Failure; MOST_ERRORS],
}

impl Health {
    pub fn new() -> Health {
        Health {
            started: Instant::now(),
            succeeded: [0; 256],
            blocks_read: 0,
            blocks_written: 0,
            blocks_zeroed: 0,
            failed_reads: 0,
            failed_writes: 0,
            conflicts: 0,
            media_errors: 0,
            errors: 0,
            power_cycles: 1,
            unsafe_shutdowns: 0,
            failures: [Failure::default(); MOST_ERRORS],
        }
    }

    /// Counts an I/O command that has succeeded.
    pub fn succeed(&mut self, entry: &SubmissionEntry) {
        self.succeeded[usize::from(entry.opcode())] += 1;
        match entry.opcode() {
            READ | COMPARE => self.blocks_read += blocks(entry),
            WRITE => self.blocks_written += blocks(entry),
            _ => (),
        }
    }

    /// Counts the blocks of a Write Zeroes that has succeeded.
    pub fn zero(&mut self, blocks: u32) {
        self.blocks_zeroed += u64::from(blocks);
    }

    /// Counts a command that has failed, and keeps what Error Information has of it.
    pub fn fail(&mut self, qid: u16, entry: &SubmissionEntry, status: Status) {
        self.errors += 1;
        self.conflicts += u64::from(status == RESERVATION_CONFLICT);
        self.media_errors += u64::from(matches!(status, WRITE_FAULT | READ_ERROR));
        match (qid, entry.opcode()) {
            (1.., READ | COMPARE) => self.failed_reads += 1,
            (1.., WRITE) => self.failed_writes += 1,
            _ => (),
        }
        let slba = if qid == 0 { 0 } else { entry.slba() };
        let (cid, status, nsid) = (entry.command_id(), status.field(), entry.namespace_id());
        self.failures[to_usize(self.errors) % MOST_ERRORS] =
            Failure { number: self.errors, qid, cid, status, slba, nsid };
    }

    /// Power is lost and comes back. `was_in_use` says that the host had not shut the controller down.
    pub fn power_cycle(&mut self, was_in_use: bool) {
        self.power_cycles += 1;
        self.unsafe_shutdowns += u64::from(was_in_use);
    }

    /// Error Information: the last failure comes first.
    pub fn error_page(&self) -> Vec<u8> {
        let mut page = vec![0; MOST_ERRORS * ERROR_BYTES];
        let kept = (0..to_u64(MOST_ERRORS)).map_while(|ago| self.errors.checked_sub(ago)).take_while(|it| *it != 0);
        for (entry, number) in page.chunks_exact_mut(ERROR_BYTES).zip(kept) {
            let it = self.failures[to_usize(number) % MOST_ERRORS];
            put(entry, 0, &it.number.to_le_bytes());
            put(entry, 8, &it.qid.to_le_bytes());
            put(entry, 10, &it.cid.to_le_bytes());
            put(entry, 12, &it.status.to_le_bytes());
            put(entry, 14, &NO_PLACE.to_le_bytes());
            put(entry, 16, &it.slba.to_le_bytes());
            put(entry, 24, &it.nsid.to_le_bytes());
            entry[29] = TCP;
        }
        page
    }

    /// SMART / Health Information. There is no sensor: temperatures are 0. Nothing wears out: all spare is there.
    pub fn health_page(&self) -> Vec<u8> {
        let units = |blocks: u64| (blocks + DATA_UNIT - 1) / DATA_UNIT;
        let succeeded = |opcode: u8| self.succeeded[usize::from(opcode)];
        let mut page = vec![0; HEALTH_BYTES];
        page[3] = 100;
        for (place, value) in [
            (32, units(self.blocks_read)),
            (48, units(self.blocks_written)),
            (64, succeeded(READ) + succeeded(COMPARE) + self.failed_reads),
            (80, succeeded(WRITE) + self.failed_writes),
            (112, self.power_cycles),
            (128, self.started.elapsed().as_secs() / 3600),
            (144, self.unsafe_shutdowns),
            (160, self.media_errors),
            (176, self.errors),
        ] {
            put(&mut page, place, &value.to_le_bytes());
        }
        page
    }
}

/// How many blocks a command moves.
fn blocks(entry: &SubmissionEntry) -> u64 {
    u64::from(entry.nlb()) + 1
}

#[cfg(test)]
mod tests {
    use super::*;
    use crate::bytes::{u16_at, u64_at};

    #[test]
    fn the_last_failures_come_first() {
        let mut health = Health::new();
        assert!(health.error_page().iter().all(|byte| *byte == 0));
        for cid in 0..70 {
            health.fail(1, &SubmissionEntry::new(0, cid, 0), RESERVATION_CONFLICT);
        }
        let page = health.error_page();
        let cids: Vec<u16> = page.chunks_exact(ERROR_BYTES).map(|it| u16_at(it, 10)).collect();
        assert_eq!(cids, (6..70).rev().collect::<Vec<u16>>());
        assert_eq!((u64_at(&page, 0), u16_at(&page, 12), health.conflicts), (70, 0x8106, 70));
    }

    #[test]
    fn data_units_are_rounded_up() {
        let mut health = Health::new();
        let entry = SubmissionEntry::new(WRITE, 0, 1);
        health.succeed(&entry.on_blocks(WRITE, 0, 999));
        assert_eq!(u64_at(&health.health_page(), 48), 1);
        health.fail(1, &entry, RESERVATION_CONFLICT);
        health.succeed(&entry);
        assert_eq!((u64_at(&health.health_page(), 48), u64_at(&health.health_page(), 80)), (2, 3));
    }
}
