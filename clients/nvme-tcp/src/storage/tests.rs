//! The disk of a target over one in memory.

use super::*;
use crate::nvme::{entry::SubmissionEntry, status::SUCCESS, BLOCK};
use crate::target::answer::Answer;
use fake::{Call, Fake};
use std::collections::BTreeSet;

mod ahead;
mod fake;
mod pieces;
mod records;
mod room;

const SIZE: usize = BLOCK as usize;
/// Frames of the smallest cache, in blocks.
const CACHED: u64 = 4 * frames::MOST_PARTS as u64 * frames::FRAME as u64;

/// A disk, and what its commands have been answered.
struct Trial {
    disk: Arc<Fake>,
    storage: Storage,
    next: u64,
    answered: Vec<(u64, crate::nvme::status::Status)>,
    ready: Vec<u64>,
}

impl Trial {
    fn new(disk: Fake, keeps_run: bool) -> Trial {
        let disk = Arc::new(disk);
        let options = Options { cache: 0, ..Options::default() };
        let shared: Arc<dyn Disk> = Arc::clone(&disk) as Arc<dyn Disk>;
        let storage = Storage::start("fake".to_owned(), shared, options, keeps_run).unwrap();
        Trial { disk, storage, next: 0, answered: Vec::new(), ready: Vec::new() }
    }

    fn id(&mut self) -> u64 {
        self.next += 1;
        self.next
    }

    /// Executes a Write of a byte, once no read of its blocks is in progress; its number.
    fn write(&mut self, first: u64, blocks: u32, byte: u8) -> u64 {
        self.change(Need::Write { first, blocks }, byte, false)
    }

    fn zero(&mut self, first: u64, blocks: u32) -> u64 {
        self.change(Need::Zero { first, blocks }, 0, false)
    }

    fn change(&mut self, need: Need, byte: u8, is_synced: bool) -> u64 {
        let (id, ticket) = (self.id(), self.storage.open(0));
        while !self.storage.prepare(need, id) {
            self.turn();
        }
        let (room, brought) = self.storage.bring(need);
        room.fill(byte);
        assert_eq!((brought.blocks, brought.flushes), (0, false));
        let (at_hand, is_failed) = ((room.len() / SIZE) as u64, room.is_empty());
        self.storage.take(need, at_hand, ticket);
        let status = if is_failed { WRITE_FAULT } else { SUCCESS };
        let owed = Owed { connection: id, entry: SubmissionEntry::new(0, 0, 0), answer: Answer::of(status), is_synced };
        let owed = self.storage.close(ticket, owed);
        self.answered.extend(owed.map(|it| (it.connection, it.answer.status)));
        id
    }

    /// Has a Read wait for its blocks; what it reads, as far as it can.
    fn read(&mut self, first: u64, blocks: u32) -> Vec<u8> {
        let (id, need) = (self.id(), Need::Read { first, blocks });
        while !self.storage.prepare(need, id) {
            self.turn();
        }
        self.bring(id, need)
    }

    /// What a Read that was prepared reads.
    fn bring(&mut self, id: u64, need: Need) -> Vec<u8> {
        let (room, brought) = self.storage.bring(need);
        let found = room[..brought.blocks as usize * SIZE].to_vec();
        self.storage.forget(id);
        found
    }

    /// Begins what can begin while there are several hosts.
    fn begin(&mut self) {
        self.storage.begin(false).unwrap();
        self.storage.hand_out().unwrap();
    }

    /// Waits for the next job.
    fn turn(&mut self) {
        self.begin();
        let done = self.storage.workers.wait().unwrap();
        self.storage.finish(done).unwrap();
        self.collect();
    }

    /// Executes the commands that have what they need: each Read has the bytes of this moment.
    fn conclude(&mut self, waiting: &mut Vec<(u64, Need)>, model: &[u8]) {
        waiting.retain(|(id, need)| {
            let is_ready = self.storage.prepare(*need, *id);
            if let (true, Need::Read { first, blocks }) = (is_ready, *need) {
                let place = first as usize * SIZE..(first as usize + blocks as usize) * SIZE;
                assert!(self.bring(*id, *need) == model[place]);
            }
            !is_ready
        });
    }

    fn collect(&mut self) {
        self.answered.extend(self.storage.answers.drain(..).map(|it| (it.connection, it.answer.status)));
        self.ready.extend(self.storage.ready.drain(..));
    }

    /// Waits until nothing is in progress.
    fn settle(&mut self) {
        loop {
            self.begin();
            if self.storage.workers.under_way == 0 {
                return self.collect();
            }
            self.turn();
        }
    }

    fn calls(&self) -> Vec<Call> {
        self.disk.calls.lock().unwrap().clone()
    }

    fn block(&self, block: u64) -> u8 {
        self.disk.bytes.lock().unwrap()[block as usize * SIZE + 7]
    }
}

#[test]
fn overlapping_writes_stay_in_order() {
    let mut it = Trial::new(Fake::new(64), false);
    it.disk.close(true);
    let mut ids = Vec::new();
    for byte in 1..6 {
        ids.push((it.write(7, 3, byte), SUCCESS));
        it.storage.begin(false).unwrap();
    }
    assert_eq!(it.read(7, 3), vec![5; 3 * SIZE]);
    assert!(it.answered.is_empty());
    it.disk.close(false);
    it.settle();
    it.answered.sort_unstable();
    assert_eq!(it.answered, ids);
    assert_eq!((it.block(7), it.block(9), it.block(10)), (5, 5, 10));
    assert_eq!(it.calls().len(), 2, "what was executed during the first write is written together");
}

#[test]
fn writes_into_the_memory_of_the_system_go_together() {
    let mut it = Trial::new(Fake { is_cached: true, ..Fake::new(2 * CACHED) }, false);
    it.disk.close(true);
    it.write(7, 1, 1);
    it.storage.begin(false).unwrap();
    assert_eq!(it.storage.workers.under_way, 0, "it waits for those of other hosts");
    it.write(40, 2, 2);
    it.begin();
    for (first, byte) in [(CACHED, 3), (7, 4), (90, 5)] {
        it.write(first, 1, byte);
        it.begin();
        assert_eq!(it.storage.workers.under_way, 1, "one write at a time");
    }
    it.disk.close(false);
    it.turn();
    assert_eq!((it.calls(), it.answered.len()), (vec![('w', 7), ('w', 40)], 2));
    it.turn();
    assert_eq!((&it.calls()[2..], it.answered.len()), (&[('w', 7), ('w', 90), ('w', CACHED)][..], 5));
    assert_eq!([7, 40, 41, 90, CACHED, 8].map(|block| it.block(block)), [4, 2, 2, 5, 3, 8]);
    assert_eq!((it.storage.writing.len(), it.storage.bytes_written), (0, 0));
}

#[test]
fn a_cut_during_a_batch_is_noticed_before_its_last_write() {
    let mut it = Trial::new(Fake { is_cached: true, ..Fake::new(2 * CACHED) }, false);
    it.disk.close(true);
    for first in [7, 40, CACHED] {
        it.write(first, 1, 1);
    }
    it.begin();
    assert_eq!(it.disk.wait_for_calls(1), Some(('w', 7)));
    *it.disk.is_cut.lock().unwrap() = true;
    it.disk.close(false);
    let done = it.storage.workers.wait().unwrap();
    assert!(matches!(it.storage.finish(done), Err(Fault::Image(_))));
    assert_eq!(it.calls(), [('w', 7), ('w', 40)]);
    assert!(it.storage.answers.is_empty());
}

#[test]
fn the_memory_of_a_write_is_used_again() {
    let mut it = Trial::new(Fake::new(64), false);
    for (first, blocks, byte) in [(7, 20, 1), (3, 2, 2), (30, 9, 3), (50, 1, 4)] {
        it.write(first, blocks, byte);
        it.settle();
        assert_eq!(it.storage.spare.len(), 1);
        assert_eq!([first, first + u64::from(blocks) - 1].map(|block| it.block(block)), [byte; 2]);
    }
    assert_eq!([2, 5, 26, 29, 39, 51].map(|block| it.block(block)), [2, 5, 1, 29, 39, 51]);
}

#[test]
fn newer_bytes_are_not_replaced_by_a_read() {
    let mut it = Trial::new(Fake::new(64), false);
    it.disk.close(true);
    let (read, write, other) = (it.id(), it.id(), it.id());
    let need = Need::Read { first: 4, blocks: 4 };
    assert!(!it.storage.prepare(need, read));
    it.zero(6, 1);
    assert!(!it.storage.prepare(Need::Write { first: 5, blocks: 2 }, write), "a thread has the bytes");
    assert!(it.storage.prepare(Need::Write { first: 8, blocks: 1 }, other));
    it.disk.close(false);
    it.settle();
    assert_eq!(it.ready, [read, write]);
    assert!([read, write].into_iter().all(|id| it.storage.prepare(need, id)));
    it.write(5, 1, 0xee);
    assert_eq!(it.bring(read, need), [4, 0xee, 0, 7].map(|byte| vec![byte; SIZE]).concat());
    it.settle();
    assert_eq!([4, 5, 6, 7].map(|block| it.block(block)), [4, 0xee, 0, 7]);
}

#[test]
fn blocks_that_were_zeroed_on_the_way_are_zeros_even_if_they_cannot_be_read() {
    for is_refused in [false, true] {
        let mut it = Trial::new(Fake::new(64), false);
        if is_refused {
            it.disk.refuse('r', 5);
        }
        it.disk.close(true);
        let (read, need) = (it.id(), Need::Read { first: 4, blocks: 4 });
        assert!(!it.storage.prepare(need, read));
        it.zero(5, 1);
        it.disk.close(false);
        it.settle();
        assert!(it.storage.prepare(need, read));
        assert_eq!(it.bring(read, need), [4, 0, 6, 7].map(|byte| vec![byte; SIZE]).concat());
    }
}

#[test]
fn blocks_that_cannot_be_read_are_not_brought() {
    let mut it = Trial::new(Fake::new(64), false);
    it.disk.refuse('r', 10);
    assert_eq!(it.read(8, 4), [vec![8; SIZE], vec![9; SIZE]].concat());
    assert_eq!(it.read(11, 2).len(), 2 * SIZE);
    assert_eq!(it.read(10, 1), []);
    it.write(10, 1, 3);
    assert_eq!(it.read(10, 1), vec![3; SIZE]);
    it.settle();
    it.disk.refused.lock().unwrap().clear();
    assert_eq!(it.read(40, 1), vec![40; SIZE]);
}

#[test]
fn a_read_that_failed_is_tried_again() {
    let mut it = Trial::new(Fake::new(64), false);
    it.disk.refuse('r', 10);
    assert_eq!(it.read(10, 1), []);
    it.disk.refused.lock().unwrap().clear();
    assert_eq!(it.read(10, 1), vec![10; SIZE]);
}

#[test]
fn a_refused_write_fails_the_disk() {
    let mut it = Trial::new(Fake::new(64), false);
    it.disk.refuse('w', 10);
    it.disk.close(true);
    let first = it.write(0, 4, 1);
    let (flush, read) = (it.id(), it.id());
    assert!(!it.storage.prepare(Need::Flush, flush));
    let second = it.change(Need::Write { first: 10, blocks: 1 }, 2, true);
    it.storage.begin(false).unwrap();
    let third = it.write(11, 1, 3);
    assert!(!it.storage.prepare(Need::Read { first: 40, blocks: 1 }, read));
    it.disk.close(false);
    it.settle();
    let statuses: BTreeSet<_> = it.answered.iter().copied().collect();
    assert!(statuses.contains(&(second, WRITE_FAULT)) && statuses.contains(&(third, WRITE_FAULT)));
    assert!(statuses.iter().any(|(id, _)| *id == first) && statuses.len() == 3);
    assert!(it.ready.contains(&flush) && it.ready.contains(&read));
    assert!(it.storage.prepare(Need::Flush, flush));
    assert!(!it.storage.bring(Need::Flush).1.flushes);
    assert_eq!((it.read(0, 4), it.read(40, 1)), (vec![], vec![]), "also what the cache has");
    it.answered.clear();
    let fourth = it.write(50, 1, 4);
    assert_eq!(it.answered, [(fourth, WRITE_FAULT)]);
    assert!(it.storage.sync().is_err());
}

#[test]
fn a_refused_sync_fails_the_disk() {
    let mut it = Trial::new(Fake::new(64), false);
    it.disk.refuse('s', 0);
    let flush = it.id();
    assert!(!it.storage.prepare(Need::Flush, flush));
    it.settle();
    assert_eq!(it.ready, [flush]);
    assert!(it.storage.prepare(Need::Flush, flush) && !it.storage.bring(Need::Flush).1.flushes);
    assert_eq!(it.read(0, 1), []);
}

#[test]
fn a_failure_ends_a_target_that_keeps_its_run() {
    for (kind, block) in [('r', 3), ('w', 3), ('z', 3), ('s', 0)] {
        let mut it = Trial::new(Fake::new(64), true);
        it.disk.refuse(kind, block);
        let id = it.id();
        match kind {
            'r' => assert!(!it.storage.prepare(Need::Read { first: 3, blocks: 1 }, id)),
            'w' => drop(it.write(3, 1, 1)),
            'z' => drop(it.zero(3, 1)),
            _ => assert!(!it.storage.prepare(Need::Flush, id)),
        }
        it.storage.begin(false).unwrap();
        let done = it.storage.workers.wait().unwrap();
        assert!(matches!(it.storage.finish(done), Err(Fault::Image(_))));
        assert!(it.storage.answers.is_empty());
    }
}

#[test]
fn a_flush_comes_after_writes() {
    let mut it = Trial::new(Fake::new(64), false);
    it.disk.close(true);
    it.write(7, 1, 1);
    let flush = it.id();
    assert!(!it.storage.prepare(Need::Flush, flush));
    it.storage.begin(false).unwrap();
    // It does not wait for what comes after it, and nobody who finds his blocks waits for it.
    assert_eq!(it.read(7, 1), vec![1; SIZE]);
    it.disk.close(false);
    it.settle();
    assert_eq!(it.calls(), [('w', 7), ('s', 0)]);
    assert!(it.ready == [flush] && it.storage.prepare(Need::Flush, flush) && it.storage.bring(Need::Flush).1.flushes);
}

#[test]
fn a_write_that_is_forced_is_synced() {
    let mut it = Trial::new(Fake::new(64), false);
    let forced = it.change(Need::Write { first: 7, blocks: 1 }, 1, true);
    let zeroed = it.change(Need::Zero { first: 9, blocks: 1 }, 0, true);
    it.settle();
    assert_eq!(it.answered.len(), 2);
    assert!(it.answered.contains(&(forced, SUCCESS)) && it.answered.contains(&(zeroed, SUCCESS)));
    let calls = it.calls();
    let syncs = calls.iter().filter(|it| it.0 == 's').count();
    assert!(calls.last() == Some(&('s', 0)) && (1..3).contains(&syncs), "{calls:?}");
}

#[test]
fn zeroes_come_in_order() {
    let mut it = Trial::new(Fake::new(8 * CACHED), false);
    it.disk.close(true);
    it.write(5, 4, 1);
    it.storage.begin(false).unwrap();
    it.write(6, 1, 2);
    it.zero(6, 2 * CACHED as u32);
    it.storage.begin(false).unwrap();
    it.write(8, 2, 3);
    it.zero(9, 1);
    assert_eq!(it.read(5, 5), [1, 0, 0, 3, 0].map(|byte| vec![byte; SIZE]).concat());
    assert_eq!(it.read(CACHED, 2), vec![0; 2 * SIZE], "a block that the cache lacks");
    it.disk.close(false);
    it.settle();
    assert_eq!([5, 6, 7, 8, 9, 10, CACHED].map(|block| it.block(block)), [1, 0, 0, 3, 0, 0, 0]);
    assert_eq!((it.block(2 * CACHED + 5), it.block(2 * CACHED + 6)), (0, (2 * CACHED + 6) as u8));
    assert_eq!(it.answered.len(), 5);
}

impl Trial {
    /// Reads blocks that are in the cache; whether the answer waits.
    fn read_and_wait(&mut self, first: u64, blocks: u32) -> bool {
        let (id, need) = (self.id(), Need::Read { first, blocks });
        assert!(self.storage.prepare(need, id));
        let ticket = match self.storage.follow_writes(need, 0) {
            Some(ticket) => ticket,
            None => return false,
        };
        let is_synced = self.storage.options.writes_through;
        let owed =
            Owed { connection: id, entry: SubmissionEntry::new(0, 0, 0), answer: Answer::of(SUCCESS), is_synced };
        assert!(self.storage.close(ticket, owed).is_none());
        true
    }
}

#[test]
fn what_was_read_is_there_after_a_kill() {
    let mut it = Trial::new(Fake::new(64), false);
    it.disk.close(true);
    it.write(7, 2, 1);
    it.zero(9, 1);
    assert!(it.read_and_wait(8, 1));
    it.storage.begin(false).unwrap();
    it.write(10, 1, 1);
    assert!([(7, 1), (8, 2), (10, 1)].iter().all(|(first, blocks)| it.read_and_wait(*first, *blocks)));
    assert!(it.answered.is_empty());
    it.disk.close(false);
    it.settle();
    assert_eq!(it.answered.len(), 7);
    assert!(!it.read_and_wait(7, 4));
}

#[test]
fn what_was_read_is_there_after_power_loss() {
    let mut it = Trial::new(Fake::new(64), false);
    it.storage.options.writes_through = true;
    it.change(Need::Write { first: 7, blocks: 1 }, 1, true);
    it.write(8, 1, 1);
    it.turn();
    assert_eq!(it.calls(), [('w', 7)]);
    assert!(it.read_and_wait(7, 1) && it.read_and_wait(7, 2));
    it.settle();
    assert_eq!((it.answered.len(), it.read_and_wait(7, 2)), (4, false));
    assert_eq!(it.calls().last(), Some(&('s', 0)));
}

/// Random numbers.
struct Random(u64);

impl Random {
    fn below(&mut self, limit: u64) -> u64 {
        self.0 = self.0.wrapping_mul(6_364_136_223_846_793_005).wrapping_add(1_442_695_040_888_963_407);
        (self.0 >> 33) % limit
    }
}

/// Many commands at a time: each Read has the bytes of its moment, and at the end the disk has all.
#[test]
fn nobody_reads_older_bytes() {
    let blocks = 3 * CACHED;
    for seed in 0..4 {
        let mut it = Trial::new(Fake { is_slow: true, is_cached: seed % 2 == 1, ..Fake::new(blocks) }, false);
        let mut model = it.disk.bytes.lock().unwrap().clone();
        let (mut random, mut waiting, mut changes) = (Random(seed), Vec::new(), 0);
        for turn in 0..3000_u64 {
            it.begin();
            if (turn % 3 == 0 || !it.storage.cache.has_room()) && it.storage.workers.under_way != 0 {
                it.turn();
            }
            it.conclude(&mut waiting, &model);
            if !it.storage.cache.has_room_to_write() || it.storage.bytes_asked >= MOST_READ {
                continue;
            }
            // Many of them are on a few frames.
            let first = random.below(if turn % 2 == 0 { 100 } else { blocks - 300 });
            let count = [1, 8, 3, 256][random.below(4) as usize];
            if turn % 7 == 0 {
                // Blocks may be read ahead at any time.
                (0..3).for_each(|at| it.storage.read_ahead(1, Need::Read { first: first + at, blocks: 1 }));
            }
            let place = first as usize * SIZE..(first as usize + count) * SIZE;
            match random.below(8) {
                0..=2 => {
                    it.write(first, count as u32, turn as u8);
                    model[place].fill(turn as u8);
                    changes += 1;
                }
                3 if turn % 5 == 0 => {
                    it.zero(first, count as u32);
                    model[place].fill(0);
                    changes += 1;
                }
                4 => waiting.push((it.id(), Need::Flush)),
                _ => waiting.push((it.id(), Need::Read { first, blocks: count as u32 })),
            }
        }
        it.settle();
        assert!(*it.disk.bytes.lock().unwrap() == model, "seed {seed}");
        assert_eq!(it.answered.len(), changes);
    }
}
