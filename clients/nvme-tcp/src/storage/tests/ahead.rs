//! Reads ahead of commands: how many calls the disk has.

use super::*;
use crate::storage::workers::THREADS;

impl Trial {
    /// Reads, of which the disk may see others before; how many calls the disk has had for it and before.
    fn read_in_order(&mut self, index: usize, first: u64, blocks: u32) -> usize {
        self.storage.read_ahead(index, Need::Read { first, blocks });
        let wanted: Vec<u8> = (first..first + u64::from(blocks)).flat_map(|it| vec![it as u8; SIZE]).collect();
        assert!(self.read(first, blocks) == wanted);
        self.calls().len()
    }

    /// Reads the first 24 blocks by three commands. The next ones are read ahead then.
    fn read_begin_in_order(&mut self) {
        for turn in 0..3 {
            self.read_in_order(0, 8 * turn, 8);
        }
    }
}

#[test]
fn reads_in_order_are_few() {
    let mut it = Trial::new(Fake::new(4 * CACHED), false);
    let mut calls = 0;
    for first in (0..4 * CACHED).step_by(8) {
        calls = it.read_in_order(0, first, 8);
    }
    it.settle();
    // Three reads, and then at least half of what may be ahead, a sixteenth of the cache.
    assert_eq!(it.calls().len(), calls);
    assert!(calls as u64 <= 3 + 4 * CACHED / (CACHED / 32) + 1, "{calls} calls");
}

#[test]
fn other_reads_are_not_read_ahead() {
    let mut it = Trial::new(Fake::new(4 * CACHED), false);
    let mut random = Random(1);
    for done in 1..200 {
        // No two of these are next to each other.
        let first = 64 * (done * 37 % (CACHED / 64)) + random.below(5) * 8;
        assert_eq!(it.read_in_order(0, first, 8) as u64, done.min(it.calls().len() as u64));
    }
    it.settle();
    assert!(it.calls().len() < 200 && it.storage.bytes_ahead == 0);
}

#[test]
fn few_blocks_are_read_ahead_and_only_of_the_disk() {
    let mut it = Trial::new(Fake::new(4 * CACHED), false);
    it.read_begin_in_order();
    it.settle();
    assert_eq!(it.calls().len(), 4, "three reads, and one ahead of the third");
    let is_recent = |it: &Trial, frame| it.storage.cache.at(it.storage.cache.find(frame).unwrap()).is_recent;
    assert!(is_recent(&it, 0) && !is_recent(&it, 2), "what no command has used leaves the cache before others");
    for turn in 0..3 {
        it.read_in_order(0, 4 * CACHED - 24 + 8 * turn, 8);
    }
    it.settle();
    assert_eq!(it.calls().len(), 7);
}

#[test]
fn reads_ahead_delay_no_others() {
    let mut it = Trial::new(Fake::new(4 * CACHED), false);
    [0, 8].into_iter().for_each(|first| assert!(it.read_in_order(0, first, 8) != 0));
    it.disk.close(true);
    let place = |nth: usize| CACHED + 64 * nth as u64;
    let begin = |it: &mut Trial, nth| {
        let id = it.id();
        assert!(!it.storage.prepare(Need::Read { first: place(nth), blocks: 8 }, id));
    };
    (0..THREADS).for_each(|nth| begin(&mut it, nth));
    it.storage.hand_out().unwrap();
    it.disk.wait_for_calls(THREADS);
    // Each thread has one of these, and waits at the gate. What is ahead comes before four others.
    it.storage.read_ahead(0, Need::Read { first: 16, blocks: 8 });
    (THREADS..THREADS + 4).for_each(|nth| begin(&mut it, nth));
    it.storage.hand_out().unwrap();
    for nth in THREADS..THREADS + 4 {
        it.disk.let_one_pass();
        assert_eq!(it.disk.wait_for_calls(nth + 1), Some(('r', place(nth))));
    }
    it.disk.let_one_pass();
    assert_eq!(it.disk.wait_for_calls(THREADS + 5), Some(('r', 24)));
    it.disk.close(false);
    it.settle();
}

#[test]
fn a_read_that_waits_for_one_ahead_is_next() {
    let mut it = Trial::new(Fake::new(4 * CACHED), false);
    [0, 8].into_iter().for_each(|first| assert!(it.read_in_order(0, first, 8) != 0));
    it.storage.read_ahead(0, Need::Read { first: 16, blocks: 8 });
    assert!(it.storage.bytes_ahead != 0);
    let (id, need) = (it.id(), Need::Read { first: 24, blocks: 8 });
    assert!(!it.storage.prepare(need, id));
    assert_eq!(it.storage.bytes_ahead, 0, "it is a read like others");
    it.settle();
    assert!(it.storage.prepare(need, id));
    assert_eq!(it.bring(id, need).len(), 8 * SIZE);
}

#[test]
fn a_read_ahead_that_fails_is_forgotten() {
    for keeps_run in [false, true] {
        let mut it = Trial::new(Fake::new(4 * CACHED), keeps_run);
        it.disk.refuse('r', 60);
        it.read_begin_in_order();
        it.settle();
        assert!(it.calls().iter().any(|it| it.1 == 24));
        it.disk.refused.lock().unwrap().clear();
        assert_eq!(it.read(56, 8).len(), 8 * SIZE);
    }
}
