//! Syncs of the disk, one at a time: each is for all who asked before it began.

use super::ledger::Owed;
use std::collections::VecDeque;
use std::mem;

/// A Flush that waits.
#[derive(Clone, Copy, Debug, PartialEq, Eq)]
enum Stage {
    /// Until the system has the blocks of all commands before this ticket.
    Before(u64),
    /// Until the sync with this number ends.
    Sync(u64),
    /// No more: the sync has passed.
    Passed,
}

/// The syncs, and who waits for them.
#[derive(Default)]
pub struct Syncs {
    /// The number of the last sync that was begun, and whether it is in progress.
    begun: u64,
    is_running: bool,
    /// The highest number that is asked for.
    asked: u64,
    owed: VecDeque<(u64, Owed)>,
    /// Flushes by the numbers of their commands.
    flushes: Vec<(u64, Stage)>,
}

impl Syncs {
    /// The number of the next sync.
    pub fn next(&self) -> u64 {
        self.begun + 1
    }

    /// Asks for the next sync; its number.
    fn ask(&mut self) -> u64 {
        self.asked = self.next();
        self.asked
    }

    /// An answer waits for a sync from now on.
    pub fn owe(&mut self, owed: Owed) {
        let number = self.ask();
        self.owed.push_back((number, owed));
    }

    /// The answers that wait.
    pub fn owed(&self) -> impl Iterator<Item = &Owed> {
        self.owed.iter().map(|(_, it)| it)
    }

    /// Whether a Flush has passed. It waits for a sync after all commands before a ticket, if it did not yet.
    pub fn has_flushed(&mut self, id: u64, ticket: u64) -> bool {
        if let Some((_, stage)) = self.flushes.iter().find(|(it, _)| *it == id) {
            *stage == Stage::Passed
        } else {
            self.flushes.push((id, Stage::Before(ticket)));
            false
        }
    }

    /// A command waits no more.
    pub fn forget(&mut self, id: u64) {
        self.flushes.retain(|(it, _)| *it != id);
    }

    /// Whether a sync is to begin now. `has_all_before` says which Flushes do not wait for writes.
    pub fn begin(&mut self, has_all_before: impl Fn(u64) -> bool) -> bool {
        for at in 0..self.flushes.len() {
            if matches!(self.flushes[at].1, Stage::Before(ticket) if has_all_before(ticket)) {
                self.flushes[at].1 = Stage::Sync(self.ask());
            }
        }
        let begins = !self.is_running && self.asked > self.begun;
        if begins {
            self.begun += 1;
            self.is_running = true;
        }
        begins
    }

    /// The sync has passed: the answers that have waited for it, and the Flushes.
    pub fn pass(&mut self) -> (Vec<Owed>, Vec<u64>) {
        self.is_running = false;
        let mut owed = Vec::new();
        while self.owed.front().map_or(false, |(number, _)| *number <= self.begun) {
            owed.extend(self.owed.pop_front().map(|(_, it)| it));
        }
        let mut ready = Vec::new();
        for (id, stage) in &mut self.flushes {
            if matches!(stage, Stage::Sync(number) if *number <= self.begun) {
                *stage = Stage::Passed;
                ready.push(*id);
            }
        }
        (owed, ready)
    }

    /// No sync will pass: all answers that wait, and all Flushes.
    pub fn give_up(&mut self) -> (Vec<Owed>, Vec<u64>) {
        let owed = mem::take(&mut self.owed).into_iter().map(|(_, it)| it).collect();
        (owed, mem::take(&mut self.flushes).into_iter().map(|(id, _)| id).collect())
    }
}

#[cfg(test)]
mod tests {
    use super::*;

    #[test]
    fn a_flush_waits_for_writes_and_a_sync() {
        let mut syncs = Syncs::default();
        assert!(!syncs.has_flushed(1, 5) && !syncs.has_flushed(2, 9));
        assert!(!syncs.begin(|ticket| ticket <= 4));
        assert!(syncs.begin(|ticket| ticket <= 5));
        // This one comes while the sync runs, which may have begun before its writes.
        assert!(!syncs.begin(|ticket| ticket <= 9));
        assert_eq!(syncs.pass().1, [1]);
        assert!(syncs.has_flushed(1, 5) && !syncs.has_flushed(2, 9));
        assert!(syncs.begin(|_| true) && !syncs.begin(|_| true));
        assert_eq!(syncs.pass().1, [2]);
        syncs.forget(1);
        assert!(!syncs.has_flushed(1, 5));
        assert_eq!(syncs.give_up().1, [2, 1]);
    }
}
