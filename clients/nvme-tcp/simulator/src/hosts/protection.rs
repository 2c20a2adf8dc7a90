//! Since when the namespace is write protected for sure.

use super::checker::{Checker, Sent};
use super::history::Block;
use super::queue::Completion;
use crate::world::with;

/// Statuses that any command of I/O may have: not attached, aborted, aborted by preemption, write protected, Transient
/// Transport Error, Reservation Conflict, and inaccessible.
const DENIALS: [u16; 7] = [0x02, 0x07, 0x1b, 0x20, 0x22, 0x83, 0x302];
/// Statuses that any command on blocks has after a write or a sync that failed: Write Fault, Unrecovered Read Error.
const FAILURES: [u16; 2] = [0x280, 0x281];

/// Commands that change the write protection.
#[derive(Default)]
pub struct Protection {
    next: u64,
    /// Those without an answer, by their numbers, with their controllers.
    open: Vec<(u64, u16)>,
    /// The last, if no other was without an answer when it was sent: else either may be executed first.
    alone: Option<u64>,
    /// When the last was answered that protects, if no other may be executed after it.
    pub since: Option<u64>,
    pub is_read_only: bool,
}

impl Protection {
    /// Whether no write that began at a time may succeed.
    pub fn covers(&self, begun: u64) -> bool {
        self.is_read_only || self.since.map_or(false, |since| begun > since)
    }
}

impl Checker {
    /// A command of a controller that changes the write protection is sent: its number.
    pub fn begin_protection(&mut self, cntlid: u16) -> u64 {
        let it = &mut self.protection;
        (it.next, it.since) = (it.next + 1, None);
        it.alone = Some(it.next).filter(|_| it.open.is_empty());
        it.open.push((it.next, cntlid));
        it.next
    }

    /// It is answered: whether the namespace is protected since then, unless another command may change that.
    pub fn protected(&mut self, number: u64, is_on: bool) {
        let it = &mut self.protection;
        it.open.retain(|(other, _)| *other != number);
        if is_on && it.alone == Some(number) {
            it.since = Some(with(|world| world.now));
        }
    }

    /// A target has begun whose blocks are in memory: they are zeros.
    pub fn begin_memory(&mut self, process: usize) {
        self.memory = Some(process);
        self.blocks.iter_mut().for_each(|it| *it = Block::new());
    }

    /// Whether a command was sent to a target whose memory is gone.
    pub fn is_void(&self, sent: &Sent) -> bool {
        self.memory.map_or(false, |it| it != sent.process)
    }

    /// Nothing that a controller was sent before is executed from now on; nor is anything, without one.
    pub fn bound_protection(&mut self, cntlid: Option<u16>) {
        self.protection.open.retain(|(_, it)| cntlid.map_or(false, |cntlid| *it != cntlid));
    }

    /// A command has failed by the disk, which must have refused something: a write of a part of a page reads the rest,
    /// so that may be a read.
    pub fn judge_failure(&mut self, sent: &Sent, status: u16) {
        let kinds = ["failed read", "unreadable", "failed write", "failed sync"];
        let has_failed = with(|it| kinds.iter().any(|kind| it.injected.contains_key(kind)));
        if FAILURES.contains(&status) && !has_failed {
            self.violate(format!("a command has status {status:x}, and no disk has failed: {sent:?}"));
        }
    }

    /// A command that is wrong was answered.
    pub fn judge_wrong(&mut self, sent: &Sent, wanted: &[u16], completion: &Completion) {
        let status = completion.status;
        let is_excused = DENIALS.contains(&status) || FAILURES.contains(&status);
        if !wanted.contains(&status) && !is_excused {
            self.violate(format!("a command has status {status:x}: {sent:?}"));
        }
        if status != 0 && !completion.data.is_empty() {
            self.violate(format!("a command that is refused has {} bytes: {sent:?}", completion.data.len()));
        }
    }

    /// Whether bytes of this name are the same as each time before.
    pub fn is_same(&mut self, name: &'static str, bytes: &[u8]) -> bool {
        self.same.entry(name).or_insert_with(|| bytes.to_vec()) == bytes
    }
}

#[cfg(test)]
mod tests {
    use super::super::checker::{begin, check};
    use crate::world::{self, Chances};

    #[test]
    fn of_two_at_a_time_either_may_be_the_last() {
        world::begin(1, Chances::default(), false);
        begin(8, 8, true, true);
        check(|it| {
            let on = it.begin_protection(1);
            it.protected(on, true);
            assert!(it.protection.since.is_some());
            let (off, on) = (it.begin_protection(2), it.begin_protection(1));
            it.protected(off, false);
            it.protected(on, true);
            assert_eq!(it.protection.since, None);
        });
    }
}
