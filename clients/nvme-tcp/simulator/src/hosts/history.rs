//! What each block may contain: the writes and reads of hosts with the times of request and answer.
//!
//! Each write has a value of its own. A read is right if some order of the commands that agrees with real time has it
//! after the write of its value, and no other write in between.

/// No answer yet.
const OPEN: u64 = u64::MAX;

#[derive(Clone, Copy, Debug, PartialEq, Eq)]
pub enum State {
    /// Not answered.
    Pending,
    /// It was answered that it is written.
    Done,
    /// It may have been executed, by its `end` at the latest, and may have not.
    Maybe,
    /// It was answered that it is not.
    Denied,
}

#[derive(Clone, Copy, Debug)]
pub struct Version {
    /// The number of its command. Zeros have no value of their own.
    number: u64,
    pub value: u64,
    pub start: u64,
    pub end: u64,
    pub state: State,
    /// Whether a Flush was answered that began after its answer, or it was written through.
    pub is_durable: bool,
    /// Power was lost before its answer came.
    is_cut: bool,
    /// A disk has written or read it at a wrong place: that others are not seen again proves nothing.
    is_strayed: bool,
}

/// A value that was read in this time.
#[derive(Clone, Copy, Debug)]
struct Seen {
    value: u64,
    start: u64,
    end: u64,
}

#[derive(Clone, Debug)]
pub struct Block {
    pub versions: Vec<Version>,
    seen: Vec<Seen>,
    /// When power was lost last, if that may have taken what was read.
    lost: u64,
}

/// When the last of those begins that end before a time.
fn last_start(all: impl Iterator<Item = (u64, u64)>, time: u64) -> u64 {
    all.filter(|it| it.1 < time).map(|it| it.0).max().unwrap_or(0)
}

impl Block {
    pub fn new() -> Block {
        let (state, is_durable, is_cut, is_strayed) = (State::Done, true, false, false);
        let zero = Version { number: 0, value: 0, start: 0, end: 0, state, is_durable, is_cut, is_strayed };
        Block { versions: vec![zero], seen: Vec::new(), lost: 0 }
    }

    /// A command with a number writes a value.
    pub fn begin(&mut self, number: u64, value: u64, now: u64) {
        self.versions.push(Version {
            number,
            value,
            start: now,
            end: OPEN,
            state: State::Pending,
            is_durable: false,
            is_cut: false,
            is_strayed: false,
        });
    }

    /// It may have a value from now on by a fault of the disk, and then what it had before again.
    pub fn stray(&mut self, number: u64, value: u64, now: u64) {
        self.begin(number, value, now);
        self.versions.iter_mut().filter(|it| it.number == number).for_each(|it| {
            (it.state, it.is_strayed) = (State::Maybe, true);
        });
    }

    /// A write is answered, or given up.
    pub fn answer(&mut self, number: u64, end: u64, state: State, is_durable: bool) {
        if let Some(it) = self.versions.iter_mut().find(|it| it.number == number) {
            it.is_durable = is_durable && state == State::Done;
            // An answer that was on the way when power was lost promises nothing, unless it was written through.
            let is_lost = it.is_cut && state == State::Done && !is_durable;
            (it.end, it.state) = (it.end.min(end), if is_lost { State::Maybe } else { state });
        }
        if state == State::Denied {
            self.versions.retain(|it| it.state != State::Denied);
        }
    }

    /// A write that has no answer is executed by this time, or never.
    pub fn bound(&mut self, number: u64, end: u64) {
        for it in self.versions.iter_mut().filter(|it| it.number == number) {
            it.end = it.end.min(end);
        }
    }

    /// Judges a read, and remembers it.
    pub fn read(&mut self, value: u64, start: u64, end: u64) -> Result<(), String> {
        let writes = self.versions.iter().filter(|it| it.state == State::Done).map(|it| (it.start, it.end));
        let others = self.seen.iter().filter(|it| it.value != value).map(|it| (it.start, it.end));
        // What has ended before this time was replaced before the read began.
        let replaced = last_start(writes.chain(others), start);
        let is_possible = |it: &Version| it.value == value && it.start <= end && it.end >= replaced;
        if self.versions.iter().any(|it| it.is_strayed && is_possible(it)) {
            return Ok(());
        }
        if !self.versions.iter().any(is_possible) {
            return Err(format!("value {value:#x} was read from {start} to {end}; it may be {self:?}"));
        }
        // An answer that was on the way when power was lost promises nothing.
        if start > self.lost {
            self.seen.push(Seen { value, start, end });
        }
        Ok(())
    }

    /// Forgets what no command that began at `oldest` or later can meet.
    pub fn prune(&mut self, oldest: u64) {
        if self.versions.len() < 8 && self.seen.len() < 8 {
            return;
        }
        let lasting = self.versions.iter().filter(|it| it.state == State::Done && it.is_durable);
        let replaced = last_start(lasting.map(|it| (it.start, it.end)), oldest);
        self.versions.retain(|it| it.end >= replaced);
        if let Some(last) = self.seen.iter().filter(|it| it.end < oldest).max_by_key(|it| it.start).copied() {
            self.seen.retain(|it| it.end >= oldest || it.start == last.start);
        }
    }

    /// A Flush was answered that began at a time.
    pub fn flush(&mut self, begun: u64) {
        for it in self.versions.iter_mut().filter(|it| it.state == State::Done && it.end < begun) {
            it.is_durable = true;
        }
    }

    /// The power of the disk was lost: what is not durable may be there or not. If writes are written through, the disk
    /// has what was read; else that proves nothing.
    pub fn lose_power(&mut self, now: u64, writes_through: bool) {
        if !writes_through {
            self.seen.clear();
            self.lost = now;
        }
        for it in self.versions.iter_mut().filter(|it| !it.is_durable) {
            it.is_cut |= it.state == State::Pending;
            it.state = State::Maybe;
            it.end = it.end.min(now);
        }
    }
}

#[cfg(test)]
mod tests {
    use super::*;

    fn written(list: &[(u64, u64, u64)]) -> Block {
        let mut block = Block::new();
        for (value, start, end) in list {
            block.begin(*value, *value, *start);
            block.answer(*value, *end, State::Done, false);
        }
        block
    }

    #[test]
    fn reads_are_judged() {
        let block = written(&[(1, 10, 20), (2, 30, 40), (3, 35, 50)]);
        let judge = |value, start, end| block.clone().read(value, start, end).is_ok();
        assert!(judge(0, 5, 9) && judge(0, 5, 25) && judge(0, 12, 15) && !judge(0, 25, 28));
        assert!(judge(1, 25, 28) && judge(1, 5, 12) && !judge(1, 5, 9) && !judge(1, 60, 70));
        assert!(judge(2, 60, 70) && judge(3, 60, 70) && !judge(9, 60, 70));
        let mut block = block;
        assert!(block.read(2, 60, 70).is_ok() && block.read(3, 80, 90).is_err(), "two reads agree with one order");
    }

    #[test]
    fn power_takes_what_is_not_flushed() {
        let mut block = written(&[(1, 10, 20), (2, 30, 40)]);
        block.flush(25);
        assert!(block.clone().read(1, 60, 70).is_err());
        block.lose_power(50, false);
        assert!(block.clone().read(0, 60, 70).is_err(), "the first was flushed");
        assert!(block.clone().read(2, 60, 70).is_ok());
        assert!(block.clone().read(2, 45, 55).is_ok(), "its answer was on the way");
        let mut late = block.clone();
        assert!(late.read(2, 45, 55).is_ok() && late.read(1, 60, 70).is_ok());
        assert!(block.read(1, 60, 70).is_ok() && block.read(2, 80, 90).is_err(), "it is old or new, and stays so");
    }

    #[test]
    fn an_answer_after_a_power_cut_promises_what_was_written_through() {
        for writes_through in [false, true] {
            let mut block = written(&[(1, 10, 20)]);
            block.flush(25);
            block.begin(2, 2, 30);
            block.lose_power(40, writes_through);
            block.answer(2, 45, State::Done, writes_through);
            assert!(block.clone().read(2, 60, 70).is_ok());
            assert_eq!(block.read(1, 60, 70).is_ok(), !writes_through);
        }
    }

    #[test]
    fn zeroes_that_were_sent_together_are_two() {
        let mut block = written(&[(7, 10, 20)]);
        block.flush(25);
        (1..=2).for_each(|number| block.begin(number, 0, 30));
        block.answer(1, 35, State::Done, false);
        block.lose_power(40, false);
        block.answer(2, 45, State::Done, false);
        assert!(block.clone().read(0, 60, 70).is_ok());
        assert!(block.read(7, 60, 70).is_ok(), "power took both");
    }

    #[test]
    fn a_fault_of_the_disk_takes_nothing_away() {
        let mut block = written(&[(1, 10, 20), (2, 30, 40)]);
        block.stray(9, 7, 50);
        assert!(block.clone().read(7, 40, 45).is_err(), "before the fault");
        assert!(block.read(7, 60, 70).is_ok() && block.read(2, 80, 90).is_ok() && block.read(7, 95, 96).is_ok());
        assert!(block.read(1, 97, 98).is_err(), "another value than these two");
        block.bound(9, 99);
        block.begin(10, 3, 100);
        block.answer(10, 110, State::Done, true);
        assert!(block.clone().read(3, 120, 130).is_ok() && block.read(7, 120, 130).is_err(), "it was written again");
    }

    #[test]
    fn what_has_no_answer_ends_at_a_fence() {
        let mut block = written(&[(1, 10, 20)]);
        block.begin(2, 2, 30);
        assert!(block.clone().read(2, 100, 110).is_ok());
        block.bound(2, 40);
        assert!(block.read(1, 50, 60).is_ok());
        assert!(block.read(2, 100, 110).is_err(), "it has landed after its fence");
    }
}
