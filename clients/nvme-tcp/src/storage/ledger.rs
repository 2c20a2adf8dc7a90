//! Commands that were executed, and whose blocks the system does not have yet. Each has a ticket, the next number. An
//! answer waits for the writes of its own command; only a Flush waits for all commands before it.

use crate::fabrics::association::ConnectionId;
use crate::numbers::{to_u64, to_usize};
use crate::nvme::entry::SubmissionEntry;
use crate::target::answer::Answer;
use std::collections::VecDeque;

/// An answer that waits.
pub struct Owed {
    pub(super) connection: ConnectionId,
    pub(super) entry: SubmissionEntry,
    pub(super) answer: Answer,
    /// Whether the blocks must be synced before it goes.
    pub(super) is_synced: bool,
}

/// A command: how many writes and zeroes of it the system does not have, and its answer once that is known.
struct Line {
    index: usize,
    open: u32,
    owed: Option<Owed>,
}

/// The commands by their tickets.
#[derive(Default)]
pub struct Ledger {
    first: u64,
    lines: VecDeque<Line>,
    /// How many commands of each controller are open.
    counts: Vec<usize>,
}

impl Ledger {
    /// Begins a command of a controller, which is open until its answer is known.
    pub fn open(&mut self, index: usize) -> u64 {
        self.lines.push_back(Line { index, open: 1, owed: None });
        self.counts.resize(self.counts.len().max(index + 1), 0);
        self.counts[index] += 1;
        self.next() - 1
    }

    /// How many commands of a controller are open.
    pub fn open_of(&self, index: usize) -> usize {
        self.counts.get(index).copied().unwrap_or(0)
    }

    /// The next ticket.
    pub fn next(&self) -> u64 {
        self.first + to_u64(self.lines.len())
    }

    /// How many commands are open, or came after one that is.
    pub fn len(&self) -> usize {
        self.lines.len()
    }

    /// Whether the system has the blocks of all commands before a ticket.
    pub fn has_all_before(&self, ticket: u64) -> bool {
        self.first >= ticket
    }

    /// A command has one more write.
    pub fn add(&mut self, ticket: u64) {
        if let Some(line) = self.line(ticket) {
            line.open += 1;
        }
    }

    /// The answer of a command is known: it is given back if nothing is open, or all were given up.
    pub fn close(&mut self, ticket: u64, owed: Owed) -> Option<Owed> {
        match self.line(ticket) {
            Some(line) if line.open > 1 => {
                line.owed = Some(owed);
                self.end(ticket)
            }
            _ => {
                self.end(ticket);
                Some(owed)
            }
        }
    }

    /// The system has a write of a command: its answer, if that was the last.
    pub fn end(&mut self, ticket: u64) -> Option<Owed> {
        let line = self.line(ticket)?;
        line.open -= 1;
        if line.open != 0 {
            return None;
        }
        let (owed, index) = (line.owed.take(), line.index);
        self.counts[index] -= 1;
        while self.lines.front().map_or(false, |it| it.open == 0) {
            self.lines.pop_front();
            self.first += 1;
        }
        owed
    }

    /// The answers of all commands that are open: none of these gets its blocks to the disk. None is open then.
    pub fn give_up(&mut self) -> Vec<Owed> {
        self.first = self.next();
        self.counts.clear();
        self.lines.drain(..).filter_map(|it| it.owed).collect()
    }

    /// The answers that wait.
    pub fn owed(&self) -> impl Iterator<Item = &Owed> {
        self.lines.iter().filter_map(|it| it.owed.as_ref())
    }

    fn line(&mut self, ticket: u64) -> Option<&mut Line> {
        self.lines.get_mut(to_usize(ticket.checked_sub(self.first)?))
    }
}

#[cfg(test)]
mod tests {
    use super::*;
    use crate::nvme::status::SUCCESS;

    fn owed(connection: u64) -> Owed {
        Owed { connection, entry: SubmissionEntry::new(0, 0, 0), answer: Answer::of(SUCCESS), is_synced: false }
    }

    #[test]
    fn answers_wait_for_their_writes() {
        let mut ledger = Ledger::default();
        let tickets = [0; 4].map(|_| ledger.open(1));
        tickets[..3].iter().for_each(|it| ledger.add(*it));
        ledger.add(tickets[1]);
        assert!((0..3).all(|it| ledger.close(tickets[it], owed(it as u64)).is_none()));
        assert_eq!(ledger.close(tickets[3], owed(3)).map(|it| it.connection), Some(3));
        assert!(ledger.end(tickets[1]).is_none());
        assert_eq!(ledger.end(tickets[2]).map(|it| it.connection), Some(2));
        assert!(!ledger.has_all_before(tickets[1]) && ledger.len() == 4);
        assert_eq!((ledger.open_of(0), ledger.open_of(1), ledger.open_of(2)), (0, 2, 0));
        assert_eq!(ledger.end(tickets[0]).map(|it| it.connection), Some(0));
        assert!(ledger.has_all_before(tickets[1]) && !ledger.has_all_before(tickets[2]));
        assert_eq!(ledger.end(tickets[1]).map(|it| it.connection), Some(1));
        assert!(ledger.has_all_before(ledger.next()) && ledger.len() == 0);
        assert!(ledger.end(tickets[2]).is_none());
    }

    #[test]
    fn answers_are_given_up() {
        let mut ledger = Ledger::default();
        let tickets = [0; 2].map(|_| ledger.open(0));
        tickets.iter().for_each(|it| ledger.add(*it));
        assert!(ledger.close(tickets[0], owed(7)).is_none());
        assert_eq!(ledger.give_up().len(), 1);
        assert!(ledger.end(tickets[0]).is_none() && ledger.len() == 0 && ledger.open_of(0) == 0);
        assert!(ledger.close(tickets[1], owed(8)).is_some(), "what was executed before and has no answer yet");
    }
}
