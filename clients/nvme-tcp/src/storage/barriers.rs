//! Which commands may go to the disk: those before which the journal has synced all records. A later record keeps none of
//! them waiting.

use std::collections::VecDeque;

/// Tickets, and the records before them.
pub struct Barriers {
    /// Ends of tickets, with the number of records that the commands before an end wait for.
    list: VecDeque<(u64, u64)>,
    /// The commands with a smaller ticket may.
    end: u64,
}

impl Default for Barriers {
    /// Without a journal all commands may.
    fn default() -> Self {
        Barriers { list: VecDeque::new(), end: u64::MAX }
    }
}

impl Barriers {
    /// The commands before the ticket `next` came after at most this many records, of which `synced` are synced. Returns
    /// whether more commands may than before.
    pub fn note(&mut self, next: u64, records: u64, synced: u64) -> bool {
        match self.list.back_mut() {
            Some((last, end)) if *last == records => *end = next,
            _ => self.list.push_back((records, next)),
        }
        let before = if self.end == u64::MAX { 0 } else { self.end };
        self.end = before;
        while let Some((_, end)) = self.list.front().filter(|(records, _)| *records <= synced) {
            self.end = *end;
            self.list.pop_front();
        }
        self.end > before
    }

    pub fn has_passed(&self, ticket: u64) -> bool {
        ticket < self.end
    }
}

#[cfg(test)]
mod tests {
    use super::*;

    #[test]
    fn commands_wait_for_the_records_before_them() {
        let mut barriers = Barriers::default();
        assert!(barriers.has_passed(9));
        let passed = |it: &Barriers| (0..9).take_while(|ticket| it.has_passed(*ticket)).count();
        for (next, records, synced, may_more, count) in [
            (1, 1, 0, false, 0),
            (3, 1, 0, false, 0),
            (4, 2, 0, false, 0),
            (5, 3, 1, true, 3),
            (6, 4, 2, true, 4),
            (6, 4, 3, true, 5),
            (6, 5, 4, true, 6),
            (6, 5, 5, false, 6),
            (8, 5, 5, true, 8),
        ] {
            assert_eq!(barriers.note(next, records, synced), may_more, "{next} {records} {synced}");
            assert_eq!(passed(&barriers), count, "{next} {records} {synced}");
        }
    }
}
