//! Commands that zero many blocks. Each is executed in pieces, one in each turn of the event loop, so that other hosts
//! are served between two. No command that could deny a piece is executed between two of them, so each is executed
//! whole, or denied whole; unless its queue ends meanwhile.

use super::pending::Issued;
use super::Storage;
use crate::fabrics::association::ConnectionId;
use crate::fault::Outcome;
use crate::nvme::status::SUCCESS;
use crate::nvme::{DATASET_MANAGEMENT, WRITE_ZEROES};
use crate::target::answer::Answer;
use crate::target::controller::Data;
use crate::target::deallocating::{ranges_to_zero, Range};
use crate::target::{Effect, Target};
use std::collections::VecDeque;

/// The most blocks that are zeroed in a turn. A command that zeroes more waits for turns.
pub const PIECE: u64 = 1024;
/// The most commands of all hosts that wait.
const MOST: usize = 64;

/// A command that waits for turns.
struct LongZeroing {
    issued: Issued,
    /// What is to zero, in order.
    ranges: VecDeque<Range>,
    has_begun: bool,
    /// Its ticket over a disk, once it has begun.
    ticket: Option<u64>,
}

/// The commands that wait for turns. The first one may have begun.
#[derive(Default)]
pub struct LongZeroes {
    list: VecDeque<LongZeroing>,
}

impl LongZeroes {
    pub fn is_full(&self) -> bool {
        self.list.len() >= MOST
    }

    pub fn has_of(&self, connection: ConnectionId) -> bool {
        self.list.iter().any(|it| it.issued.connection == connection)
    }

    fn has_begun(&self) -> bool {
        self.list.front().map_or(false, |it| it.has_begun)
    }

    /// Drops the commands of a controller with their queue, or with all queues. If one of them has begun, its ticket.
    pub fn drop(&mut self, index: usize, qid: Option<u16>) -> Option<u64> {
        let is_dropped = |it: &LongZeroing| it.issued.index == index && qid.map_or(true, |qid| it.issued.qid == qid);
        let ticket = self.list.front().filter(|it| is_dropped(it)).and_then(|it| it.ticket);
        self.list.retain(|it| !is_dropped(it));
        ticket
    }
}

impl Target<'_> {
    /// Has a command wait for turns if it zeroes many blocks; whether it does.
    pub fn wait_for_turns(&mut self, issued: Issued, data: Data<'_>) -> bool {
        if !matches!(issued.opcode, WRITE_ZEROES | DATASET_MANAGEMENT) {
            return false;
        }
        let ranges = ranges_to_zero(&issued.entry, data, self.configuration.blocks(issued.entry.namespace_id()));
        let waits = ranges.clone().map(|it| it.count).sum::<u64>() > PIECE;
        if waits {
            let (ranges, has_begun, ticket) = (ranges.collect(), false, None);
            self.long_zeroes.list.push_back(LongZeroing { issued, ranges, has_begun, ticket });
        }
        waits
    }

    /// Whether a command can have a turn now.
    #[inline]
    pub fn has_turn(&self) -> bool {
        let has_many = || self.storage.as_ref().map_or(false, Storage::has_many_zeroes);
        self.long_zeroes.has_begun() || !self.long_zeroes.list.is_empty() && !has_many()
    }

    /// Zeroes a piece of the first command, if it can have a turn now; whether it could.
    #[inline]
    pub fn take_turn(&mut self) -> Outcome<bool> {
        let has_turn = self.has_turn();
        if has_turn {
            self.zero_piece()?;
        }
        Ok(has_turn)
    }

    /// Ends the command that has begun, before another is executed that may deny its next piece.
    pub fn end_begun_zeroes(&mut self) -> Outcome<()> {
        while self.long_zeroes.has_begun() {
            self.zero_piece()?;
        }
        Ok(())
    }

    fn zero_piece(&mut self) -> Outcome<()> {
        if let Some(mut it) = self.long_zeroes.list.pop_front() {
            if !it.has_begun {
                it.has_begun = true;
                it.ticket = self.storage.as_mut().map(|storage| storage.begin_pieces(it.issued.index));
            }
            match self.zero_some(&mut it)? {
                Some(answer) => self.conclude_zeroes(&it, answer),
                None => self.long_zeroes.list.push_front(it),
            }
        }
        Ok(())
    }

    /// Zeroes as many of the next blocks as may be in a turn; the answer, if the command ends with them.
    fn zero_some(&mut self, it: &mut LongZeroing) -> Outcome<Option<Answer>> {
        let Issued { index, qid, entry, .. } = it.issued;
        let mut rest = PIECE;
        while let Some(range) = it.ranges.front_mut().filter(|_| rest != 0) {
            let piece = range.take(rest);
            rest -= piece.count;
            if range.count == 0 {
                it.ranges.pop_front();
            }
            let completed = self.zero(index, qid, &piece.zeroing(&entry), it.ticket)?;
            if completed.status != SUCCESS {
                return Ok(Some(Answer::of(completed.status)));
            }
        }
        Ok(it.ranges.is_empty().then(|| Answer::of(SUCCESS)))
    }

    fn conclude_zeroes(&mut self, it: &LongZeroing, answer: Answer) {
        self.storage.iter_mut().for_each(Storage::end_pieces);
        let Issued { connection, entry, .. } = it.issued;
        if let Some(answer) = self.owe(it.ticket, &it.issued, answer) {
            self.effects.push_back(Effect::Answer(connection, entry, answer));
        }
    }
}
