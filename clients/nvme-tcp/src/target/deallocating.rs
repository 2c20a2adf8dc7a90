//! Dataset Management: ranges to deallocate are zeroed, each by a Write Zeroes of the subsystem, in their order. Long
//! ranges are zeroed in pieces.

use crate::bytes::{u32_at, u64_at};
use crate::fault::Outcome;
use crate::numbers::narrow;
use crate::nvme::entry::SubmissionEntry;
use crate::nvme::status::{Status, DATA_TRANSFER, OUT_OF_RANGE, SIZE_LIMIT, SUCCESS};
use crate::nvme::{DATASET_MANAGEMENT, MOST_BLOCKS, WRITE_ZEROES};
use crate::target::answer::Answer;
use crate::target::controller::{Completed, Data};
use crate::target::Target;

/// Bits of double word 11: Attribute Deallocate.
const DEALLOCATE: u32 = 1 << 2;
/// The size of a range.
const RANGE: usize = 16;
/// No block of any namespace.
const NOWHERE: u64 = u64::MAX;

/// Blocks of a namespace.
#[derive(Clone, Copy, Debug, PartialEq, Eq)]
pub struct Range {
    slba: u64,
    pub count: u64,
}

impl Range {
    /// Whether a namespace with this number of blocks has all of them.
    fn is_within(self, blocks: u64) -> bool {
        self.slba <= blocks && self.count <= blocks - self.slba
    }

    /// Takes its first blocks, at most `most`.
    pub fn take(&mut self, most: u64) -> Range {
        let front = Range { count: self.count.min(most), ..*self };
        self.slba += front.count;
        self.count -= front.count;
        front
    }

    /// The Write Zeroes of it, in the name of a command. One within a namespace has no more blocks than one zeroes.
    pub fn zeroing(self, entry: &SubmissionEntry) -> SubmissionEntry {
        let nlb = narrow(self.count - 1);
        match entry.opcode() {
            WRITE_ZEROES => entry.at_blocks(self.slba, nlb),
            _ => entry.on_blocks(WRITE_ZEROES, self.slba, nlb),
        }
    }
}

/// The result of a Dataset Management.
#[derive(Clone, Copy, Debug, PartialEq, Eq)]
enum Plan<'d> {
    /// These ranges are zeroed.
    Zero(&'d [u8]),
    /// It changes nothing, and is answered this unless a rule denies it before its ranges are looked at.
    Nothing(Status),
}

impl<'d> Plan<'d> {
    fn bytes(self) -> &'d [u8] {
        match self {
            Plan::Zero(bytes) => bytes,
            Plan::Nothing(_) => &[],
        }
    }
}

/// The ranges that have blocks.
fn ranges_of(bytes: &[u8]) -> impl Iterator<Item = Range> + Clone + '_ {
    let all = bytes.chunks_exact(RANGE).map(|it| Range { slba: u64_at(it, 8), count: u32_at(it, 4).into() });
    all.filter(|it| it.count != 0)
}

/// The result of a command on a namespace with this number of blocks.
fn plan_of<'d>(entry: &SubmissionEntry, data: Data<'d>, blocks: u64) -> Plan<'d> {
    let length = RANGE * (usize::from(entry.cdw10_low()) + 1);
    let bytes = match data {
        Data::ToController(bytes) if bytes.len() >= length => &bytes[..length],
        _ => return Plan::Nothing(DATA_TRANSFER),
    };
    if entry.cdw11() & DEALLOCATE == 0 || ranges_of(bytes).next().is_none() {
        return Plan::Nothing(SUCCESS);
    }
    if !ranges_of(bytes).all(|it| it.is_within(blocks)) {
        return Plan::Nothing(OUT_OF_RANGE);
    }
    if ranges_of(bytes).map(|it| it.count).sum::<u64>() > MOST_BLOCKS {
        return Plan::Nothing(SIZE_LIMIT);
    }
    Plan::Zero(bytes)
}

/// The ranges that a command zeroes unless a rule denies it. A Write Zeroes of blocks that the namespace does not have
/// is denied.
pub fn ranges_to_zero<'d>(
    entry: &SubmissionEntry,
    data: Data<'d>,
    blocks: u64,
) -> impl Iterator<Item = Range> + Clone + 'd {
    let own = Range { slba: entry.slba(), count: u64::from(entry.nlb()) + 1 };
    let own = Some(own).filter(|it| entry.opcode() == WRITE_ZEROES && it.is_within(blocks));
    let bytes = match entry.opcode() {
        DATASET_MANAGEMENT => plan_of(entry, data, blocks).bytes(),
        _ => &[],
    };
    own.into_iter().chain(ranges_of(bytes))
}

/// The Write Zeroes that a command comes to, if it is one alone.
pub fn only_zeroing(entry: &SubmissionEntry, data: Data<'_>, blocks: u64) -> Option<SubmissionEntry> {
    let mut ranges = ranges_of(plan_of(entry, data, blocks).bytes());
    match (ranges.next(), ranges.next()) {
        (Some(range), None) => Some(range.zeroing(entry)),
        _ => None,
    }
}

impl Target<'_> {
    /// Executes Dataset Management. It ends at the first range that can't be zeroed. Over a disk it has a ticket.
    pub fn deallocate(
        &mut self,
        index: usize,
        qid: u16,
        entry: &SubmissionEntry,
        data: Data<'_>,
        ticket: Option<u64>,
    ) -> Outcome<Answer> {
        let bytes = match plan_of(entry, data, self.configuration.blocks(entry.namespace_id())) {
            Plan::Zero(bytes) => bytes,
            // The rules judge it as they do a Write Zeroes that passes all of them but the last.
            Plan::Nothing(status) => {
                let nowhere = Range { slba: NOWHERE, count: 1 }.zeroing(entry);
                let denied = self.zero(index, qid, &nowhere, ticket)?.status;
                return Ok(Answer::of(if denied == OUT_OF_RANGE { status } else { denied }));
            }
        };
        for range in ranges_of(bytes) {
            let completed = self.zero(index, qid, &range.zeroing(entry), ticket)?;
            if completed.status != SUCCESS {
                return Ok(Answer::of(completed.status));
            }
        }
        Ok(Answer::of(SUCCESS))
    }

    /// Zeroes a range. Over a disk it has a ticket.
    pub fn zero(&mut self, index: usize, qid: u16, entry: &SubmissionEntry, ticket: Option<u64>) -> Outcome<Completed> {
        let data = Data::FromController(0);
        let completed = match ticket {
            Some(ticket) => self.run_over(index, qid, entry, ticket)?,
            None => self.controllers[index].run(&mut self.machine, qid, entry, data)?,
        };
        if !completed.is_denied {
            self.follow(index, qid, entry, data, &completed);
        }
        Ok(completed)
    }
}

#[cfg(test)]
mod tests {
    use super::*;
    use crate::bytes::put;
    use crate::nvme::DATASET_MANAGEMENT;

    fn range(slba: u64, count: u32) -> [u8; RANGE] {
        let mut range = [0xff; RANGE];
        put(&mut range, 4, &count.to_le_bytes());
        put(&mut range, 8, &slba.to_le_bytes());
        range
    }

    #[test]
    fn plans() {
        let mut entry = SubmissionEntry::new(DATASET_MANAGEMENT, 0, 1);
        let plan = |entry: &SubmissionEntry, ranges: &[[u8; RANGE]]| {
            let bytes = ranges.concat();
            match plan_of(entry, Data::ToController(&bytes), 65_536) {
                Plan::Zero(bytes) => Ok(ranges_of(bytes).count()),
                Plan::Nothing(status) => Err(status),
            }
        };
        assert_eq!(plan(&entry, &[range(0, 8)]), Err(SUCCESS));
        entry = entry.with(0, DEALLOCATE);
        assert_eq!(plan(&entry, &[range(0, 65_536)]), Ok(1));
        assert_eq!(plan(&entry, &[]), Err(DATA_TRANSFER));
        assert_eq!(plan(&entry, &[range(7, 0)]), Err(SUCCESS));
        assert_eq!(plan(&entry, &[range(65_536, 1)]), Err(OUT_OF_RANGE));
        assert_eq!(plan(&entry, &[range(u64::MAX, u32::MAX)]), Err(OUT_OF_RANGE));
        entry = entry.with(2, DEALLOCATE);
        assert_eq!(plan(&entry, &[range(0, 8), range(8, 0), range(16, 8), range(9, 9)]), Ok(2));
        assert_eq!(plan(&entry, &[range(0, 65_536), range(8, 0), range(16, 1)]), Err(SIZE_LIMIT));
        assert_eq!(plan(&entry, &[range(0, 8), range(8, 8), range(65_535, 2)]), Err(OUT_OF_RANGE));
        assert_eq!(plan(&entry, &[range(0, 8), range(8, 8)]), Err(DATA_TRANSFER));
    }
}
