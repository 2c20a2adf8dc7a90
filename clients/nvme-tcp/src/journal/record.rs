//! The records of a journal, as bytes: commands that changed what lasts, power cycles, starts of targets, and
//! checkpoints. In a state folder those that are synced together are one [`batch`].
//!
//! Each start raises the epoch, and each record has that of the target that wrote it. So a record that a target appends
//! when another has taken its folder over is known by its older epoch.

use crate::bytes::{first, put, u16_at, u32_at, u64_at};
use crate::digest::crc32c;
use crate::journal::batch;
use crate::journal::checkpoint::Checkpoint;
use crate::numbers::{index, narrow};
use crate::nvme::entry::SubmissionEntry;
use crate::nvme::ENTRY;
use nvmesim::buffers::MOST_DATA;
use std::io::{self, ErrorKind};

/// What a journal begins with, before the version that it was begun in. The second version has no batches, and records
/// of the first have no epoch: theirs is 0. A target appends what it writes to a journal of any version.
const MAGIC: &[u8] = b"nvmetcp journal ";
const VERSION: u32 = 3;
/// A record has its length, a digest of that, a digest of its content, and its content.
pub(super) const HEAD: usize = 12;
/// A content has its kind and its epoch. A command then has its controller, its queue, its entry and its data.
const COMMAND: u8 = 3;
const CYCLE: u8 = 4;
const START: u8 = 5;
const CHECKPOINT: u8 = 6;
/// Kinds of the first version.
const FIRST_COMMAND: u8 = 1;
const FIRST_CYCLE: u8 = 2;
const BEFORE_FIELDS: usize = 9;
const BEFORE_DATA: usize = 4 + ENTRY;
/// The longest content of a record that is no batch.
pub(super) const MOST_CONTENT: usize = BEFORE_FIELDS + BEFORE_DATA + MOST_DATA;

/// What has happened.
#[derive(Clone, Debug, PartialEq, Eq)]
pub enum Event {
    /// A command of a controller's queue has succeeded, with its data.
    Command { cntlid: u16, qid: u16, entry: SubmissionEntry, data: Vec<u8> },
    /// Power was lost.
    Cycle,
    /// A target has started, so power was lost.
    Start,
    /// What persists of all that happened before.
    Checkpoint(Checkpoint),
}

/// An event, and the epoch of the target in which it happened.
#[derive(Clone, Debug, PartialEq, Eq)]
pub struct Record {
    pub epoch: u64,
    pub event: Event,
}

impl Record {
    pub(super) fn of(content: &[u8]) -> Option<Record> {
        let (epoch, fields) = match *content.first()? {
            FIRST_COMMAND | FIRST_CYCLE => (0, &content[1..]),
            _ if content.len() >= BEFORE_FIELDS => (u64_at(content, 1), &content[BEFORE_FIELDS..]),
            _ => return None,
        };
        let event = match content[0] {
            COMMAND | FIRST_COMMAND if fields.len() >= BEFORE_DATA => {
                let entry = SubmissionEntry::from(*first(&fields[4..BEFORE_DATA]));
                let data = fields[BEFORE_DATA..].to_vec();
                Event::Command { cntlid: u16_at(fields, 0), qid: u16_at(fields, 2), entry, data }
            }
            CYCLE | FIRST_CYCLE if fields.is_empty() => Event::Cycle,
            START if fields.is_empty() => Event::Start,
            CHECKPOINT => Event::Checkpoint(Checkpoint::of(fields)?),
            _ => return None,
        };
        Some(Record { epoch, event })
    }

    /// Its bytes in a journal.
    pub fn bytes(&self) -> Vec<u8> {
        let mut bytes = Vec::new();
        self.append_to(&mut bytes);
        bytes
    }

    /// Appends its bytes in a journal.
    pub fn append_to(&self, bytes: &mut Vec<u8>) {
        let epoch = &self.epoch.to_le_bytes();
        match &self.event {
            Event::Command { cntlid, qid, entry, data } => {
                let place = [cntlid.to_le_bytes(), qid.to_le_bytes()].concat();
                push(bytes, &[&[COMMAND], epoch, &place, entry.bytes(), data]);
            }
            Event::Cycle => push(bytes, &[&[CYCLE], epoch]),
            Event::Start => push(bytes, &[&[START], epoch]),
            Event::Checkpoint(it) => push(bytes, &[&[CHECKPOINT], epoch, &it.bytes()]),
        }
    }
}

/// Appends a content, which is given in parts, with its length and digests.
pub(super) fn push(bytes: &mut Vec<u8>, parts: &[&[u8]]) {
    let at = bytes.len();
    bytes.extend([0; HEAD]);
    parts.iter().for_each(|it| bytes.extend_from_slice(it));
    let length = narrow::<_, u32>(bytes.len() - at - HEAD).to_le_bytes();
    let digests = [crc32c(&length), crc32c(&bytes[at + HEAD..])].map(u32::to_le_bytes);
    [length, digests[0], digests[1]].iter().enumerate().for_each(|(number, it)| put(bytes, at + 4 * number, it));
}

/// What the journal of a configuration begins with, in this version and in those before.
pub fn heads(configuration: &str) -> Vec<Vec<u8>> {
    let begin = |version: u32| [MAGIC, format!("{version}\n").as_bytes(), &framed(configuration.as_bytes())].concat();
    (1..=VERSION).rev().map(begin).collect()
}

/// The version of a journal, if it is newer than this one.
pub fn newer_version(bytes: &[u8]) -> Option<u32> {
    let line = bytes.strip_prefix(MAGIC)?.split(|it| *it == b'\n').next()?;
    let version = std::str::from_utf8(line).ok()?.parse().ok()?;
    (version > VERSION).then_some(version)
}

fn framed(content: &[u8]) -> Vec<u8> {
    let mut bytes = Vec::new();
    push(&mut bytes, &[content]);
    bytes
}

/// The records from a place on, and the end of the last.
///
/// What follows that is the part of a batch that was never synced, and is left out. For a batch is only written once
/// those before it are synced, and what it records is only answered once it is synced itself. So if a whole batch
/// follows, what is damaged was synced and may have been answered: that is an error. A record within a batch is never
/// taken for one that follows, since it has no digests of its own.
pub fn records_of(bytes: &[u8], begin: usize) -> io::Result<(Vec<Record>, usize)> {
    let (mut records, mut at) = (Vec::new(), begin);
    while let Some(content) = content_at(bytes, at) {
        let wrong = || io::Error::new(ErrorKind::InvalidData, format!("the bytes at {at} are no record"));
        records.extend(batch::records_in(content).ok_or_else(wrong)?);
        at += HEAD + content.len();
    }
    let rest = bytes.len() - at;
    if rest > batch::MOST || (at + 1..bytes.len()).any(|place| content_at(bytes, place).is_some()) {
        let text = format!("the record at byte {at} is damaged, and others follow it");
        return Err(io::Error::new(ErrorKind::InvalidData, text));
    }
    Ok((records, at))
}

/// The content of the record at a place, if one is there whole.
pub(super) fn content_at(bytes: &[u8], at: usize) -> Option<&[u8]> {
    let head = bytes.get(at..at + HEAD)?;
    let length = index(u32_at(head, 0));
    if length == 0 || crc32c(&head[..4]) != u32_at(head, 4) {
        return None;
    }
    let content = bytes.get(at + HEAD..at + HEAD + length)?;
    if crc32c(content) == u32_at(head, 8) {
        Some(content)
    } else {
        None
    }
}

/// The newest epoch of records. The error is the number of a record whose epoch no target has started.
pub fn newest(records: &[Record]) -> Result<u64, usize> {
    let mut newest = 0;
    for (number, record) in records.iter().enumerate() {
        if record.epoch > newest && !matches!(record.event, Event::Start | Event::Checkpoint(_)) {
            return Err(number);
        }
        newest = record.epoch.max(newest);
    }
    Ok(newest)
}

/// The events of records that count, in their order.
#[derive(Debug, Default, PartialEq, Eq)]
pub struct Current {
    pub events: Vec<Event>,
    /// How many records are left out, since they are of an older epoch than one before them.
    pub stale: usize,
}

/// Takes the events of the records that count.
pub fn current(records: Vec<Record>) -> Current {
    let (mut current, mut newest) = (Current::default(), 0);
    for Record { epoch, event } in records {
        if epoch < newest {
            current.stale += 1;
        } else {
            newest = epoch;
            current.events.push(event);
        }
    }
    current
}

#[cfg(test)]
mod tests {
    use super::*;

    fn command(epoch: u64, cntlid: u16) -> Record {
        Record { epoch, event: Event::Command { cntlid, qid: 1, entry: [7; ENTRY].into(), data: vec![9; 16] } }
    }

    fn journal(count: u16) -> Vec<u8> {
        (0..count).flat_map(|cntlid| command(1, cntlid).bytes()).collect()
    }

    #[test]
    fn records_are_read() {
        let others = [Event::Cycle, Event::Start, Event::Checkpoint(Checkpoint::default())]
            .map(|event| Record { epoch: u64::MAX - 1, event });
        let records = [&[command(1, 2), command(1 << 40, 0xffef)][..], &others].concat();
        let bytes: Vec<u8> = records.iter().flat_map(Record::bytes).collect();
        assert_eq!(records_of(&bytes, 0).unwrap(), (records, bytes.len()));
        for wrong in [&[COMMAND][..], &[CYCLE, 0, 0, 0, 0, 0, 0, 0], &[START; 10], &[7; 9], &[6; 10], &[0; 9]] {
            assert!(records_of(&framed(wrong), 0).is_err(), "{wrong:?}");
        }
    }

    #[test]
    fn records_of_the_first_version_are_read() {
        let content = [&[FIRST_COMMAND, 3, 0, 1, 0][..], &[7; ENTRY], &[9; 16]].concat();
        let bytes = [framed(&content), framed(&[FIRST_CYCLE])].concat();
        let records = vec![command(0, 3), Record { epoch: 0, event: Event::Cycle }];
        assert_eq!(records_of(&bytes, 0).unwrap(), (records, bytes.len()));
    }

    #[test]
    fn journals_begin_with_their_version() {
        let heads = heads("x");
        assert_eq!(heads.len(), 3);
        for (head, version) in heads.iter().zip([3, 2, 1]) {
            assert!(head.starts_with(format!("nvmetcp journal {version}\n").as_bytes()));
            assert_eq!((&head[18..], newer_version(head)), (&framed(b"x")[..], None));
        }
        for (begin, version) in [("nvmetcp journal 4\n", Some(4)), ("nvmetcp journal 12", Some(12)), ("nvmetcp", None)]
        {
            assert_eq!(newer_version(begin.as_bytes()), version);
        }
    }

    #[test]
    fn older_epochs_are_left_out() {
        let start = |epoch| Record { epoch, event: Event::Start };
        let records = vec![command(0, 1), start(1), command(1, 2), start(2), command(1, 3), start(1), command(2, 4)];
        let wanted = [0, 1, 2, 3, 6].map(|it: usize| records[it].event.clone());
        assert_eq!(newest(&records), Ok(2));
        assert_eq!(current(records), Current { events: wanted.to_vec(), stale: 2 });
        assert_eq!(newest(&[start(1), command(2, 1)]), Err(1));
    }

    #[test]
    fn a_journal_that_is_cut_has_the_records_before_the_cut() {
        let bytes = journal(3);
        let size = bytes.len() / 3;
        for cut in 0..=bytes.len() {
            let (records, end) = records_of(&bytes[..cut], 0).unwrap();
            assert_eq!((records.len(), end), (cut / size, cut / size * size));
        }
    }

    #[test]
    fn a_journal_that_is_damaged_is_refused() {
        let bytes = journal(3);
        let size = bytes.len() / 3;
        for at in 0..bytes.len() {
            let mut damaged = bytes.clone();
            damaged[at] ^= 1;
            let read = records_of(&damaged, 0);
            if at < 2 * size {
                assert!(read.is_err(), "byte {at}");
            } else {
                assert_eq!(read.unwrap().1, 2 * size);
            }
        }
    }
}
