//! A batch: the records of a state folder that are synced together, as one record with one digest. A power loss before
//! the sync leaves any of its sectors. Then the digest is wrong, and none of its records counts: none was answered.
//!
//! The records of a volume's batches are within pages instead, which have a digest too.

use super::record::{content_at, push, Record, HEAD, MOST_CONTENT};
use crate::bytes::u32_at;
use crate::numbers::{index, narrow};

/// The kind of a record that is a batch. It then has the contents of its records, each after its length.
const BATCH: u8 = 7;
const LENGTH: usize = 4;
/// The longest batch. It has at least one record.
pub const MOST: usize = HEAD + 1 + LENGTH + MOST_CONTENT;

/// Batches of records in their order. Sync each before the next is written.
pub fn batches(records: &[u8]) -> Vec<Vec<u8>> {
    let (mut batches, mut at) = (Vec::new(), 0);
    loop {
        let mut batch = vec![BATCH];
        let has_room = |length: usize, content: &[u8]| length == 1 || HEAD + length + LENGTH + content.len() <= MOST;
        while let Some(content) = content_at(records, at).filter(|it| has_room(batch.len(), it)) {
            batch.extend(narrow::<_, u32>(content.len()).to_le_bytes());
            batch.extend(content);
            at += HEAD + content.len();
        }
        batches.push(framed(&batch));
        if content_at(records, at).is_none() {
            return batches;
        }
    }
}

fn framed(content: &[u8]) -> Vec<u8> {
    let mut bytes = Vec::with_capacity(HEAD + content.len());
    push(&mut bytes, &[content]);
    bytes
}

/// The records of a content: those of a batch, or one alone.
pub fn records_in(content: &[u8]) -> Option<Vec<Record>> {
    let mut rest = match content.strip_prefix(&[BATCH]) {
        Some(rest) => rest,
        None => return Some(vec![Record::of(content)?]),
    };
    let mut records = Vec::new();
    while !rest.is_empty() {
        let (record, length) = first_of(rest)?;
        records.push(record);
        rest = &rest[length..];
    }
    Some(records)
}

/// The first record of these bytes, and how many of them it has.
fn first_of(bytes: &[u8]) -> Option<(Record, usize)> {
    let end = LENGTH.checked_add(index(u32_at(bytes.get(..LENGTH)?, 0)))?;
    Some((Record::of(bytes.get(LENGTH..end)?)?, end))
}

#[cfg(test)]
mod tests {
    use super::super::record::{records_of, Event};
    use super::*;

    /// What a power loss leaves of each of these is old or new.
    const SECTOR: usize = 512;

    fn command(cntlid: u16, length: usize) -> Record {
        let event = Event::Command { cntlid, qid: 1, entry: [7; 64].into(), data: vec![9; length] };
        Record { epoch: 3, event }
    }

    fn bytes_of(records: &[Record]) -> Vec<u8> {
        records.iter().flat_map(Record::bytes).collect()
    }

    fn batch(records: &[Record]) -> Vec<u8> {
        batches(&bytes_of(records)).concat()
    }

    /// Records that are synced: loose ones, as older versions have them, and batches.
    fn synced() -> (Vec<Record>, Vec<u8>) {
        let start = Record { epoch: 3, event: Event::Start };
        let records = [command(1, 16), start, command(2, 16), command(3, 700), command(4, 16)];
        let bytes = [bytes_of(&records[..2]), batch(&records[2..4]), batch(&records[4..])].concat();
        (records.to_vec(), bytes)
    }

    #[test]
    fn batches_are_read() {
        let (records, bytes) = synced();
        assert_eq!(records_of(&bytes, 0).unwrap(), (records, bytes.len()));
        let cycle = [9, 0, 0, 0, 4, 0, 0, 0, 0, 0, 0, 0, 0];
        for (wrong, is_read) in [
            (&[&[BATCH][..], &cycle].concat()[..], true),
            (&[BATCH], true),
            (&[&[BATCH][..], &cycle, &[1]].concat(), false),
            (&[&[BATCH][..], &cycle[..12]].concat(), false),
            (&[BATCH, 0, 0, 0, 0], false),
            (&[BATCH, 255, 255, 255, 255, 4], false),
            (&[BATCH, 1, 0, 0, 0, BATCH], false),
        ] {
            assert_eq!(records_of(&framed(wrong), 0).is_ok(), is_read, "{wrong:?}");
        }
    }

    #[test]
    fn long_batches_are_parted() {
        let records: Vec<_> = (1..40).map(|it| command(it, usize::from(it) * 1000)).collect();
        let parts = batches(&bytes_of(&records));
        assert!(parts.len() > 1 && parts.iter().all(|it| it.len() <= MOST));
        assert_eq!(records_of(&parts.concat(), 0).unwrap().0, records);
        let longest = command(1, MOST_CONTENT - bytes_of(&[command(1, 0)]).len() + HEAD);
        let parts = batches(&bytes_of(&[longest.clone(), longest]));
        assert_eq!(parts.iter().map(Vec::len).collect::<Vec<_>>(), [MOST, MOST]);
    }

    /// The file grows up to the last sector that was written, or to the end of the batch.
    #[test]
    fn any_sectors_of_the_last_batch_may_be_left() {
        let (records, before) = synced();
        let last: Vec<_> = (5..33).map(|it| command(it, 16)).collect();
        let whole = [before.clone(), batch(&last)].concat();
        let (first, end) = (before.len() / SECTOR, (whole.len() + SECTOR - 1) / SECTOR);
        assert_eq!(end - first, 6);
        for kept in 0..1 << (end - first) {
            let mut left = before.clone();
            for at in (first..end).filter(|it| kept >> (it - first) & 1 == 1).map(|it| it * SECTOR) {
                let until = whole.len().min(at + SECTOR);
                left.resize(left.len().max(until), 0);
                left[at..until].copy_from_slice(&whole[at..until]);
            }
            for length in [left.len(), whole.len()] {
                left.resize(length, 0);
                let read = records_of(&left, 0).unwrap();
                if left == whole {
                    assert_eq!(read, ([&records[..], &last].concat(), whole.len()));
                } else {
                    assert_eq!(read, (records.clone(), before.len()), "{kept:b}");
                }
            }
        }
    }

    /// Each record of the last batch is there or zeros.
    #[test]
    fn any_records_of_the_last_batch_may_be_left() {
        let (records, before) = synced();
        let last: Vec<_> = (5..10).map(|it| command(it, 16)).collect();
        let (whole, size) = ([before.clone(), batch(&last)].concat(), bytes_of(&last[..1]).len() - HEAD + LENGTH);
        assert_eq!(whole.len(), before.len() + HEAD + 1 + 5 * size);
        for kept in 0..(1 << 5) - 1 {
            let mut left = whole.clone();
            for at in (0..5).filter(|it| kept >> it & 1 == 0).map(|it| before.len() + HEAD + 1 + it * size) {
                left[at..at + size].fill(0);
            }
            assert_eq!(records_of(&left, 0).unwrap(), (records.clone(), before.len()), "{kept:b}");
        }
    }

    #[test]
    fn what_was_synced_is_not_dropped() {
        let (records, bytes) = synced();
        let last = batch(&records[4..]).len();
        for at in 0..bytes.len() {
            let mut damaged = bytes.clone();
            damaged[at] ^= 1;
            match records_of(&damaged, 0) {
                Ok(read) => assert_eq!((read.1, at >= bytes.len() - last), (bytes.len() - last, true)),
                Err(error) => assert!(at < bytes.len() - last && error.to_string().ends_with("others follow it")),
            }
        }
        // More than a batch.
        assert!(records_of(&[&bytes[..], &[0; MOST]].concat(), 0).is_ok());
        assert!(records_of(&[&bytes[..], &[0; MOST + 1]].concat(), 0).is_err());
    }

    /// A target that finds a torn batch cuts it, and appends its start. A power loss may leave the bytes of the start,
    /// and of the batch what follows them.
    #[test]
    fn what_is_left_of_a_torn_batch_is_no_part() {
        let (records, before) = synced();
        let torn = [&before[..], &batch(&vec![command(5, 300); 9])[..2000]].concat();
        let start = Record { epoch: 4, event: Event::Start };
        let mut left = torn;
        let bytes = start.bytes();
        left[before.len()..before.len() + bytes.len()].copy_from_slice(&bytes);
        let read = records_of(&left, 0).unwrap();
        assert_eq!(read, ([&records[..], &[start]].concat(), before.len() + bytes.len()));
    }
}
