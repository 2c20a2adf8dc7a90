//! The journal of a volume, as bytes: four segments, which are used in turns. A segment begins with a checkpoint, in two
//! pages. Each batch of records after it begins at a page of its own, so that no write touches a page with records that
//! were answered.
//!
//! A batch has the number of its segment, which rises, and its own number in it. So what is left of an older use of the
//! pages is not taken for a part of the segment.

use super::refusal::Refusal;
use crate::bytes::{put, u32_at, u64_at};
use crate::digest::crc32c;
use crate::journal::record::{records_of, Record};
use crate::numbers::{index, narrow};
use crate::storage::aligned::{Aligned, PAGE};

pub const SEGMENTS: usize = 4;
pub const SEGMENT_PAGES: usize = 64;
pub const SEGMENT: usize = SEGMENT_PAGES * PAGE;
pub const BYTES: usize = SEGMENTS * SEGMENT;
/// The page of the first batch after the checkpoint.
pub const FIRST_PAGE: usize = 2;
/// A batch before its records: what it begins with, a digest of all of its pages, how many bytes of records it has, the
/// number of its segment, and its own number.
const MAGIC: &[u8; 8] = b"nvmetcpj";
const DIGEST_AT: usize = 8;
const LENGTH_AT: usize = 12;
const SEGMENT_AT: usize = 16;
const NUMBER_AT: usize = 24;
const HEAD: usize = 32;

/// How many pages a batch takes that has `length` bytes of records.
pub fn pages_of(length: usize) -> usize {
    (HEAD + length + PAGE - 1) / PAGE
}

/// The pages of a batch.
pub fn batch(segment: u64, number: u64, records: &[u8]) -> Aligned {
    let mut pages = Aligned::zeros(pages_of(records.len()) * PAGE);
    put(&mut pages, 0, MAGIC);
    put(&mut pages, LENGTH_AT, &narrow::<_, u32>(records.len()).to_le_bytes());
    put(&mut pages, SEGMENT_AT, &segment.to_le_bytes());
    put(&mut pages, NUMBER_AT, &number.to_le_bytes());
    put(&mut pages, HEAD, records);
    let digest = crc32c(&pages);
    put(&mut pages, DIGEST_AT, &digest.to_le_bytes());
    pages
}

/// The first pages of a segment: its checkpoint, twice.
pub fn checkpoint(segment: u64, record: &[u8]) -> Aligned {
    let page = batch(segment, 0, record);
    let mut pages = Aligned::zeros(FIRST_PAGE * PAGE);
    (0..FIRST_PAGE).for_each(|it| put(&mut pages, it * PAGE, &page[..PAGE]));
    pages
}

/// A batch that is whole.
struct Batch<'a> {
    segment: u64,
    number: u64,
    records: &'a [u8],
}

/// The batch that begins with these pages, if it is whole.
fn batch_of(pages: &[u8]) -> Option<Batch<'_>> {
    if !pages.starts_with(MAGIC) {
        return None;
    }
    let length = index(u32_at(pages, LENGTH_AT));
    let bytes = pages.get(..pages_of(length).checked_mul(PAGE)?)?;
    let digest = crc32c_without(bytes);
    (digest == u32_at(bytes, DIGEST_AT)).then(|| Batch {
        segment: u64_at(bytes, SEGMENT_AT),
        number: u64_at(bytes, NUMBER_AT),
        records: &bytes[HEAD..HEAD + length],
    })
}

/// All batches among these pages that are whole. The pages of one are not looked at again: they have what hosts sent.
fn batches_of(pages: &[u8]) -> Vec<Batch<'_>> {
    let (mut batches, mut page) = (Vec::new(), 0);
    while let Some(rest) = pages.get(page * PAGE..).filter(|it| !it.is_empty()) {
        let batch = batch_of(rest);
        page += batch.as_ref().map_or(1, |it| pages_of(it.records.len()));
        batches.extend(batch);
    }
    batches
}

/// The digest of a batch's pages, in which its own place is zeros.
fn crc32c_without(bytes: &[u8]) -> u32 {
    let mut without = bytes.to_vec();
    put(&mut without, DIGEST_AT, &[0; 4]);
    crc32c(&without)
}

/// What the journal of a volume has.
#[derive(Debug, PartialEq, Eq)]
pub struct Kept {
    /// The number of its newest segment, and the place of that among the segments.
    pub(super) segment: u64,
    pub(super) place: usize,
    /// Its checkpoint, and the records after it.
    pub(super) records: Vec<Record>,
    /// How many bytes at its end were a part of a batch, and are left out.
    pub(super) torn: usize,
}

/// The newest segment. An error if a part of it is damaged that was answered.
pub fn read(area: &[u8]) -> Result<Kept, Refusal> {
    let damaged = |text: String| Refusal::Journal(text);
    let heads = area.chunks_exact(SEGMENT).enumerate().filter_map(|(place, it)| Some((head_of(it)?, place)));
    let newest = heads.max_by_key(|(head, _)| head.segment);
    let (head, place) = newest.ok_or_else(|| damaged("no segment has a checkpoint".to_owned()))?;
    let newer = area.chunks_exact(SEGMENT).flat_map(batches_of).find(|it| it.segment > head.segment);
    if let Some(batch) = newer {
        return Err(damaged(format!("segment {} has no checkpoint", batch.segment)));
    }
    // Since a disk has written or read a page at a wrong place: which batches follow is not known.
    let mut others = area.chunks_exact(SEGMENT).enumerate().filter(|(at, _)| *at != place);
    if others.any(|(_, it)| batches_of(it).iter().any(|it| it.segment == head.segment)) {
        return Err(damaged(format!("segment {} is at two places", head.segment)));
    }
    let (mut bytes, pages) = (head.records.to_vec(), &area[place * SEGMENT..(place + 1) * SEGMENT]);
    let is_over_head = |it: Batch<'_>| it.segment == head.segment && it.number != 0;
    if (0..FIRST_PAGE).filter_map(|it| batch_of(&pages[it * PAGE..])).any(is_over_head) {
        return Err(damaged(format!("segment {} has a batch instead of its checkpoint", head.segment)));
    }
    let (mut page, mut number) = (FIRST_PAGE, 1);
    let next = |page: usize, number: u64| {
        let batch = batch_of(pages.get(page * PAGE..)?)?;
        (batch.segment == head.segment && batch.number == number).then_some(batch)
    };
    while let Some(batch) = next(page, number) {
        bytes.extend_from_slice(batch.records);
        page += pages_of(batch.records.len());
        number += 1;
    }
    let is_of_it = |it: &[u8]| it.starts_with(MAGIC) && u64_at(it, SEGMENT_AT) == head.segment;
    let rest = pages.get(page * PAGE..).unwrap_or_default();
    if batches_of(rest).iter().any(|it| it.segment == head.segment) {
        return Err(damaged(format!("batch {number} of segment {} is damaged, and others follow it", head.segment)));
    }
    let torn = if is_of_it(rest) { index(u32_at(rest, LENGTH_AT)).min(rest.len()) } else { 0 };
    let (records, end) = records_of(&bytes, 0).map_err(|error| damaged(error.to_string()))?;
    if end != bytes.len() {
        return Err(damaged(format!("segment {} has a part of a record", head.segment)));
    }
    Ok(Kept { segment: head.segment, place, records, torn })
}

/// The checkpoint of a segment: the newer of its two pages.
fn head_of(pages: &[u8]) -> Option<Batch<'_>> {
    let both = (0..FIRST_PAGE).filter_map(|it| batch_of(&pages[it * PAGE..(it + 1) * PAGE]));
    both.filter(|it| it.number == 0).max_by_key(|it| it.segment)
}

#[cfg(test)]
mod tests {
    use super::*;
    use crate::journal::checkpoint::Checkpoint;
    use crate::journal::record::Event;

    fn record(event: Event) -> Vec<u8> {
        Record { epoch: 5, event }.bytes()
    }

    fn head() -> Vec<u8> {
        record(Event::Checkpoint(Checkpoint::default()))
    }

    /// An area whose second segment is the newest, with batches of these numbers of records.
    fn area(batches: &[usize]) -> Vec<u8> {
        let mut area = vec![0; BYTES];
        put(&mut area, 0, &checkpoint(6, &head()));
        put(&mut area, FIRST_PAGE * PAGE, &batch(6, 1, &record(Event::Cycle)));
        put(&mut area, SEGMENT, &checkpoint(7, &head()));
        let mut at = SEGMENT + FIRST_PAGE * PAGE;
        for (number, count) in (1..).zip(batches) {
            let pages = batch(7, number, &record(Event::Cycle).repeat(*count));
            put(&mut area, at, &pages);
            at += pages.len();
        }
        area
    }

    #[test]
    fn the_newest_segment_is_read() {
        let kept = read(&area(&[1, 300, 2])).unwrap();
        assert_eq!((kept.segment, kept.place, kept.records.len(), kept.torn), (7, 1, 1 + 303, 0));
        assert_eq!(read(&area(&[])).unwrap().records.len(), 1);
        assert_eq!(read(&vec![0; BYTES]), Err(Refusal::Journal("no segment has a checkpoint".to_owned())));
    }

    #[test]
    fn a_torn_end_is_dropped() {
        let (before, whole) = (area(&[1]), area(&[1, 300]));
        let begin = SEGMENT + (FIRST_PAGE + 1) * PAGE;
        for cut in (0..3 * PAGE).step_by(512) {
            let mut torn = before.clone();
            torn[begin..begin + cut].copy_from_slice(&whole[begin..begin + cut]);
            let kept = read(&torn).unwrap();
            let is_whole = torn == whole;
            assert_eq!(kept.records.len(), if is_whole { 302 } else { 2 }, "{cut}");
            assert_eq!(kept.torn != 0, !is_whole && cut != 0, "{cut}");
        }
    }

    #[test]
    fn a_torn_checkpoint_leaves_the_segment_before() {
        let mut torn = area(&[1]);
        let pages = checkpoint(8, &head());
        for cut in (0..=pages.len()).step_by(512) {
            torn[2 * SEGMENT..2 * SEGMENT + cut].copy_from_slice(&pages[..cut]);
            let is_there = torn[2 * SEGMENT..2 * SEGMENT + PAGE] == pages[..PAGE];
            assert_eq!(read(&torn).unwrap().segment, if is_there { 8 } else { 7 }, "{cut}");
        }
    }

    #[test]
    fn what_was_answered_is_not_lost_silently() {
        let whole = area(&[1, 1, 1]);
        for (pages, wanted) in [
            (&[64][..], Ok(4)),
            (&[65], Ok(4)),
            (&[64, 65], Err(())),
            (&[66], Err(())),
            (&[67], Err(())),
            (&[68], Ok(3)),
            (&[0, 1, 2], Ok(4)),
        ] {
            let mut damaged = whole.clone();
            pages.iter().for_each(|it| damaged[it * PAGE + 40] ^= 1);
            assert_eq!(read(&damaged).map(|it| it.records.len()).map_err(|_| ()), wanted, "{pages:?}");
        }
    }

    /// A disk reads or writes a page at a wrong place. Of the last batch that is the same as a power loss before it was
    /// synced, if the page of another batch or nothing is there instead.
    #[test]
    fn a_page_at_a_wrong_place_is_noticed() {
        let whole = area(&[1, 300, 2]);
        let (records, last) = (read(&whole).unwrap().records, 64 + FIRST_PAGE + 1 + pages_of(300 * 21));
        assert!(whole[last * PAGE..].starts_with(MAGIC) && whole[(last + 1) * PAGE] == 0);
        let places = || (0..4).chain(64..last + 3).chain([128, 130, 192, 193, 194]);
        for (from, to) in places().flat_map(|from| places().map(move |to| (from, to))) {
            let mut wrong = whole.clone();
            wrong.copy_within(from * PAGE..(from + 1) * PAGE, to * PAGE);
            if let Ok(kept) = read(&wrong) {
                let count = records.len() - if to == last && kept.records.len() != records.len() { 2 } else { 0 };
                assert!(kept.records == records[..count], "{from} at {to}");
            }
        }
        // The checkpoint of the next segment, both pages.
        for to in [0, 64, 192] {
            let mut wrong = whole.clone();
            put(&mut wrong, to * PAGE, &checkpoint(8, &head()));
            put(&mut wrong, (128 + FIRST_PAGE) * PAGE, &batch(8, 1, &record(Event::Cycle)));
            assert!(read(&wrong).is_err(), "{to}");
        }
    }

    #[test]
    fn a_batch_that_was_written_elsewhere_is_noticed() {
        let (before, whole) = (area(&[1, 300]), area(&[1, 300, 2]));
        let last = 64 + FIRST_PAGE + 1 + pages_of(300 * 21);
        for to in (0..SEGMENTS * SEGMENT_PAGES).filter(|to| *to != last) {
            let mut wrong = before.clone();
            wrong[to * PAGE..(to + 1) * PAGE].copy_from_slice(&whole[last * PAGE..(last + 1) * PAGE]);
            assert!(read(&wrong).is_err(), "{to}");
        }
    }

    #[test]
    fn what_a_host_sent_is_no_batch() {
        let command = |data| record(Event::Command { cntlid: 1, qid: 0, entry: [0; 64].into(), data });
        let mut sent = vec![0; PAGE - HEAD - command(Vec::new()).len()];
        [6, 7, 8].iter().for_each(|segment| sent.extend_from_slice(&batch(*segment, 9, &[])));
        let pages = batch(7, 2, &command(sent));
        assert!(pages.len() == 4 * PAGE && pages[3 * PAGE..].starts_with(MAGIC));
        let mut used = area(&[1]);
        put(&mut used, SEGMENT + (FIRST_PAGE + 1) * PAGE, &pages);
        assert_eq!(read(&used).unwrap().records.len(), 3);
    }

    #[test]
    fn what_is_left_of_an_older_use_is_no_part() {
        let mut used = area(&[1]);
        put(&mut used, SEGMENT + (FIRST_PAGE + 1) * PAGE, &batch(3, 2, &record(Event::Cycle)));
        put(&mut used, SEGMENT + (FIRST_PAGE + 3) * PAGE, &batch(3, 4, &record(Event::Cycle)));
        let kept = read(&used).unwrap();
        assert_eq!((kept.records.len(), kept.torn), (2, 0));
    }
}
