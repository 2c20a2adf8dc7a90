//! Volumes whose journal has pages in the right form with a content, or at a place, that no target writes.

use crate::hosts::pdu::digest;
use crate::supervisor::{Act, CONFIG};
use crate::tools::{complain, content, expect, patch, put, run, REFUSED};
use crate::world::disk::Kind;

const PAGE: usize = 4096;
/// The place of the journal in a volume, and the size of one of its four segments.
const JOURNAL: usize = 128 << 10;
const SEGMENT: usize = 64 * PAGE;
/// The page of the first batch of a segment.
const FIRST: usize = 2;
/// Kinds of records.
const COMMAND: u8 = 3;
const CYCLE: u8 = 4;
const CHECKPOINT: u8 = 6;
/// The number of the segment, greater than that of any other, and the epoch of its records.
const NUMBER: u64 = 1_000;
const EPOCH: u64 = 0;
/// The host of the first controller, and one that no controller has.
const HOST: u128 = 0xa1;
const UNKNOWN: u128 = 0xdead;

/// A record of the journal with a content.
pub fn record(content: &[u8]) -> Vec<u8> {
    let length = (content.len() as u32).to_le_bytes();
    [&length[..], &digest(&length).to_le_bytes(), &digest(content).to_le_bytes(), content].concat()
}

fn of_kind(kind: u8, rest: &[u8]) -> Vec<u8> {
    record(&[&[kind], &EPOCH.to_le_bytes()[..], rest].concat())
}

/// The pages of a batch.
fn batch(segment: u64, number: u64, records: &[u8]) -> Vec<u8> {
    let mut pages = b"nvmetcpj".to_vec();
    pages.extend([0; 4]);
    pages.extend((records.len() as u32).to_le_bytes());
    pages.extend([segment, number].map(u64::to_le_bytes).concat());
    pages.extend(records);
    pages.resize((pages.len() + PAGE - 1) / PAGE * PAGE, 0);
    let sum = digest(&pages).to_le_bytes();
    pages[8..12].copy_from_slice(&sum);
    pages
}

/// What a checkpoint says of a namespace.
#[derive(Clone, Debug)]
struct State {
    nsid: u32,
    protection: u8,
    rtype: u8,
    holder: u128,
    registrants: Vec<(u128, u64)>,
    attached: Vec<u16>,
}

impl State {
    fn good() -> State {
        let (registrants, attached) = (vec![(HOST, 7)], vec![1]);
        State { nsid: 1, protection: 0, rtype: 1, holder: HOST, registrants, attached }
    }

    /// Its bytes in a checkpoint.
    fn bytes(&self) -> Vec<u8> {
        let mut bytes = self.nsid.to_le_bytes().to_vec();
        bytes.extend([self.protection, 1, self.rtype]);
        bytes.extend(self.holder.to_le_bytes());
        bytes.extend((self.registrants.len() as u32 + 2).to_le_bytes());
        bytes.extend([self.registrants.len() as u16, self.attached.len() as u16].map(u16::to_le_bytes).concat());
        for (host, key) in &self.registrants {
            bytes.extend(host.to_le_bytes());
            bytes.extend(key.to_le_bytes());
        }
        bytes.extend(self.attached.iter().flat_map(|it| it.to_le_bytes()));
        bytes
    }
}

/// The page of a checkpoint.
fn checkpoint(state: &State) -> Vec<u8> {
    batch(NUMBER, 0, &of_kind(CHECKPOINT, &state.bytes()))
}

/// A volume whose newest segment, the second, has these pages after a checkpoint.
fn write(good: &[u8], state: &State, batches: &[Vec<u8>]) {
    put("/crafted", Kind::File, good);
    let page = checkpoint(state);
    let mut place = JOURNAL + SEGMENT;
    for it in [&page, &page].into_iter().chain(batches) {
        patch("/crafted", place, it);
        place += it.len();
    }
}

fn check_volume(act: Act, what: &str, status: u8) {
    let given = run(act, 0, &["check", "/crafted"]).and_then(|it| it.0.err()).map_or(0, |it| it.0);
    if given != status {
        complain(format!("a volume with {what} is checked with status {given}, not {status}"));
    }
}

/// Journals whose checkpoint can't be made, or whose records can't be executed, are refused.
pub fn check_contents(act: Act) {
    expect(act, &["format", "/journal", "--config", CONFIG], 0);
    let (volume, good) = (content("/journal"), State::good());
    write(&volume, &good, &[batch(NUMBER, 1, &of_kind(CYCLE, &[]))]);
    check_volume(act, "a power cycle", 0);
    write(&volume, &State { rtype: 5, holder: 0, ..good.clone() }, &[]);
    expect(act, &["dump", "/crafted"], 0);
    let wrong = [
        State { nsid: 7, ..good.clone() },
        State { nsid: 7, registrants: Vec::new(), rtype: 0, attached: Vec::new(), ..good.clone() },
        State { protection: 9, ..good.clone() },
        State { rtype: 9, ..good.clone() },
        State { holder: UNKNOWN, ..good.clone() },
        State { registrants: vec![(UNKNOWN, 7)], ..good.clone() },
        State { attached: vec![1, 77], ..good.clone() },
    ];
    for state in &wrong {
        write(&volume, state, &[]);
        check_volume(act, &format!("{state:?}"), REFUSED);
    }
    // A command of a controller that there is not, and a part of a record.
    let failing = of_kind(COMMAND, &[&[77, 0, 1, 0][..], &[0; 64]].concat());
    let cut = [of_kind(CYCLE, &[]), of_kind(CYCLE, &[])[..9].to_vec()].concat();
    for (what, records) in [("a command of no controller", failing), ("a part of a record", cut)] {
        write(&volume, &good, &[batch(NUMBER, 1, &records)]);
        check_volume(act, what, REFUSED);
    }
    check_places(act, &volume);
}

/// Pages that a disk has written to wrong places, or not at all: the journal is refused.
fn check_places(act: Act, volume: &[u8]) {
    let batches: Vec<Vec<u8>> = (1..4).map(|it| batch(NUMBER, it, &of_kind(CYCLE, &[]))).collect();
    let newest = JOURNAL + SEGMENT;
    // The last batch: over the checkpoint, after its place, and in another segment.
    for place in [newest, newest + 9 * PAGE, JOURNAL + 3 * SEGMENT] {
        write(volume, &State::good(), &batches[..2]);
        check_volume(act, "two batches", 0);
        patch("/crafted", place, &batches[2]);
        check_volume(act, &format!("its last batch at {place}"), REFUSED);
    }
    // A longer batch that power loss has torn.
    let longer = batch(NUMBER, 3, &of_kind(CYCLE, &[]).repeat(300));
    write(volume, &State::good(), &batches[..2]);
    patch("/crafted", newest + (FIRST + 2) * PAGE, &longer[..PAGE]);
    check_volume(act, "a torn batch", 0);
    // A batch that is damaged, with another after it.
    write(volume, &State::good(), &batches);
    patch("/crafted", newest + (FIRST + 1) * PAGE + 40, &[0xff]);
    check_volume(act, "a damaged batch", REFUSED);
    // A batch of a segment whose checkpoint is nowhere.
    write(volume, &State::good(), &batches);
    patch("/crafted", JOURNAL, &batch(NUMBER + 1, 1, &of_kind(CYCLE, &[])));
    check_volume(act, "no checkpoint", REFUSED);
}
