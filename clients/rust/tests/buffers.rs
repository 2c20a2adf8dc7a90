//! Tests of data buffers.

use nvmesim::buffers::{
    completion_queue, is_filled, prp_list, submission_queue, DataBuffer, MOST_DATA, MOST_HELD, MOST_HELD_DATA,
};

const NOWHERE: u64 = 4 << 20;

/// The PRP entries of a Write of this many blocks, whose data have `length` bytes.
fn entries(blocks: u8, buffer: DataBuffer, length: usize) -> (u64, u64) {
    let mut write = [0; 64];
    (write[0], write[1], write[48]) = (1, 0x41, blocks - 1);
    buffer.place(&mut write, false, length);
    assert_eq!((write[0], write[1], write[48]), (1, 1, blocks - 1));
    let number = |at: usize| u64::from_le_bytes(write[at..at + 8].try_into().unwrap());
    (number(24), number(32))
}

#[test]
fn data_end_where_their_buffer_ends() {
    let at_once = DataBuffer::AT_ONCE;
    assert_eq!([0, 1, 4, 512].map(|it| at_once.start(it)), [NOWHERE, NOWHERE - 4, NOWHERE - 4, NOWHERE - 512]);
    assert_eq!((at_once.start(MOST_DATA), at_once.start(MOST_DATA + 1)), (NOWHERE - MOST_DATA as u64, NOWHERE));
    let lowest = (0..MOST_HELD).map(|n| DataBuffer::held(n).start(MOST_HELD_DATA));
    let wanted = (1..=16).map(|n| NOWHERE - (MOST_DATA + n * MOST_HELD_DATA) as u64);
    assert!(lowest.eq(wanted));
    assert_eq!([MOST_HELD, usize::MAX].map(|n| DataBuffer::held(n).start(1)), [NOWHERE; 2]);
    assert_eq!(DataBuffer::held(0).start(MOST_HELD_DATA + 1), NOWHERE);
}

#[test]
fn entries_are_those_of_the_bytes_that_move() {
    let (at_once, (list, pages)) = (DataBuffer::AT_ONCE, prp_list());
    assert_eq!(entries(8, at_once, 4096), (NOWHERE - 4096, NOWHERE));
    assert_eq!(entries(16, at_once, 8192), (NOWHERE - 8192, NOWHERE - 4096));
    assert_eq!(entries(17, at_once, 8704), (NOWHERE - 8704, list + 8 * 29));
    assert_eq!(pages[29 * 8..30 * 8], (NOWHERE - 8192).to_le_bytes());
    assert_eq!(entries(16, at_once, MOST_DATA), (NOWHERE - MOST_DATA as u64, NOWHERE - MOST_DATA as u64 + 4096));
    for (blocks, length) in [(1, 0), (1, 511), (9, 4096), (17, 8192), (24, 8192), (255, 65_536), (1, MOST_DATA + 1)] {
        assert_eq!(entries(blocks, at_once, length), (NOWHERE, NOWHERE), "{blocks} {length}");
    }
}

#[test]
fn queues_have_their_pages() {
    let pages = (0..=5).flat_map(|qid| [submission_queue(qid), completion_queue(qid)]);
    assert!(pages.eq((1..=12).map(|page| 4096 * page)));
    assert!(prp_list().0 > completion_queue(u16::MAX));
    let mut read = [0; 64];
    read[0] = 2;
    assert_eq!((is_filled(&read, false, 512), is_filled(&read, false, 1024)), (true, false));
    assert!(!is_filled(&read, true, 512));
}
