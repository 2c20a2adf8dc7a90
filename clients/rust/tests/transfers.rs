//! Tests of which data that a host sends are whose.

use nvmesim::pdu::Fatal;
use nvmesim::transfers::{Completed, Part, Refused, Request, Transfers, TAGS};

const RANGE: Result<Option<Completed>, Fatal> = Err(Fatal { status: 4, field: 0 });

/// The entry of a command with this identifier.
fn entry(cid: u8) -> [u8; 64] {
    let mut entry = [9; 64];
    (entry[2], entry[3]) = (cid, 0);
    entry
}

fn part(tag: u16, offset: u32, length: u32, is_last: bool) -> Part {
    Part { cid: 1, tag, offset, length, is_last, is_sound: true }
}

/// Command 1 was asked for 8 bytes.
fn asked() -> Transfers {
    let mut transfers = Transfers::new().unwrap();
    transfers.begin(&entry(1), 8).unwrap();
    assert_eq!(transfers.next_request(), Some(Request { cid: 1, tag: 0, length: 8 }));
    assert_eq!(transfers.next_request(), None);
    transfers
}

#[test]
fn data_come_in_their_order_and_no_further() {
    let mut transfers = Transfers::new().unwrap();
    transfers.begin(&entry(1), 8).unwrap();
    assert_eq!(transfers.take(&part(0, 0, 4, false)), RANGE);
    let (mut transfers, mut room) = (asked(), [0; 12]);
    for wrong in [
        part(0, 4, 4, false),
        part(0, 0, 9, true),
        part(0, 0, 4, true),
        part(0, 0, 8, false),
        part(0, 0, 0, false),
        part(1, 0, 4, false),
        part(9, 0, 4, false),
        part(u16::MAX, u32::MAX, 4, true),
        Part { cid: 2, ..part(0, 0, 4, false) },
    ] {
        assert_eq!(transfers.take(&wrong), RANGE);
        assert_eq!(transfers.store(&wrong, &[7; 9][..wrong.length as usize], &mut room), RANGE);
    }
    assert_eq!((transfers.store(&part(0, 0, 4, false), &[1; 3], &mut room), room), (RANGE, [0; 12]));
    assert_eq!(transfers.store(&part(0, 0, 4, false), &[1; 4], &mut room[..3]), RANGE);
    assert_eq!(transfers.store(&part(0, 0, 4, false), &[1; 4], &mut room), Ok(None));
    assert_eq!((transfers.count(), transfers.has(1), transfers.has(2)), (1, true, false));
    let completed = Completed { entry: entry(1), length: 8, is_sound: true };
    assert_eq!(transfers.store(&part(0, 4, 4, true), &[2; 4], &mut room), Ok(Some(completed)));
    assert_eq!(room, [1, 1, 1, 1, 2, 2, 2, 2, 0, 0, 0, 0]);
    assert_eq!((transfers.take(&part(0, 0, 8, true)), transfers.count()), (RANGE, 0));
}

#[test]
fn a_wrong_digest_is_remembered() {
    for wrong in [0, 4] {
        let mut transfers = asked();
        let of = |offset| Part { is_sound: offset != wrong, ..part(0, offset, 4, offset == 4) };
        assert_eq!(transfers.take(&of(0)), Ok(None));
        assert!(matches!(transfers.take(&of(4)), Ok(Some(Completed { is_sound: false, length: 8, .. }))));
    }
}

#[test]
fn tags_are_bounded_and_are_used_again() {
    let mut transfers = Transfers::new().unwrap();
    assert_eq!((transfers.count(), transfers.has(0)), (0, false));
    (0..20).for_each(|cid| transfers.begin(&entry(cid), 4).unwrap());
    assert_eq!((transfers.count(), transfers.has(0)), (20, true));
    let asked: Vec<Request> = std::iter::from_fn(|| transfers.next_request()).collect();
    assert_eq!(asked.len(), TAGS);
    assert!(asked.iter().zip(0..).all(|(it, at)| *it == Request { cid: at, tag: at, length: 4 }));
    let last = Part { cid: 3, ..part(3, 0, 4, true) };
    assert_eq!(transfers.take(&last), Ok(Some(Completed { entry: entry(3), length: 4, is_sound: true })));
    assert_eq!(transfers.next_request(), Some(Request { cid: 8, tag: 3, length: 4 }));
    assert_eq!((transfers.count(), transfers.has(3), transfers.has(8), transfers.has(19)), (19, false, true, true));
}

#[test]
fn refused_commands_change_nothing() {
    let mut transfers = asked();
    assert_eq!(transfers.begin(&entry(2), 0), Err(Refused::NoData));
    assert_eq!(transfers.begin(&entry(1), 4), Err(Refused::InFlight));
    (100..164).for_each(|cid| transfers.begin(&entry(cid), 4).unwrap());
    assert_eq!(transfers.begin(&entry(2), 4), Err(Refused::ManyWait));
    assert_eq!((transfers.count(), transfers.has(2)), (65, false));
    transfers.end();
    assert_eq!((transfers.count(), transfers.has(1), transfers.next_request()), (0, false, None));
    assert_eq!(transfers.begin(&entry(2), 4), Err(Refused::Ended));
    assert_eq!(
        (transfers.take(&part(0, 0, 8, true)), Refused::Ended.to_string()),
        (RANGE, "the connection has ended".into())
    );
}

#[test]
fn they_may_go_to_another_thread() {
    let mut transfers = asked();
    let count = std::thread::spawn(move || transfers.count()).join().unwrap();
    assert_eq!(count, 1);
}
