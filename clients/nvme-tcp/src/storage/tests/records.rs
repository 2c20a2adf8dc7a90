//! Writes that wait for records of the journal.

use super::*;

#[test]
fn writes_wait_for_the_records_before_them_alone() {
    let mut it = Trial::new(Fake::new(256), false);
    it.storage.wait_for_records(0, 0);
    let first = [it.write(7, 3, 1), it.zero(64, 32)];
    it.storage.wait_for_records(1, 0);
    it.settle();
    assert!(it.calls().is_empty() && it.answered.is_empty());
    // Records come all the time: the next one is never synced.
    for records in 2..5 {
        it.write(128, 1, records as u8);
        it.storage.wait_for_records(records, records - 1);
        it.settle();
    }
    let answered: Vec<u64> = it.answered.iter().map(|(id, _)| *id).collect();
    assert!(first.iter().all(|id| answered.contains(id)));
    assert_eq!((it.block(7), it.block(64), it.block(128)), (1, 0, 128), "a later record comes before the last writes");
    it.storage.sync().unwrap();
    assert_eq!(it.block(128), 4);
}
