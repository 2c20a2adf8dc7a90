//! The frames of a cache that is smaller than the disk.

use super::*;

#[test]
fn a_cache_is_smaller_than_the_disk() {
    let blocks = 4 * CACHED;
    let mut it = Trial::new(Fake::new(blocks), false);
    for first in (0..blocks - 3).step_by(3) {
        while !it.storage.cache.has_room() {
            it.turn();
        }
        it.write(first, 3, first as u8 | 1);
    }
    it.settle();
    for first in (0..blocks - 3).step_by(3) {
        assert_eq!(it.read(first, 3), vec![first as u8 | 1; 3 * SIZE]);
    }
    assert_eq!(it.answered.len() as u64, (blocks - 3 + 2) / 3);
    assert!(it.answered.iter().all(|(_, status)| *status == SUCCESS));
    assert!(it.storage.cache.has_room());
}

#[test]
fn writes_that_wait_leave_frames_to_reads() {
    let blocks = 4 * CACHED;
    let mut it = Trial::new(Fake::new(blocks), false);
    it.disk.close(true);
    let frame = u64::from(frames::FRAME);
    let writes = (0..blocks / frame).take_while(|nth| {
        let (id, need) = (it.id(), Need::Write { first: nth * frame, blocks: 1 });
        let has_frames = it.storage.prepare(need, id);
        if has_frames {
            it.write(nth * frame, 1, 7);
            it.begin();
        }
        has_frames
    });
    assert!((2..CACHED / frame).contains(&(writes.count() as u64)), "the cache holds not all of them");
    let starved = it.storage.starved.len();
    let (id, need) = (it.id(), Need::Read { first: blocks - frame, blocks: 1 });
    assert!(!it.storage.prepare(need, id));
    assert_eq!(
        (it.storage.starved.len(), it.storage.asked.contains_key(&id)),
        (starved, true),
        "it waits for the disk alone"
    );
    it.disk.close(false);
    it.settle();
    assert!(it.storage.prepare(need, id));
    it.bring(id, need);
}
