//! Files in the right form with a content that no target writes: recordings and superblocks.

use crate::hosts::pdu::digest;
use crate::supervisor::Act;
use crate::tools::{complain, content, expect, put, FAILED, REFUSED};
use crate::world::disk::Kind;
use crate::world::with;
use std::path::Path;

/// The size of a superblock, and the place of its second copy.
const PAGE: usize = 4096;
const SECOND_COPY: usize = 64 << 10;
/// Places in a superblock: its digest, its epoch, and the text of the configuration.
const DIGEST_AT: usize = 20;
const EPOCH_AT: usize = 56;
const CONFIGURATION_AT: usize = 256;

/// A frame of a recording at a place, with this number of events.
fn frame(place: usize, events: u32, bytes: &[u8]) -> Vec<u8> {
    let mut head = (place as u64).to_le_bytes().to_vec();
    [bytes.len() as u32, events, digest(bytes)].iter().for_each(|it| head.extend(it.to_le_bytes()));
    head.extend(digest(&head).to_le_bytes());
    [&head[..], bytes].concat()
}

/// A recording with a frame of events after its beginning.
fn recording(events: u32, bytes: &[u8]) -> Vec<u8> {
    let mut file = b"nvmetcp recording 1\n".to_vec();
    file.extend(frame(20, 0, b"controller 1 host 0xa1\nnamespace 1 blocks 8 shared\nattached 1 1\nstart\n"));
    let place = file.len();
    file.extend(frame(place, events, bytes));
    file
}

/// Recordings with events of each kind, and with what is no event.
pub fn expand_events(act: Act) {
    let controller = [1, 0];
    let number = 7u64.to_le_bytes();
    let events = [
        &[2][..],
        &controller,
        &number,
        &[0; 4], // A register is written.
        &[3],
        &controller,
        &[1, 0], // A command is fetched, and none.
        &[4],
        &controller,
        &[1, 0],
        &[5],
        &controller,
        &number,
        &[0; 7], // One is executed, and two are not.
        &[6],
        &controller,
        &number,
        &[7],
        &controller,
        &number,
        &[8],
        &[1],
        &controller,
        &number,
        &4u64.to_le_bytes(),
        &[1, 2, 3, 4], // Bytes are stored, which come last.
    ];
    put("/run/events", Kind::File, &recording(8, &events.concat()));
    expect(act, &["expand", "/run/events", "/run/events.nvme"], 0);
    expect(act, &["expand", "/run/events", "/run/events.out", "--transcript"], 0);
    let (lines, gave) = (content("/run/events.nvme"), content("/run/events.out"));
    let count = |text: &[u8]| text.iter().filter(|it| **it == b'\n').count();
    if (count(&lines), count(&gave)) != (4 + 8, 8) {
        complain(format!("a recording of 8 events has {} lines, and gave {}", count(&lines), count(&gave)));
    }
    expect(act, &["expand", "/run/events"], 0);
    expect(act, &["expand", "/run/events", "/run/events", "--force"], FAILED);
    expand_broken(act, events.concat().len());
    let wrong: [(u32, &[u8]); 5] = [(1, &[9, 1, 0]), (1, &[1, 1, 0]), (2, &[8]), (1, &[8, 8]), (0, &[])];
    for (count, bytes) in wrong {
        put("/run/events", Kind::File, &recording(count, bytes));
        let status = if count == 0 { 0 } else { REFUSED };
        expect(act, &["expand", "/run/events", "/run/events.nvme", "--force"], status);
    }
    let mut headless = b"nvmetcp recording 1\n".to_vec();
    headless.extend(frame(20, 1, &[8]));
    put("/run/events", Kind::File, &headless);
    expect(act, &["expand", "/run/events", "/run/events.nvme", "--force"], REFUSED);
}

/// The recording, cut in its last frame, with the head of that and without; and damaged in the first frame.
fn expand_broken(act: Act, last: usize) {
    let whole = content("/run/events");
    let mut damaged = whole.clone();
    damaged[60] ^= 1;
    for bytes in [&whole[..whole.len() - 1], &whole[..whole.len() - last - 1], &damaged] {
        put("/run/broken", Kind::File, bytes);
        expect(act, &["expand", "/run/broken", "/run/events.nvme", "--force"], REFUSED);
    }
}

/// A volume whose superblocks were changed, with digests that are right.
fn changed(volume: &[u8], change: impl Fn(&mut [u8])) -> Vec<u8> {
    let mut bytes = volume.to_vec();
    for place in [0, SECOND_COPY] {
        let page = &mut bytes[place..place + PAGE];
        change(page);
        page[DIGEST_AT..DIGEST_AT + 4].fill(0);
        let sum = digest(page).to_le_bytes();
        page[DIGEST_AT..DIGEST_AT + 4].copy_from_slice(&sum);
    }
    bytes
}

/// Volumes of an epoch that no target has started, and with a configuration that is refused.
pub fn check_superblocks(act: Act, volume: &[u8]) {
    put("/crafted", Kind::File, &changed(volume, |page| page[CONFIGURATION_AT..CONFIGURATION_AT + 4].fill(b'x')));
    expect(act, &["check", "/crafted"], REFUSED);
    expect(act, &["--listen", "127.0.0.1:7777", "/crafted"], REFUSED);
    // A target has begun an epoch in the journal of the other.
    let served = content("/served");
    if !served.is_empty() {
        put("/crafted", Kind::File, &changed(&served, |page| page[EPOCH_AT..EPOCH_AT + 8].fill(0)));
        expect(act, &["check", "/crafted"], REFUSED);
    }
}

/// Folders where files of the state folder should be.
pub fn misplace(act: Act) {
    for (folder, file) in [("/fourth", "/fourth/in-use"), ("/fifth", "/fifth/journal")] {
        with(|it| {
            it.disks.create(Path::new(folder), Kind::Folder);
            it.disks.create(Path::new(file), Kind::Folder);
        });
        expect(act, &["--listen", "127.0.0.1:7777", "--state", folder, crate::supervisor::CONFIG], FAILED);
    }
}
