//! Targets that are started besides those of the seed: with files that are damaged, or that another program changes
//! while they serve.

use crate::ending::has_ended;
use crate::hosts::checker::check;
use crate::journals::record;
use crate::meddling;
use crate::supervisor::{words, Act, CONFIG};
use crate::tools::{complain, content, expect, patch, put, run, FAILED, REFUSED};
use crate::world::disk::Kind;
use crate::world::{self, with, Outcome, World, MILLISECOND, SECOND};
use std::path::Path;

/// How long a target may take to serve, and to notice what has changed.
const LONGEST: u64 = 60 * SECOND;
pub const ADDRESS: &str = "127.0.0.1:7777";
/// The head of a record of the journal.
const HEAD: usize = 12;

/// A target that was started.
pub struct Started {
    process: usize,
    list: String,
}

impl Started {
    /// Starts a target on a machine.
    pub fn begin(act: Act, machine: usize, list: &[&str]) -> Started {
        let given = words(&[&["--listen", ADDRESS], list].concat());
        Started { process: world::start_process(machine, "other", move || act(given)), list: format!("{list:?}") }
    }

    /// Starts a target over memory, that waits for an address.
    pub fn begin_at(act: Act, address: &str) -> Started {
        let given = words(&["--listen", address, "--wait", CONFIG]);
        let process = world::start_process(0, "other", move || act(given));
        Started { process, list: address.to_owned() }
    }

    /// Waits until it serves or ends; whether it serves.
    pub fn serves(&self) -> bool {
        self.wait_for(|process| has_ended(process) || with(|it| it.processes[process].served.is_some()));
        !has_ended(self.process)
    }

    fn wait_for(&self, is_so: impl Fn(usize) -> bool) {
        let end = with(|it| it.now) + LONGEST;
        while !is_so(self.process) {
            if with(|it| it.now) > end {
                return complain(format!("a target neither serves nor ends: {}", self.list));
            }
            world::pause(5 * MILLISECOND);
        }
    }

    /// Waits until it ends: its exit status, and what it said.
    fn wait(self) -> (u8, String) {
        self.wait_for(has_ended);
        let (outcome, said): (Option<Outcome>, String) = with(|world| {
            let it = &world.processes[self.process];
            let ended = (it.outcome.clone(), it.said.clone());
            world.kill(self.process);
            let World { net, random, now, .. } = world;
            net.drop_all(self.process, *now, 0, random);
            ended
        });
        (outcome.map_or(0, |it| it.err().map_or(0, |it| it.0)), said)
    }

    /// Ends it in order.
    pub fn end(self) -> String {
        with(|it| it.processes[self.process].is_asked_to_end = true);
        let list = self.list.clone();
        let (status, said) = self.wait();
        if status != 0 {
            complain(format!("a target ends with status {status}: {list}, {said:.300}"));
        }
        said
    }

    /// It ends by itself with status 2, since something has changed.
    pub fn notices(self, what: &str) {
        let list = self.list.clone();
        let (status, said) = self.wait();
        if status != FAILED {
            complain(format!("a target ends with status {status} after {what}: {list}, {said:.300}"));
        }
    }
}

/// A target serves, and ends in order; what it said.
fn serve(act: Act, list: &[&str]) -> String {
    let it = Started::begin(act, 0, list);
    if !it.serves() {
        let (status, said) = it.wait();
        complain(format!("nvmetcp {list:?} does not serve: status {status}, {said:.300}"));
        return String::new();
    }
    it.end()
}

/// All of them.
pub fn use_all(act: Act, blocks: usize) {
    // The size of an image, in whole pages.
    let size = (512 * blocks + 4095) / 4096 * 4096;
    for step in [use_places, use_images, damage_state, change_files, change_volume, meddling::use_all] {
        if check(|it| it.violations.is_empty()) {
            step(act, size);
        }
    }
}

/// Sockets and outputs at places that there are not, or that others may use.
fn use_places(act: Act, _: usize) {
    serve(act, &["--control", "/made/control", CONFIG]);
    serve(act, &["--control", "here", CONFIG]);
    // A device that keeps nothing, and can't be synced.
    serve(act, &["--record", "/dev/urandom", CONFIG]);
    serve(act, &["--record", "/run/there", "--force", CONFIG]);
    serve(act, &["--script", "/run/there", "--force", CONFIG]);
    with(|it| {
        let inode = it.disks.create(Path::new("/shared"), Kind::Folder);
        it.disks.inodes[inode].is_open = true;
    });
    expect(act, &["--listen", ADDRESS, "--control", "/shared/control", CONFIG], FAILED);
}

/// Images that are made, can't be written, or have the wrong size.
fn use_images(act: Act, size: usize) {
    let (right, larger) = (size.to_string(), (size + 4096).to_string());
    serve(act, &["--image", "/made.image", "--size", &right, CONFIG]);
    expect(act, &["--listen", ADDRESS, "--image", "/made.image", "--size", &larger, CONFIG], FAILED);
    put("/odd", Kind::File, &vec![0; size + 512]);
    expect(act, &["--listen", ADDRESS, "--image", "/odd", "--direct", CONFIG], FAILED);
    put("/fixed", Kind::File, &vec![0; size]);
    with(|it| {
        let inode = it.disks.find(Path::new("/fixed")).unwrap_or(0);
        it.disks.inodes[inode].is_fixed = true;
    });
    if !serve(act, &["--image", "/fixed", CONFIG]).contains("read-only") {
        complain("an image that can't be written is not reported as read-only".to_owned());
    }
    put("/dev/plain", Kind::BlockDevice, &vec![0; size]);
    serve(act, &["--image", "/dev/plain", CONFIG]);
    put("/dev/mounted", Kind::BlockDevice, &vec![0; size]);
    with(|it| {
        let inode = it.disks.find(Path::new("/dev/mounted")).unwrap_or(0);
        it.disks.inodes[inode].is_mounted = true;
    });
    expect(act, &["--listen", ADDRESS, "--image", "/dev/mounted", CONFIG], FAILED);
    hide("/dev/plain", true);
    expect(act, &["--listen", ADDRESS, "/dev/plain"], FAILED);
    run(act, 0, &["format", "/dev/mounted", "--config", CONFIG]);
}

/// State folders whose journal is damaged, torn, of another configuration, or gone.
fn damage_state(act: Act, _: usize) {
    serve(act, &["--state", "/first", CONFIG]);
    serve(act, &["--state", "/first", CONFIG]);
    let (identity, journal) = (content("/first/identity"), content("/first/journal"));
    let begin = |bytes: &[u8]| {
        with(|it| it.disks.create(Path::new("/second"), Kind::Folder));
        put("/second/identity", Kind::File, &identity);
        put("/second/journal", Kind::File, bytes);
    };
    // Each with two starts at its end.
    let start = HEAD + 9;
    let middle = journal.len() - 2 * start + HEAD;
    let damaged = [&journal[..middle], &[0x77], &journal[middle + 1..]].concat();
    let other = [&journal[..20], &[0x77], &journal[21..]].concat();
    let newer = [b"nvmetcp journal 9\n", &journal[18..]].concat();
    let of_epoch = |kind: u8, epoch: u64| record(&[&[kind][..], &epoch.to_le_bytes()].concat());
    let unknown = [&journal[..], &of_epoch(0x77, 2)].concat();
    let early = [&journal[..], &of_epoch(4, 999)].concat();
    let short = [&journal[..], &record(&[4, 0, 0])].concat();
    // Of a controller that there is not.
    let failing =
        [&journal[..], &record(&[&[3u8][..], &2u64.to_le_bytes(), &[77, 0, 1, 0], &[0; 64]].concat())].concat();
    let unfinished = [&journal[..], &record(&[3, 2, 0, 0, 0, 0, 0, 0, 0, 1])].concat();
    for bytes in [&damaged, &other, &newer, &journal[..3].to_vec(), &unknown, &early, &short, &unfinished, &failing] {
        begin(bytes);
        expect(act, &["--listen", ADDRESS, "--state", "/second", CONFIG], FAILED);
    }
    begin(&journal[..journal.len() - 3]);
    if !serve(act, &["--state", "/second", CONFIG]).contains("incomplete records") {
        complain("a torn batch of the journal is not reported".to_owned());
    }
    // An old target appends a record of its epoch.
    begin(&[&journal[..], &of_epoch(4, 1)].concat());
    if !serve(act, &["--state", "/second", CONFIG]).contains("of an older epoch") {
        complain("a record of an older epoch is not reported".to_owned());
    }
    // The first version had no epochs.
    begin(&[&journal[..], &record(&[2])].concat());
    serve(act, &["--state", "/second", CONFIG]);
    with(|it| it.disks.remove(Path::new("/second/journal")));
    expect(act, &["--listen", ADDRESS, "--state", "/second", CONFIG], FAILED);
    // Targets of the first version had a socket instead of a file.
    begin(&journal);
    put("/second/in-use", Kind::Socket, b"");
    run(act, 0, &["--listen", ADDRESS, "--state", "/second", "--control", "/run/there", CONFIG]);
    begin(&journal);
    put("/second/identity", Kind::File, b"none\n");
    run(act, 0, &["--listen", ADDRESS, "--state", "/second", CONFIG, "--control", "/run/there"]);
}

/// Another program changes the files of a target that serves: it ends.
fn change_files(act: Act, size: usize) {
    put("/cut", Kind::File, &vec![0; size]);
    let it = Started::begin(act, 0, &["--image", "/cut", CONFIG]);
    if it.serves() {
        with(|it| {
            let inode = it.disks.find(Path::new("/cut")).unwrap_or(0);
            it.disks.inodes[inode].set_length(512);
        });
    }
    it.notices("its image was cut");
    let changes: [(&str, fn()); 6] = [
        ("its folder was closed", || hide("/third", true)),
        ("its journal was removed", || {
            with(|it| it.disks.remove(Path::new("/third/journal")));
        }),
        ("its journal was replaced", || put("/third/journal", Kind::File, b"x")),
        ("its journal was cut", || {
            with(|it| {
                let inode = it.disks.find(Path::new("/third/journal")).unwrap_or(0);
                it.disks.inodes[inode].set_length(5);
            });
        }),
        ("its journal was written", || patch("/third/journal", content("/third/journal").len(), b"garbage")),
        ("another has taken its folder over", || {
            let start = record(&[&[5u8][..], &99u64.to_le_bytes()].concat());
            patch("/third/journal", content("/third/journal").len(), &start);
        }),
    ];
    for (what, change) in changes {
        for file in ["/third/journal", "/third/identity", "/third/in-use"] {
            with(|it| it.disks.remove(Path::new(file)));
        }
        let it = Started::begin(act, 0, &["--state", "/third", CONFIG]);
        if it.serves() {
            change();
        }
        it.notices(what);
        hide("/third", false);
    }
}

/// Nobody can enter a folder, or everybody again.
fn hide(folder: &str, is_hidden: bool) {
    with(|it| {
        let inode = it.disks.find(Path::new(folder)).unwrap_or(0);
        it.disks.inodes[inode].is_hidden = is_hidden;
    });
}

/// A volume is formatted anew from another machine while a target serves it.
fn change_volume(act: Act, size: usize) {
    put("/dev/moved", Kind::BlockDevice, &vec![0; size + (4 << 20)]);
    expect(act, &["format", "/dev/moved", "--config", CONFIG, "--lease", "2"], 0);
    let it = Started::begin(act, 1, &["/dev/moved"]);
    if it.serves() {
        expect(act, &["copy", "/dev/moved", "/taken"], REFUSED);
        expect(act, &["format", "/dev/moved", "--config", CONFIG, "--force"], 0);
    }
    it.notices("its volume was formatted");
}
