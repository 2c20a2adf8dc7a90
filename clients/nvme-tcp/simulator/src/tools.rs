//! Command lines of the target that serve nothing, or are refused: each ends with its exit status.

use crate::crafted;
use crate::ending::has_ended;
use crate::hosts::checker::check;
use crate::hosts::pdu::digest;
use crate::journals;
use crate::keyfiles;
use crate::starts::{self, Started};
use crate::supervisor::{words, Act, Supervisor, CONFIG, DEVICE, IMAGE};
use crate::world::disk::Kind;
use crate::world::{self, with, Chances, Outcome, World, MILLISECOND, SECOND};
use std::collections::BTreeSet;
use std::ffi::OsString;
use std::os::unix::ffi::OsStringExt;
use std::path::Path;

/// How long a command line may take.
const LONGEST: u64 = 60 * SECOND;
/// Exit statuses.
pub const REFUSED: u8 = 1;
pub const FAILED: u8 = 2;
const BAD: u8 = 3;
/// The size of a superblock, and the places of its copies and of the journal in a volume.
const PAGE: usize = 4096;
const SECOND_COPY: usize = 64 << 10;
const JOURNAL: usize = 128 << 10;
/// The places of version and digest in a superblock.
const VERSION_AT: usize = 16;
const DIGEST_AT: usize = 20;

pub fn complain(text: String) {
    check(|it| it.violate(text));
}

/// Runs a command line to its end, on a machine whose disks do not fail meanwhile: how it ended, and what it said.
pub fn run(act: Act, machine: usize, list: &[&str]) -> Option<(Outcome, String)> {
    run_words(act, machine, words(list))
}

fn run_words(act: Act, machine: usize, given: Vec<OsString>) -> Option<(Outcome, String)> {
    let (list, chances) = (given.clone(), with(|it| std::mem::take(&mut it.chances)));
    let process = world::start_process(machine, "tool", move || act(given));
    let end = with(|it| it.now) + LONGEST;
    while !has_ended(process) && with(|it| it.now) < end {
        world::pause(MILLISECOND);
    }
    with(|it| it.chances = chances);
    let ended = with(|it| {
        let it = &it.processes[process];
        it.outcome.clone().map(|outcome| (outcome, it.said.clone()))
    });
    if ended.is_none() && with(|it| it.processes[process].is_alive) {
        complain(format!("nvmetcp {list:?} does not end"));
    }
    with(|world| {
        world.kill(process);
        let World { net, random, now, .. } = world;
        net.drop_all(process, *now, 0, random);
    });
    ended
}

/// A command line ends with this status.
pub fn expect(act: Act, list: &[&str], status: u8) -> String {
    let (outcome, said) = match run(act, 0, list) {
        Some(ended) => ended,
        None => return String::new(),
    };
    let given = outcome.as_ref().err().map_or(0, |it| it.0);
    if given != status {
        complain(format!("nvmetcp {list:?} ends with status {given}, not {status}: {outcome:?}, {said:.300}"));
    }
    said
}

/// Makes the script and the transcript of a recording. `is_whole` says that its target has ended in order.
pub fn expand(act: Act, recording: &str, script: &str, is_whole: bool) {
    let transcript = format!("{script}.out");
    // A target that was killed may not have begun it.
    if with(|it| it.disks.find(Path::new(recording)).is_none()) {
        return;
    }
    for list in [&["expand", recording, script][..], &["expand", "--transcript", recording, &transcript]] {
        let outcome = run(act, 0, list).map(|it| it.0);
        let is_wrong = match &outcome {
            Some(Err((status, _))) => is_whole || *status != REFUSED,
            _ => false,
        };
        if is_wrong {
            complain(format!("nvmetcp {list:?}: {outcome:?}"));
        }
    }
}

/// Writes a file.
pub fn put(path: &str, kind: Kind, bytes: &[u8]) {
    with(|world| {
        let inode = world.disks.create(Path::new(path), kind);
        world.disks.inodes[inode].fill(bytes);
    });
}

pub fn content(path: &str) -> Vec<u8> {
    with(|it| it.disks.content(path))
}

/// Changes bytes of a file.
pub fn patch(path: &str, place: usize, bytes: &[u8]) {
    with(|world| {
        if let Some(inode) = world.disks.find(Path::new(path)) {
            world.disks.inodes[inode].write(place, bytes);
        }
    });
}

/// Everything that can be asked for when no target runs, and next to one that does.
pub fn use_all(supervisor: &mut Supervisor) {
    with(|it| {
        it.chances = Chances { yields: 10, ..Default::default() };
        it.disks.misdirection.next = None;
        it.disks.put_back();
    });
    let act = supervisor.act;
    put("/etc/wrong", Kind::File, b"controller 1 host x\n");
    put("/etc/uuid", Kind::File, b"controller 1 host a1000000-0000-0000-0000-000000000000\n");
    put("/etc/strange", Kind::File, b"controller 1 host 0xa1\nbogus 1\n");
    put("/etc/large", Kind::File, b"controller 1 host 0xa1\nnamespace 1 blocks 1000000 shared\nattached 1 1\n");
    let one = "controller 1 host 0xa1\nattached 1 1\n";
    put("/etc/vast", Kind::File, format!("{one}namespace 1 blocks {} shared\n", 1u64 << 34).as_bytes());
    put("/etc/endless", Kind::File, format!("{one}namespace 1 blocks {} shared\n", 1u64 << 55).as_bytes());
    with(|it| {
        for (name, kind) in [("/hidden", Kind::File), ("/closed", Kind::Folder), ("/buffered", Kind::File)] {
            let inode = it.disks.create(Path::new(name), kind);
            it.disks.inodes[inode].is_hidden = name != "/buffered";
            it.disks.inodes[inode].is_buffered = name == "/buffered";
        }
    });
    put("/some", Kind::File, &[7; PAGE]);
    use_options(act);
    use_outputs(act);
    use_volumes(act);
    damage_volumes(act);
    expand_wrong(act);
    crafted::expand_events(act);
    journals::check_contents(act);
    crafted::misplace(act);
    keyfiles::use_all(act);
    starts::use_all(act, supervisor.scenario.all_blocks());
    if check(|it| it.violations.is_empty()) {
        rivals(supervisor);
    }
}

/// Command lines with their exit statuses: those that are wrong, or print something and end.
const PRINTED: [(&[&str], u8); 43] = [
    (&["--help"], 0),
    (&["--version"], 0),
    (&["--where"], 0),
    (&["--check", CONFIG], 0),
    (&["--check", "/etc/wrong"], REFUSED),
    (&["--check", "/etc/uuid"], REFUSED),
    (&["--check", "/etc/strange"], REFUSED),
    (&["--check", "/etc/none"], FAILED),
    (&["--check"], BAD),
    (&[], BAD),
    (&["a", "b"], BAD),
    (&["--bogus", "1", CONFIG], BAD),
    (&["--listen"], BAD),
    (&["--listen", "x", CONFIG], BAD),
    (&["--advertise", "x", CONFIG], BAD),
    (&["--dhchap", "sha256,null", CONFIG], BAD),
    (&["--dhchap", "sha1,null", CONFIG], BAD),
    (&["--script", "/run/a", "--record", "/run/b", CONFIG], BAD),
    (&["--size", "4K", CONFIG], BAD),
    (&["--size", "5", "--image", "/i", CONFIG], BAD),
    (&["--size", "x", "--image", "/i", CONFIG], BAD),
    (&["--cache", "1K", "--image", "/i", CONFIG], BAD),
    (&["--cache", "4Q", "--image", "/i", CONFIG], BAD),
    (&["--direct", CONFIG], BAD),
    (&["--keys", "/etc/none", CONFIG], REFUSED),
    (&["--name", "x", CONFIG], BAD),
    (&["--log", "x", CONFIG], BAD),
    (&["--allow", "a1=1.2.3.4", CONFIG], BAD),
    (&["--allow", "zz000000-0000-0000-0000-000000000000=1.2.3.4", CONFIG], BAD),
    (&["--allow", "77000000-0000-0000-0000-000000000000=1.2.3.4", CONFIG], BAD),
    (&["--listen", "0.0.0.0:1", CONFIG], BAD),
    (&["--image", "/none", CONFIG], FAILED),
    (&["--image", "/etc", CONFIG], FAILED),
    (&["--check", "--image", "/some", CONFIG], REFUSED),
    (&["--check", "--image", "/none", CONFIG], FAILED),
    (&["--cache", "K", "--image", "/i", CONFIG], BAD),
    (&["--listen", "127.0.0.1:7777", "/etc/endless"], FAILED),
    (&["--listen", "127.0.0.1:7777", "--image", "/vast", "--size", "8T", "/etc/vast"], FAILED),
    (&["--listen", "127.0.0.1:7777", "--image", "/hidden", CONFIG], FAILED),
    (&["--script", "/closed/script", CONFIG], FAILED),
    (&["check", "/buffered"], FAILED),
    (&["--image", "/some", "/etc/large"], REFUSED),
    (&["--image", "/new", "--size", "4K", "/etc/large"], REFUSED),
];

/// Command lines that are wrong, or print something and end.
fn use_options(act: Act) {
    for (list, status) in PRINTED {
        expect(act, list, status);
    }
    let no_text = [OsString::from("--name"), OsString::from_vec(vec![0xff]), OsString::from(CONFIG)];
    let ended = run_words(act, 0, no_text.to_vec()).and_then(|it| it.0.err()).map_or(0, |it| it.0);
    if ended != BAD {
        complain(format!("a name that is no text ends with status {ended}"));
    }
}

/// Files that a target would write over.
fn use_outputs(act: Act) {
    put("/run/there", Kind::File, b"x");
    put("/run/halved.out", Kind::File, b"x");
    let lines: [(&[&str], u8); 7] = [
        (&["--script", CONFIG, CONFIG], FAILED),
        (&["--script", "/run/there", CONFIG], FAILED),
        (&["--record", "/run/there", CONFIG], FAILED),
        (&["--script", "/run/halved", CONFIG], FAILED),
        (&["--record", "/etc", CONFIG], FAILED),
        (&["--record", "/state/journal", "--state", "/state", CONFIG], FAILED),
        (&["--control", "/run/there", CONFIG], FAILED),
    ];
    for (list, status) in lines {
        expect(act, list, status);
    }
}

/// Those that make, look at and copy volumes.
const OF_VOLUMES: [(&[&str], u8); 25] = [
    (&["format"], BAD),
    (&["format", "/volume"], BAD),
    (&["format", "/volume", "--config", "/etc/none"], FAILED),
    (&["format", "/volume", "--config", "/etc/wrong"], REFUSED),
    (&["format", "/volume", "--config", CONFIG, "--lease", "0"], BAD),
    (&["format", "/volume", "--config", CONFIG, "--lease"], BAD),
    (&["format", "/volume", "--config", CONFIG, "--bogus"], BAD),
    (&["format", "/volume", "--config", CONFIG, "--size", "8K"], REFUSED),
    (&["format", "/volume", "--config", CONFIG, "--lease", "2"], 0),
    (&["format", "/volume", "--config", CONFIG], REFUSED),
    (&["format", "/volume", "--config", CONFIG, "--force", "--wait"], 0),
    (&["format", "/some", "--config", CONFIG], REFUSED),
    (&["format", "/some", "--config", CONFIG, "--force"], REFUSED),
    (&["format", "/etc", "--config", CONFIG], FAILED),
    (&["format", "/empty", "--config", CONFIG], 0),
    (&["check", "/volume"], 0),
    (&["check", "/none"], FAILED),
    (&["check", "/some"], REFUSED),
    (&["check"], BAD),
    (&["dump", "/volume"], 0),
    (&["copy", "/volume", "/copy"], 0),
    (&["copy", "/volume", "/copy"], REFUSED),
    (&["copy", "/volume", "/volume"], REFUSED),
    (&["copy", "/volume"], BAD),
    (&["--image", "/image", "/volume"], BAD),
];

/// Volumes are made, looked at and copied.
fn use_volumes(act: Act) {
    let empty = with(|it| it.disks.create(Path::new("/empty"), Kind::File));
    with(|it| it.disks.inodes[empty].set_length(32 << 20));
    for (list, status) in OF_VOLUMES {
        expect(act, list, status);
    }
    // Not empty.
    let size = content("/volume").len();
    put("/dev/dirty", Kind::BlockDevice, &vec![0; size]);
    patch("/dev/dirty", size / 2, &[7]);
    expect(act, &["format", "/dev/dirty", "--config", CONFIG], REFUSED);
    with_unreadable("/dev/dirty", 100, || {
        expect(act, &["format", "/dev/dirty", "--config", CONFIG], FAILED);
    });
    expect(act, &["copy", "/volume", "/dev/dirty", "--force"], 0);
    expect(act, &["check", "/dev/dirty"], 0);
    let dumped = expect(act, &["dump", "/copy"], 0);
    if dumped != expect(act, &["dump", "/volume"], 0) {
        complain(format!("a copy of a volume has another dump: {dumped}"));
    }
}

/// Does something while a sector of a file can't be read.
fn with_unreadable(path: &str, sector: usize, act: impl FnOnce()) {
    let served = with(|it| {
        let inode = it.disks.find(Path::new(path)).unwrap_or(0);
        it.disks.unreadable = BTreeSet::from([sector]);
        it.disks.served.replace((inode, 0))
    });
    act();
    with(|it| (it.disks.served, it.disks.unreadable) = (served, BTreeSet::new()));
}

/// Bytes at a place.
type Patch<'b> = (usize, &'b [u8]);

/// Volumes whose superblocks or journals are damaged in each way.
fn damage_volumes(act: Act) {
    let (good, size) = (content("/copy"), content("/copy").len());
    if size < JOURNAL {
        return;
    }
    let newer = {
        let mut page = good[..PAGE].to_vec();
        page[VERSION_AT] = 2;
        page[DIGEST_AT..DIGEST_AT + 4].fill(0);
        let sum = digest(&page).to_le_bytes();
        page[DIGEST_AT..DIGEST_AT + 4].copy_from_slice(&sum);
        page
    };
    let damages: [(&[Patch], u8); 8] = [
        (&[(100, b"x")], 0),
        (&[(100, b"x"), (SECOND_COPY + 100, b"x")], REFUSED),
        (&[(SECOND_COPY, &newer)], REFUSED),
        (&[(0, b"nvmetcp halfway\n")], REFUSED),
        (&[(0, &[0; 16]), (SECOND_COPY, &[0; 16])], REFUSED),
        (&[(JOURNAL, &[0xff; 64])], REFUSED),
        (&[(JOURNAL + PAGE, &[0xff; 64])], 0),
        (&[], 0),
    ];
    for (places, status) in damages {
        put("/damaged", Kind::File, &good);
        places.iter().for_each(|(place, bytes)| patch("/damaged", *place, bytes));
        let ended = run(act, 0, &["check", "/damaged"]).and_then(|it| it.0.err()).map_or(0, |it| it.0);
        // What is after the first page of the journal may be read or not.
        if ended != status && !places.iter().any(|it| it.0 > SECOND_COPY + PAGE) {
            complain(format!("a damaged volume, {places:.100?}, is checked with status {ended}, not {status}"));
        }
        run(act, 0, &["dump", "/damaged"]);
        run(act, 0, &["copy", "/damaged", "/other", "--force"]);
    }
    let list = ["/copy"];
    let target = Started::begin(act, 0, &list);
    if target.serves() {
        target.end();
    }
    put("/served", Kind::File, &content("/copy"));
    crafted::check_superblocks(act, &good);
    put("/damaged", Kind::File, &good[..size / 2 / PAGE * PAGE]);
    expect(act, &["check", "/damaged"], REFUSED);
}

/// What is no recording, is of a newer version, or is damaged.
fn expand_wrong(act: Act) {
    let head = b"nvmetcp recording ";
    put("/run/newer", Kind::File, &[&head[..], b"2\n"].concat());
    put("/run/strange", Kind::File, &[&head[..], b"-1\n"].concat());
    put("/run/short", Kind::File, &[&head[..], b"1\n"].concat());
    put("/dev/recording", Kind::BlockDevice, &[&head[..], b"1\n", &[0; 1024]].concat());
    with_unreadable("/dev/recording", 1, || {
        expect(act, &["expand", "/dev/recording"], FAILED);
    });
    let lines: [(&[&str], u8); 9] = [
        (&["expand"], BAD),
        (&["expand", "--bogus", "/run/newer"], BAD),
        (&["expand", "/run/none"], FAILED),
        (&["expand", "/etc"], FAILED),
        (&["expand", CONFIG], REFUSED),
        (&["expand", "/run/newer"], REFUSED),
        (&["expand", "/run/strange"], REFUSED),
        (&["expand", "/run/short"], REFUSED),
        (&["expand", "/run/short", "/run/expanded"], REFUSED),
    ];
    for (list, status) in lines {
        expect(act, list, status);
    }
}

/// A target runs, and others want what it has.
fn rivals(supervisor: &mut Supervisor) {
    supervisor.start(0);
    supervisor.collect();
    let (act, scenario) = (supervisor.act, supervisor.scenario.clone());
    let (address, control) = match supervisor.running.first() {
        Some(it) => (it.address.to_string(), it.control.clone()),
        None => return,
    };
    expect(act, &["--listen", &address, CONFIG], FAILED);
    expect(act, &["--listen", "127.0.0.1:7777", "--control", &control, CONFIG], FAILED);
    if scenario.is_volume {
        expect(act, &["--listen", "127.0.0.1:7777", DEVICE], FAILED);
        expect(act, &["check", DEVICE], 0);
        expect(act, &["dump", DEVICE], 0);
        expect(act, &["copy", DEVICE, "/taken"], FAILED);
        let other = run(act, 1, &["copy", DEVICE, "/taken"]).and_then(|it| it.0.err()).map_or(0, |it| it.0);
        if other != REFUSED {
            complain(format!("the copy of a volume that is served elsewhere ends with status {other}"));
        }
    } else {
        expect(act, &["--listen", "127.0.0.1:7777", "--state", "/state", CONFIG], FAILED);
        if !scenario.manner.is_memory && !scenario.manner.is_read_only {
            expect(act, &["--listen", "127.0.0.1:7777", "--image", IMAGE, CONFIG], FAILED);
        }
    }
    ask(act, &control);
    expand_again(act, supervisor.recording());
    inherit(supervisor, &address);
}

/// Control lines that another process asks.
fn ask(act: Act, control: &str) {
    let lines: [(&[&str], u8); 4] = [
        (&["ctl", control, "counts"], 0),
        (&["ctl", control, "nothing"], REFUSED),
        (&["ctl", "/run/none", "counts"], FAILED),
        (&["ctl"], BAD),
    ];
    for (list, status) in lines {
        expect(act, list, status);
    }
}

/// Targets that wait for what another has, until that ends.
fn inherit(supervisor: &mut Supervisor, address: &str) {
    let (act, scenario) = (supervisor.act, &supervisor.scenario);
    let list = if scenario.is_volume { vec![DEVICE] } else { vec!["--state", "/state", CONFIG] };
    // The kept run is locked, though its name is gone.
    if let Some(script) = supervisor.script() {
        with(|it| it.disks.remove(Path::new(&script)));
        expect(act, &["--listen", "127.0.0.1:7777", "--script", &script, "--force", CONFIG], FAILED);
    }
    let listens = ["--listen", "127.0.0.1:7777"];
    with(|it| it.disks.hides_names = true);
    expect(act, &[&listens, &list[..]].concat(), FAILED);
    with(|it| (it.disks.hides_names, it.disks.hides_locks) = (false, true));
    expect(act, &[&listens, &list[..]].concat(), FAILED);
    if !scenario.is_volume {
        with(|it| {
            let inode = it.disks.find(Path::new("/state/in-use")).unwrap_or(0);
            it.disks.inodes[inode].set_length(0);
        });
        expect(act, &[&listens, &list[..]].concat(), FAILED);
    }
    with(|it| it.disks.hides_locks = false);
    let heirs = [Started::begin(act, 0, &[&["--wait"], &list[..]].concat()), Started::begin_at(act, address)];
    world::pause(SECOND);
    supervisor.end(0);
    for heir in heirs {
        if heir.serves() {
            heir.end();
        }
    }
}

/// A recording is printed, and is refused if it is damaged or cut.
fn expand_again(act: Act, recording: Option<String>) {
    let recording = match recording {
        Some(path) if !content(&path).is_empty() => path,
        _ => return,
    };
    expect(act, &["expand", &recording, &recording], FAILED);
    let bytes = content(&recording);
    run(act, 0, &["expand", &recording]);
    put("/run/cut", Kind::File, &bytes[..bytes.len() - 1]);
    expect(act, &["expand", "/run/cut", "/run/cut.nvme"], REFUSED);
    expect(act, &["expand", "/run/cut", "/run/cut.nvme", "--force"], REFUSED);
    let mut damaged = bytes;
    damaged[40] ^= 1;
    put("/run/damaged", Kind::File, &damaged);
    expect(act, &["expand", "--transcript", "/run/damaged", "/run/damaged.nvme"], REFUSED);
}
