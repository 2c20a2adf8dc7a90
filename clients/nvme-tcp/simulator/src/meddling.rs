//! Command lines whose files another program changes between two of their calls: they refuse these, or end soon.

use crate::starts::{Started, ADDRESS};
use crate::supervisor::{Act, CONFIG};
use crate::tools::{complain, content, expect, put, run, FAILED, REFUSED};
use crate::world::disk::{Disks, Kind};
use crate::world::meddler::{Meddler, Moment};
use crate::world::with;
use std::path::Path;

/// Another program changes a file at its next calls of a kind, after some that it lets pass.
fn meddle(path: &str, moment: Moment, passes: usize, changes: usize, change: impl Fn(&mut Disks) + 'static) {
    let path = Path::new(path).to_owned();
    with(|it| it.disks.meddler = Some(Meddler { path, moment, passes, changes, change: Box::new(change) }));
}

/// A command line ends with this status and message. The other program is gone then.
fn refuses(act: Act, list: &[&str], status: u8, message: &str) {
    let ended = run(act, 0, list).map(|it| it.0);
    with(|it| it.disks.meddler = None);
    let is_right = matches!(&ended, Some(Err((given, text))) if *given == status && text.contains(message));
    if !is_right {
        complain(format!("nvmetcp {list:?} meets another program, and ends with {ended:?}"));
    }
}

/// All of them. `size` is that of an image.
pub fn use_all(act: Act, size: usize) {
    replace_files(act);
    change_journal(act);
    change_volumes(act, size);
}

/// Replaces a file by an empty one.
fn replace(disks: &mut Disks, path: &'static str) {
    disks.create(Path::new(path), Kind::File);
}

/// A file is another one each time that it is opened, or by the time it is read.
fn replace_files(act: Act) {
    put("/replaced", Kind::File, b"");
    meddle("/replaced", Moment::Opened, 0, usize::MAX, |disks| replace(disks, "/replaced"));
    let list = ["--listen", ADDRESS, "--image", "/replaced", CONFIG];
    refuses(act, &list, FAILED, "it is another file each time that it is opened");
    meddle("/sixth/journal", Moment::Opened, 0, 1, |disks| replace(disks, "/sixth/journal"));
    let it = Started::begin(act, 0, &["--state", "/sixth", CONFIG]);
    if !it.serves() {
        complain("a target does not serve whose journal was replaced when it was opened".to_owned());
    }
    it.notices("its journal was replaced when it was opened");
}

/// The journal of a state folder is never read as the same.
fn change_journal(act: Act) {
    let change = |disks: &mut Disks| {
        let inode = disks.find(Path::new("/first/journal")).unwrap_or(0);
        disks.inodes[inode].data[0] += 1;
    };
    let journal = content("/first/journal");
    meddle("/first/journal", Moment::Read, 0, usize::MAX, change);
    let list = ["--listen", ADDRESS, "--state", "/first", CONFIG];
    refuses(act, &list, FAILED, "it is read as something else each time");
    put("/first/journal", Kind::File, &journal);
}

/// A volume is formatted by another machine while a target takes it, and a file is cut while format looks at it.
fn change_volumes(act: Act, size: usize) {
    put("/etc/other", Kind::File, b"controller 1 host 0x7\nnamespace 1 blocks 8 shared\nattached 1 1\n");
    for (volume, config) in [("/taken.volume", CONFIG), ("/other.volume", "/etc/other")] {
        expect(act, &["format", volume, "--config", config, "--lease", "2"], 0);
    }
    // Both superblocks are read before: to see that it is a volume, and for its configuration.
    let other = content("/other.volume");
    meddle("/taken.volume", Moment::Read, 2, 1, move |disks| {
        let inode = disks.find(Path::new("/taken.volume")).unwrap_or(0);
        disks.inodes[inode].fill(&other);
    });
    let list = ["--listen", ADDRESS, "/taken.volume"];
    refuses(act, &list, REFUSED, "format has taken it at the same time");
    put("/full", Kind::File, &vec![7; size + (4 << 20)]);
    meddle("/full", Moment::Read, 1, 1, |disks| {
        let inode = disks.find(Path::new("/full")).unwrap_or(0);
        disks.inodes[inode].set_length(0);
    });
    refuses(act, &["format", "/full", "--config", CONFIG], FAILED, "it was cut while it was read");
}
