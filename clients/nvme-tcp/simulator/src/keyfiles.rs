//! Files of keys that a target refuses, and hosts that have no line in one.

use crate::hosts::chap::Secret;
use crate::starts::Started;
use crate::supervisor::{Act, CONFIG};
use crate::tools::{complain, expect, put, FAILED, REFUSED};
use crate::world::disk::Kind;
use crate::world::with;
use std::path::Path;

const PATH: &str = "/etc/other-keys";
/// HOSTID and HOSTNQN of two hosts.
const A: &str = "a1000000-0000-0000-0000-000000000000 nqn.2024-01.example:a1";
const B: &str = "b2000000-0000-0000-0000-000000000000 nqn.2024-01.example:b2";
/// The longest file that a target reads.
const LONGEST: usize = 64 << 10;

fn secret(owner: usize) -> String {
    Secret::of(owner, 0).text()
}

/// Lines that are refused, with a part of the message.
fn wrong_lines() -> Vec<(String, &'static str)> {
    // The last has a hash that makes its key.
    let (one, two, three) = (secret(0), secret(1), secret(3));
    let changed = |from: &str, to: &str| format!("{A} {}", three.replacen(from, to, 1));
    vec![
        (String::new(), "no host in it"),
        ("a1".to_owned(), "1 words"),
        (A.to_owned(), "2 words"),
        (format!("{A} {one} {two} x"), "a fifth word"),
        (format!("0xa1 nqn.x {one}"), "that of host 0xa1 is"),
        (format!("a1 nqn.x {one}"), "no HOSTID; it is a UUID"),
        (format!("{} nqn.x {one}", "z".repeat(32)), "no HOSTID; it is a UUID"),
        (format!("{} x {one}", &A[..36]), "no HOSTNQN"),
        (changed("DHHC-1", "DHHC-2"), "has not the form"),
        (changed(":01:", ":04:"), "hash is none of"),
        (changed(":01:", ":02:"), "length is not that"),
        (changed("01:", "01:!!!!"), "not in base64"),
        (changed("01:", "01:A"), "not in base64"),
        (format!("{A} DHHC-1:00:Zh==:"), "not in base64"),
        (format!("{A} DHHC-1:00:Zg==:"), "length is not that"),
        (format!("{A} {}", three[..three.len() - 2].to_owned() + "x:"), ""),
        (format!("{A} {}", &three[..three.len() - 1]), "has not the form"),
        (changed("01:", "00:").replacen("DHHC-1:00:", "DHHC-1:00:AAAA", 1), ""),
        (format!("{A} {one} nothing"), "this is no secret"),
        (format!("{A} {one}\n{} nqn.2 {two}", &A[..36]), "has this HOSTID"),
        (format!("{A} {one}\n{} {} {two}", &B[..36], &A[37..]), "has this HOSTNQN"),
        (format!("{A} {one}\n{B} {one}"), "has this secret"),
        (format!("{A} {one} {two}\n{B} {two}"), "has this secret"),
        (format!("{A} {one}\n{B} {two} {one}"), "the secret of the host of line 1"),
        (format!("{A} {one} {one}"), "the host's too"),
    ]
}

fn expect_refusal(act: Act, wanted: &str) {
    let said = expect(act, &["--listen", "127.0.0.1:7777", "--keys", PATH, CONFIG], REFUSED);
    if !said.contains(wanted) {
        complain(format!("a file of keys is refused by {said:.300}, not {wanted}"));
    }
}

/// A changed checksum, and each other fault of a file.
pub fn use_all(act: Act) {
    for (text, wanted) in wrong_lines() {
        put(PATH, Kind::File, text.as_bytes());
        expect_refusal(act, wanted);
    }
    put(PATH, Kind::File, b"# \xff\n");
    expect_refusal(act, "not UTF-8");
    put(PATH, Kind::File, &[b'#'; LONGEST + 1]);
    expect_refusal(act, "at most");
    with(|it| it.disks.create(Path::new(PATH), Kind::Folder));
    expect_refusal(act, "no file");
    own(|it| (it.is_open, it.is_others) = (true, false));
    expect_refusal(act, "chmod 600");
    own(|it| (it.is_open, it.is_others) = (false, true));
    expect_refusal(act, "of user 77");
    serve_one(act);
}

/// The file has a good line, and is not only the owner's, or not of the user.
fn own(change: impl Fn(&mut crate::world::disk::Inode)) {
    put(PATH, Kind::File, format!("{A} {}\n", secret(0)).as_bytes());
    with(|it| {
        let inode = it.disks.find(Path::new(PATH)).unwrap_or(0);
        change(&mut it.disks.inodes[inode]);
    });
}

/// A target with a line for one host warns of the others, and needs no other way to know who comes from afar.
fn serve_one(act: Act) {
    put("/etc/two", Kind::File, b"controller 1 host 0xa1\ncontroller 2 host 0xb2\nnamespace 1 blocks 8 shared\n");
    own(|_| ());
    let it = Started::begin(act, 0, &["--listen", "0.0.0.0:7778", "--keys", PATH, "/etc/two"]);
    if !it.serves() {
        return complain("a target with keys does not serve".to_owned());
    }
    if !it.end().contains("has no line in the file of keys") {
        complain("a host without a key is not reported".to_owned());
    }
    expect(act, &["--listen", "127.0.0.1:7777", "--keys", "/etc", CONFIG], REFUSED);
    expect(act, &["--listen", "127.0.0.1:7777", "--keys", PATH, "/etc/none"], FAILED);
}
