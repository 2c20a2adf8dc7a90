//! The secrets of hosts as the file of `--keys` has them. An operator changes it while targets serve.

use super::chap::{Choice, Peers, Secret};
use super::checker::check;
use super::fabrics::host_name;
use super::{below, once_in, Path};
use crate::tools::put;
use crate::world::disk::Kind;
use crate::world::{with, SECOND};

pub const KEYS: &str = "/etc/keys";
/// The owner of the secret by which the subsystem proves itself to a host, less the host.
const CONTROLLER: usize = 100;
/// The owner of a secret that no file has.
pub const NOBODY: usize = 999;
/// By this time after a change all targets have read the file again, unless they were stopped.
pub const CHANGING: u64 = 25 * SECOND;

/// The line of a host.
#[derive(Clone, Debug)]
struct Line {
    /// Which of its secrets it has, and when it has changed or was missing last.
    number: u64,
    changed: Option<u64>,
    is_missing: bool,
}

/// The file of keys.
#[derive(Clone, Debug, Default)]
pub struct KeyRing {
    lines: Vec<Line>,
    /// When it was put right last after it could not be read.
    spoiled: Option<u64>,
}

impl KeyRing {
    pub fn new(hosts: usize) -> KeyRing {
        KeyRing { lines: vec![Line { number: 0, changed: None, is_missing: false }; hosts], spoiled: None }
    }

    /// Each third host does without the secret of the controller.
    fn controller(host: usize) -> Option<Secret> {
        (host % 3 != 2).then(|| Secret::of(CONTROLLER + host, 0))
    }

    /// The file's text.
    pub fn text(&self) -> String {
        let mut text = "# hosts\n\n".to_owned();
        for (host, line) in self.lines.iter().enumerate().filter(|(_, it)| !it.is_missing) {
            let (id, secret) = (Path::id_of(host).swap_bytes(), Secret::of(host, line.number).text());
            let controller = KeyRing::controller(host).map_or(String::new(), |it| it.text());
            text += &format!("{id:032x} {} {secret} {controller}\n", host_name(host));
        }
        text
    }

    /// How many hosts it is about.
    pub fn hosts(&self) -> usize {
        self.lines.len()
    }

    /// Writes the file, and has all targets read it again.
    pub fn write(&self) {
        put(KEYS, Kind::File, self.text().as_bytes());
        hang_up();
    }

    /// The file can't be read from now on, until it is written.
    pub fn spoil(&mut self) {
        let text = [&b"a line\n"[..], b"\xff\n", b"# nothing\n"][below(3)];
        put(KEYS, Kind::File, text);
        self.spoiled = Some(u64::MAX);
        hang_up();
    }

    pub fn mend(&mut self) {
        self.spoiled = Some(with(|it| it.now));
        self.write();
    }

    /// Whether a target that has started since a time may have found a file that it can't read.
    pub fn was_spoiled(&self, since: u64) -> bool {
        self.spoiled.map_or(false, |it| it >= since)
    }

    /// Changes the secret of a host, or removes its line, or puts it back; and writes the file.
    pub fn change(&mut self, host: usize, is_missing: bool) {
        let now = with(|it| it.now);
        if let Some(line) = self.lines.get_mut(host) {
            line.number += u64::from(!is_missing && !line.is_missing);
            (line.changed, line.is_missing) = (Some(now), is_missing);
        }
        self.write();
    }

    /// Whether targets may have had another line of a host at a time or since.
    pub fn has_changed(&self, host: usize, since: u64) -> bool {
        let changed = self.lines.get(host).and_then(|it| it.changed);
        changed.map_or(false, |it| it + CHANGING > since)
    }

    /// Which secrets a host may have used up to now: the newest, and while targets change to it the one before.
    fn number(&self, host: usize, is_before: bool) -> u64 {
        let newest = self.lines.get(host).map_or(0, |it| it.number);
        newest.saturating_sub(u64::from(is_before))
    }
}

/// Sends SIGHUP to all targets.
fn hang_up() {
    with(|it| it.processes.iter_mut().for_each(|it| it.hangs_up = true));
}

impl Path {
    /// Itself and the subsystem, with the secrets of the file.
    pub fn peers(&self, choice: Choice) -> Peers {
        let now = with(|it| it.now);
        let is_before = once_in(2) && check(|it| it.keys.has_changed(self.host, now));
        let number = check(|it| it.keys.number(self.host, is_before));
        Peers {
            choice,
            host: host_name(self.host),
            subsystem: self.name.to_owned(),
            secret: Secret::of(self.host, number),
            controller: KeyRing::controller(self.host),
        }
    }
}
