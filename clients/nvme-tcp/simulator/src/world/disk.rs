//! Files and block devices: what processes see, and what is left after a power cut.

use super::meddler::Meddler;
use super::misdirection::Misdirection;
use super::World;
use crate::chance::Random;
use std::collections::{BTreeMap, BTreeSet, VecDeque};
use std::mem;
use std::path::{Path, PathBuf};

/// A power cut leaves each of these old or new.
pub const SECTOR: usize = 512;

#[derive(Clone, Copy, Debug, PartialEq, Eq)]
pub enum Kind {
    File,
    Folder,
    BlockDevice,
    Socket,
    Random,
}

/// A file. `data` is what processes read; `durable` is what the medium has for sure.
#[derive(Debug)]
pub struct Inode {
    pub kind: Kind,
    pub data: Vec<u8>,
    durable: Vec<u8>,
    /// Writes that were not synced, with their numbers and places.
    unsynced: VecDeque<(u64, usize, Vec<u8>)>,
    next: u64,
    pub has_name: bool,
    /// It is never looked at after a power cut, so its writes are not kept.
    pub is_kept_run: bool,
    /// It can't be written, a file system on it is mounted, and a folder is open to all.
    pub is_fixed: bool,
    pub is_mounted: bool,
    pub is_open: bool,
    /// Its owner is another user.
    pub is_others: bool,
    /// It can't be opened, or a folder can't be entered; and its file system has no O_DIRECT.
    pub is_hidden: bool,
    pub is_buffered: bool,
}

impl Inode {
    fn new(kind: Kind) -> Inode {
        Inode {
            kind,
            data: Vec::new(),
            durable: Vec::new(),
            unsynced: VecDeque::new(),
            next: 0,
            has_name: true,
            is_kept_run: false,
            is_fixed: false,
            is_mounted: false,
            is_open: false,
            is_others: false,
            is_hidden: false,
            is_buffered: false,
        }
    }

    pub fn write(&mut self, place: usize, bytes: &[u8]) {
        if self.data.len() < place + bytes.len() {
            self.data.resize(place + bytes.len(), 0);
        }
        self.data[place..place + bytes.len()].copy_from_slice(bytes);
        if !self.is_kept_run {
            self.unsynced.push_back((self.next, place, bytes.to_vec()));
        }
        self.next += 1;
    }

    pub fn zero(&mut self, place: usize, count: usize) {
        let end = self.data.len().min(place + count);
        if place < end {
            self.write(place, &vec![0; end - place]);
        }
    }

    /// The number after the last write.
    pub fn written(&self) -> u64 {
        self.next
    }

    /// The medium has all writes before this number.
    pub fn sync(&mut self, until: u64) {
        while self.unsynced.front().map_or(false, |(number, _, _)| *number < until) {
            if let Some((_, place, bytes)) = self.unsynced.pop_front() {
                keep(&mut self.durable, place, &bytes);
            }
        }
        let length = self.data.len();
        if self.unsynced.is_empty() {
            self.durable.resize(length, 0);
        }
    }

    /// Has these bytes, at once and for good.
    pub fn fill(&mut self, bytes: &[u8]) {
        (self.data, self.durable) = (bytes.to_vec(), bytes.to_vec());
        self.unsynced.clear();
        self.next += 1;
    }

    /// Changes the length, at once and for good.
    pub fn set_length(&mut self, length: usize) {
        self.data.resize(length, 0);
        self.sync(self.next);
        self.durable.resize(length, 0);
    }

    /// Power is lost: of each write that was not synced any sectors are left, in any order.
    fn cut(&mut self, random: &mut Random) -> (u64, u64) {
        let (mut lost, mut torn) = (0, 0);
        if self.unsynced.is_empty() && !self.is_kept_run {
            return (lost, torn);
        }
        let mut rest: Vec<_> = self.unsynced.drain(..).collect();
        while !rest.is_empty() {
            let (_, place, bytes) = rest.swap_remove(random.index(rest.len()));
            let choice = random.below(3);
            for (at, sector) in (place..).step_by(SECTOR).zip(bytes.chunks(SECTOR)) {
                if choice == 0 || choice == 2 && random.once_in(2) {
                    keep(&mut self.durable, at, sector);
                }
            }
            lost += u64::from(choice == 1);
            torn += u64::from(choice == 2);
        }
        self.data.clone_from(&self.durable);
        (lost, torn)
    }
}

fn keep(durable: &mut Vec<u8>, place: usize, bytes: &[u8]) {
    if durable.len() < place + bytes.len() {
        durable.resize(place + bytes.len(), 0);
    }
    durable[place..place + bytes.len()].copy_from_slice(bytes);
}

/// A lock of flock(2): of an open file, by a process of a machine.
#[derive(Debug)]
struct Held {
    inode: usize,
    open: u64,
    machine: usize,
    process: usize,
    is_shared: bool,
}

pub struct Disks {
    pub inodes: Vec<Inode>,
    names: BTreeMap<PathBuf, usize>,
    held: Vec<Held>,
    next_open: u64,
    /// The one with the blocks that targets serve, and the place of the first.
    pub served: Option<(usize, usize)>,
    /// Whether /proc/locks shows nothing, as in another namespace of processes; and whether processes have no names.
    pub hides_locks: bool,
    pub hides_names: bool,
    /// Whether file systems can't replace bytes by a hole.
    pub lacks_holes: bool,
    /// Sectors of what is served that can't be read until they are written.
    pub unreadable: BTreeSet<usize>,
    pub misdirection: Misdirection,
    /// Another program, if there is one.
    pub meddler: Option<Meddler>,
}

impl Disks {
    pub fn new() -> Disks {
        let mut disks = Disks {
            inodes: Vec::new(),
            names: BTreeMap::new(),
            held: Vec::new(),
            next_open: 1,
            served: None,
            hides_locks: false,
            hides_names: false,
            lacks_holes: false,
            unreadable: BTreeSet::new(),
            misdirection: Misdirection::default(),
            meddler: None,
        };
        for folder in ["/", "/run", "/dev", "/etc", "/state", "."] {
            disks.create(Path::new(folder), Kind::Folder);
        }
        disks.create(Path::new("/dev/urandom"), Kind::Random);
        disks
    }

    pub fn create(&mut self, path: &Path, kind: Kind) -> usize {
        let is_kept_run = path.starts_with("/run");
        self.inodes.push(Inode { is_kept_run, ..Inode::new(kind) });
        self.names.insert(path.to_owned(), self.inodes.len() - 1);
        self.inodes.len() - 1
    }

    pub fn find(&self, path: &Path) -> Option<usize> {
        self.names.get(path).copied()
    }

    /// Whether a file can't be opened, and whether its folder can't be entered.
    pub fn is_hidden(&self, path: &Path) -> bool {
        self.find(path).map_or(false, |it| self.inodes[it].is_hidden)
    }

    pub fn is_in_hidden(&self, path: &Path) -> bool {
        path.parent().map_or(false, |it| self.is_hidden(it))
    }

    pub fn remove(&mut self, path: &Path) -> bool {
        let found = self.names.remove(path);
        found.into_iter().for_each(|it| self.inodes[it].has_name = false);
        found.is_some()
    }

    pub fn rename(&mut self, from: &Path, to: &Path) -> bool {
        match self.names.remove(from) {
            Some(inode) => {
                self.remove(to);
                self.names.insert(to.to_owned(), inode);
                true
            }
            None => false,
        }
    }

    /// The number of an open file.
    pub fn open(&mut self) -> u64 {
        self.next_open += 1;
        self.next_open
    }

    /// Locks a file; false if another open file has it locked on this machine.
    pub fn lock(&mut self, inode: usize, open: u64, by: (usize, usize), is_shared: bool) -> bool {
        let (machine, process) = by;
        let is_other = |it: &Held| it.inode == inode && it.machine == machine && it.open != open;
        if self.held.iter().any(|it| is_other(it) && !(it.is_shared && is_shared)) {
            return false;
        }
        self.held.retain(|it| !(it.inode == inode && it.open == open));
        self.held.push(Held { inode, open, machine, process, is_shared });
        true
    }

    /// The lines of /proc/locks of a machine.
    pub fn locks(&self, machine: usize) -> String {
        let held = self.held.iter().filter(|it| it.machine == machine && !self.hides_locks);
        let line = |(number, it): (usize, &Held)| {
            let (kind, process) = (if it.is_shared { "READ " } else { "WRITE" }, it.process + 100);
            format!("{number}: FLOCK  ADVISORY  {kind} {process} fe:00:{} 0 EOF\n", it.inode + 1)
        };
        (1..).zip(held).map(line).collect()
    }

    pub fn unlock(&mut self, open: u64) {
        self.held.retain(|it| it.open != open);
    }

    pub fn unlock_all(&mut self, process: usize) {
        self.held.retain(|it| it.process != process);
    }

    /// The bytes of a file that no process reads again.
    pub fn take(&mut self, path: &str) -> Vec<u8> {
        self.find(Path::new(path)).map_or(Vec::new(), |it| mem::take(&mut self.inodes[it].data))
    }

    /// The bytes of a file, as processes see them.
    pub fn content(&self, path: &str) -> Vec<u8> {
        self.find(Path::new(path)).map_or(Vec::new(), |inode| self.inodes[inode].data.clone())
    }

    /// Whether some of these bytes of a file can't be read.
    pub fn fails_to_read(&self, inode: usize, place: usize, count: usize) -> bool {
        let is_served = self.served.map_or(false, |(served, _)| served == inode);
        is_served && self.unreadable.range(place / SECTOR..(place + count + SECTOR - 1) / SECTOR).next().is_some()
    }

    /// Whole sectors were written: they can be read.
    pub fn mend(&mut self, inode: usize, place: usize, count: usize) {
        if self.served.map_or(false, |(served, _)| served == inode) {
            self.unreadable.retain(|it| !(place / SECTOR..(place + count) / SECTOR).contains(it));
        }
    }

    /// The blocks that targets serve, as processes see them.
    pub fn blocks(&self) -> &[u8] {
        self.served.map_or(&[], |(inode, place)| &self.inodes[inode].data[place..])
    }
}

impl World {
    /// The power of the machines and of their disks fails.
    pub fn cut_power(&mut self) {
        let (mut lost, mut torn) = (0, 0);
        for it in &mut self.disks.inodes {
            let counts = it.cut(&mut self.random);
            (lost, torn) = (lost + counts.0, torn + counts.1);
        }
        *self.injected.entry("unsynced writes lost").or_default() += lost;
        *self.injected.entry("unsynced writes torn").or_default() += torn;
        self.note(&format!("power is lost: {lost} writes are lost, {torn} are torn"));
    }
}
