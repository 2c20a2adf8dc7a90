//! Locks of files by flock(2), which `nvmesim` and `nvmelive` take too. A lock ends with its process, even by SIGKILL.
//! It reaches other machines only if the file system carries flock(2) to its server, as NFS does.

use crate::control::log::warn;
use crate::system;
use std::fmt::Display;
use std::fs::{self, File, OpenOptions};
use std::io::{self, ErrorKind};
use std::os::unix::fs::{FileTypeExt, MetadataExt, OpenOptionsExt};
use std::path::Path;
use std::thread;
use std::time::Duration;

/// O_NONBLOCK: opening a FIFO does not wait for its other end.
const AT_ONCE: i32 = 0o4000;
/// O_EXCL: nobody else may use a block device so, such as a file system that is mounted. O_DIRECT, and EBUSY.
pub const ALONE: i32 = 0o200;
pub const DIRECT: i32 = if cfg!(any(target_arch = "aarch64", target_arch = "arm")) { 0o200_000 } else { 0o40_000 };
const BUSY: i32 = 16;
/// How often a file is opened that another has replaced by the time it is locked.
const TRIES: usize = 100;
/// The delay between two tries to bind.
const PAUSE: Duration = Duration::from_millis(50);

/// The kind of lock.
#[derive(Clone, Copy)]
pub struct Lock {
    /// Others may have a shared lock too, but no exclusive one.
    pub is_shared: bool,
    /// Waits until it can be had; else it is refused if another process holds it.
    pub waits: bool,
    /// Names who holds a file that is locked.
    pub holder: fn(&File) -> String,
}

impl Lock {
    /// An exclusive lock.
    pub fn exclusive(waits: bool) -> Lock {
        Lock { is_shared: false, waits, holder }
    }

    /// A shared lock, for those that only read.
    pub fn shared(waits: bool) -> Lock {
        Lock { is_shared: true, ..Lock::exclusive(waits) }
    }

    /// Opens a regular file and locks it. If another file is at the path after a wait, it locks that one.
    pub fn open(&self, path: &Path, options: &OpenOptions) -> io::Result<File> {
        self.open_by(path, || open_regular(path, options))
    }

    /// Opens a regular file or a block device with more flags, and locks it.
    pub fn open_disk(&self, path: &Path, options: &OpenOptions, flags: i32) -> io::Result<File> {
        self.open_by(path, || open_disk(path, options, flags))
    }

    fn open_by(&self, path: &Path, open: impl Fn() -> io::Result<File>) -> io::Result<File> {
        for _ in 0..TRIES {
            let file = open()?;
            self.take(path, &file)?;
            if fs::metadata(path).map(|it| place_of(&it)).ok() == Some(place_of(&file.metadata()?)) {
                return Ok(file);
            }
        }
        Err(io::Error::new(ErrorKind::Other, "it is another file each time that it is opened"))
    }

    /// Locks a file that is open.
    pub fn take(&self, path: &Path, file: &File) -> io::Result<()> {
        match system::lock(file, self.is_shared, false) {
            Err(error) if error.kind() == ErrorKind::WouldBlock => (),
            result => return result,
        }
        let holder = (self.holder)(file);
        if !self.waits {
            let text = format!("{holder} has it locked; end that, or wait for it with --wait");
            return Err(io::Error::new(ErrorKind::WouldBlock, text));
        }
        warn(format_args!("{}: waits for {holder}, which has it locked", path.display()));
        loop {
            match system::lock(file, self.is_shared, true) {
                Err(error) if error.kind() == ErrorKind::Interrupted => (),
                result => return result,
            }
        }
    }
}

/// Binds an address or a socket. With `waits` it retries until the address is free: a process that ends may release its
/// locks before its address.
pub fn bind<T>(what: impl Display, waits: bool, mut bind: impl FnMut() -> io::Result<T>) -> io::Result<T> {
    let mut has_told = false;
    loop {
        match bind() {
            Err(error) if waits && error.kind() == ErrorKind::AddrInUse => (),
            result => return result,
        }
        if !has_told {
            warn(format_args!("{what}: waits until it is free"));
            has_told = true;
        }
        thread::sleep(PAUSE);
    }
}

/// Opens a regular file. Nothing else is waited for, or read.
pub fn open_regular(path: &Path, options: &OpenOptions) -> io::Result<File> {
    let file = options.clone().custom_flags(AT_ONCE).open(path)?;
    if file.metadata()?.is_file() {
        Ok(file)
    } else {
        Err(io::Error::new(ErrorKind::InvalidInput, "it is no regular file"))
    }
}

/// Opens a regular file or a block device, with more flags.
pub fn open_disk(path: &Path, options: &OpenOptions, flags: i32) -> io::Result<File> {
    let kind = fs::metadata(path)?.file_type();
    if !kind.is_file() && !kind.is_block_device() {
        return Err(io::Error::new(ErrorKind::InvalidInput, "it is no regular file and no block device"));
    }
    options.clone().custom_flags(AT_ONCE | flags).open(path).map_err(|error| match error.raw_os_error() {
        Some(BUSY) => io::Error::new(error.kind(), format!("{error}: it is mounted, or another program has it")),
        _ => error,
    })
}

/// The device and the inode of a file: no two files that exist at a time have the same.
pub fn place_of(metadata: &fs::Metadata) -> (u64, u64) {
    (metadata.dev(), metadata.ino())
}

/// Who has a file locked, for a message.
fn holder(file: &File) -> String {
    known_holder(file).unwrap_or_else(|| "a process that can't be seen from here".to_owned())
}

/// Who has a file locked, unless that can't be seen: on another machine, or in another namespace of processes.
pub fn known_holder(file: &File) -> Option<String> {
    let (device, inode) = place_of(&file.metadata().ok()?);
    let locks = fs::read_to_string("/proc/locks").ok()?;
    let names: Vec<String> = holders(&locks, device, inode).into_iter().map(process).collect();
    if names.is_empty() {
        None
    } else {
        Some(names.join(" and "))
    }
}

/// A process, with its name if it has one.
fn process(id: u32) -> String {
    match fs::read_to_string(format!("/proc/{id}/comm")) {
        Ok(name) => format!("process {id} ({})", name.trim_end()),
        Err(_) => format!("process {id}"),
    }
}

/// The processes that hold a file by flock(2), in a text of /proc/locks. Those that wait have `->` in their lines.
fn holders(locks: &str, device: u64, inode: u64) -> Vec<u32> {
    let major = device >> 8 & 0xfff | device >> 32 & 0xffff_f000;
    let minor = device & 0xff | device >> 12 & 0xffff_ff00;
    let wanted = format!("{major:02x}:{minor:02x}:{inode}");
    let held = locks.lines().filter_map(|line| match *line.split_whitespace().collect::<Vec<_>>() {
        [_, "FLOCK", _, _, process, place, ..] if place == wanted => process.parse().ok(),
        _ => None,
    });
    held.collect()
}

#[cfg(test)]
mod tests {
    use super::*;

    #[test]
    fn holders_are_named() {
        let locks = "1: POSIX  ADVISORY  WRITE 11 fe:00:77 0 EOF\n2: FLOCK  ADVISORY  WRITE 12 fe:00:77 0 EOF\n\
                     2: -> FLOCK  ADVISORY  WRITE 13 fe:00:77 0 EOF\n3: FLOCK  ADVISORY  READ  14 fe:01:77 0 EOF\n\
                     4: FLOCK  ADVISORY  READ  15 103:1f:8 0 EOF\n5: FLOCK  ADVISORY  READ  16 103:1f:8 0 EOF\n";
        assert_eq!(holders(locks, 0xfe00, 77), [12]);
        assert_eq!(holders(locks, 0xfe01, 77), [14]);
        assert_eq!(holders(locks, 0x1_031f, 8), [15, 16]);
        assert_eq!(holders(locks, 0xfe00, 78), []);
    }

    #[test]
    fn a_lock_is_found() {
        let path = std::env::temp_dir().join(format!("nvmetcp-locking-{}", std::process::id()));
        let mut options = OpenOptions::new();
        options.write(true).create(true);
        let held = Lock::exclusive(false).open(&path, &options).unwrap();
        let error = Lock::shared(false).open(&path, &options).unwrap_err();
        assert!(error.to_string().starts_with(&format!("process {} (", std::process::id())), "{error}");
        drop(held);
        let shared = [0; 2].map(|_| Lock::shared(false).open(&path, &options).unwrap());
        assert!(Lock::exclusive(false).open(&path, &options).is_err());
        drop(shared);
        fs::remove_file(path).unwrap();
    }
}
