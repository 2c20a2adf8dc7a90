//! The state folder: a lock by which one target has it, and the identity, which also shows that a target has used it.
//! The journal is the third file there.

use crate::admin::identity::Identity;
use crate::control;
use crate::files::locking::{known_holder, open_regular, Lock};
use std::fs::{self, File, OpenOptions};
use std::io::{self, ErrorKind, Read, Seek, SeekFrom, Write};
use std::os::unix::fs::FileTypeExt;
use std::path::{Path, PathBuf};

/// The file that is locked while a target has the folder. It stays when the target ends.
const IN_USE: &str = "in-use";
/// The file with the identity. It is there from before the first record of the journal.
const IDENTITY: &str = "identity";
/// The file with the records.
pub const JOURNAL: &str = "journal";
/// All files of the folder.
pub const FILES: [&str; 3] = [IN_USE, IDENTITY, JOURNAL];
/// The longest line that names the owner of the lock.
const MOST_NAMED: u64 = 200;

/// A state folder that this target has.
pub struct Folder {
    pub path: PathBuf,
    /// There is none before a target uses it.
    pub(super) identity: Option<Identity>,
    _in_use: File,
}

impl Folder {
    /// Records that the folder was used, and the identity of its disk.
    pub fn use_it(&mut self) -> io::Result<Identity> {
        if let Some(identity) = self.identity {
            return Ok(identity);
        }
        let (identity, new) = (Identity::random()?, self.path.join("identity.new"));
        let mut file = File::create(&new)?;
        file.write_all(identity.text().as_bytes())?;
        file.sync_all()?;
        fs::rename(new, self.path.join(IDENTITY))?;
        File::open(&self.path)?.sync_all()?;
        self.identity = Some(identity);
        Ok(identity)
    }
}

/// Opens a folder, which is made if it is not there, and locks it.
pub fn open(path: &Path, waits: bool) -> io::Result<Folder> {
    fs::create_dir_all(path)?;
    let place = path.join(IN_USE);
    // Targets of an earlier version had a socket there.
    if fs::symlink_metadata(&place).map_or(false, |it| it.file_type().is_socket()) {
        control::remove_unanswered(&place)?;
    }
    let lock = Lock { holder, ..Lock::exclusive(waits) };
    let mut in_use = lock.open(&place, OpenOptions::new().read(true).write(true).create(true))?;
    in_use.set_len(0)?;
    in_use.write_all(me().as_bytes())?;
    Ok(Folder { path: path.to_owned(), identity: identity_of(&path.join(IDENTITY))?, _in_use: in_use })
}

/// The identity in a file, if that is there.
fn identity_of(path: &Path) -> io::Result<Option<Identity>> {
    let file = match open_regular(path, OpenOptions::new().read(true)) {
        Err(error) if error.kind() == ErrorKind::NotFound => return Ok(None),
        result => result.map_err(|error| io::Error::new(error.kind(), format!("{IDENTITY}: {error}")))?,
    };
    let mut text = String::new();
    let read = file.take(MOST_NAMED).read_to_string(&mut text).ok().and_then(|_| Identity::read(&text));
    let wrong = || io::Error::new(ErrorKind::InvalidData, format!("{IDENTITY} has no line of 32 hexadecimal digits"));
    read.map(Some).ok_or_else(wrong)
}

/// The line that names this target to others, which may run on another machine.
pub fn me() -> String {
    let machine = fs::read_to_string("/proc/sys/kernel/hostname").unwrap_or_default();
    format!("process {} (nvmetcp) of machine {}\n", std::process::id(), machine.trim())
}

/// The owner of the lock: a process of this machine, or else the name in the file.
fn holder(file: &File) -> String {
    known_holder(file).unwrap_or_else(|| {
        let (mut file, mut text) = (file, String::new());
        let read = file.seek(SeekFrom::Start(0)).and_then(|_| file.take(MOST_NAMED).read_to_string(&mut text));
        match (read, text.trim()) {
            (Ok(_), named) if !named.is_empty() => named.to_owned(),
            _ => "a process that can't be seen from here".to_owned(),
        }
    })
}

#[cfg(test)]
mod tests {
    use super::*;

    #[test]
    fn a_holder_of_another_machine_is_named() {
        let path = std::env::temp_dir().join(format!("nvmetcp-state-{}", std::process::id()));
        for (content, named) in [("process 7 of machine m\n", "process 7 of machine m"), ("", "a process that can't")] {
            fs::write(&path, content).unwrap();
            assert!(holder(&File::open(&path).unwrap()).starts_with(named));
        }
        fs::remove_file(path).unwrap();
    }
}
