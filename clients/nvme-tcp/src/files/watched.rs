//! A file that must stay at its path while the target serves it.

use crate::files::locking::place_of;
use std::fs::{self, File};
use std::io::{self, ErrorKind};
use std::path::{Path, PathBuf};

/// The path of a file that is open, and the file that was there when it was opened.
pub struct Watched {
    path: PathBuf,
    place: (u64, u64),
}

impl Watched {
    pub fn new(path: &Path, file: &File) -> io::Result<Watched> {
        Ok(Watched { path: path.to_owned(), place: place_of(&file.metadata()?) })
    }

    /// The length of the file. An error if it was removed, renamed or replaced.
    pub fn length(&self) -> io::Result<u64> {
        let path = self.path.display();
        let found = fs::metadata(&self.path).map_err(|error| match error.kind() {
            ErrorKind::NotFound => changed(format!("{path} was removed or renamed")),
            kind => io::Error::new(kind, format!("{path}: {error}")),
        })?;
        if place_of(&found) != self.place {
            return Err(changed(format!("{path} is another file now")));
        }
        Ok(found.len())
    }
}

/// The error that another program has changed a file.
pub fn changed(text: String) -> io::Error {
    io::Error::new(ErrorKind::InvalidData, text)
}
