//! Why a volume is refused. Nothing is changed then.

use crate::exit::{Exit, FAILED, REFUSED};
use std::error::Error;
use std::path::Path;
use std::{fmt, io};

#[derive(Debug)]
pub enum Refusal {
    NotVolume,
    /// `format` or `copy` has begun it, and did not end.
    HalfMade,
    /// It has this version.
    Newer(u32),
    /// No copy of the superblock is whole.
    Damaged,
    /// How many bytes it has, and how many the volume.
    Short(u64, u64),
    /// What is wrong with the journal.
    Journal(String),
    /// What is wrong with the configuration.
    Configuration(String),
    /// The owner, which has not ended in order.
    Owned(String),
    /// Another target has taken it at the same time: its name.
    Taken(String),
    /// A place at which something is there already.
    NotEmpty(u64),
    IsVolume,
    /// How many bytes it has, and how many are needed.
    TooSmall(u64, u64),
    System(io::Error),
}

impl fmt::Display for Refusal {
    fn fmt(&self, f: &mut fmt::Formatter<'_>) -> fmt::Result {
        match self {
            Refusal::NotVolume => f.write_str("it is no volume; `nvmetcp format` makes one"),
            Refusal::HalfMade => {
                f.write_str("it is half a volume: format or copy did not end; repeat that with --force")
            }
            Refusal::Newer(version) => {
                write!(f, "it is a volume of version {version}, and this program reads version 1; use a newer nvmetcp")
            }
            Refusal::Damaged => f.write_str("both copies of its superblock are damaged; put it back from a copy"),
            Refusal::Short(found, size) => {
                write!(f, "it has {found} bytes, and its volume {size}; make it as long again, or copy all of it")
            }
            Refusal::Journal(reason) => write!(f, "its journal: {reason}; put the volume back from a copy"),
            Refusal::Configuration(reason) => write!(f, "its configuration is refused:{reason}"),
            Refusal::Owned(owner) => {
                write!(f, "{owner} has it, or has not ended in order; end that, or start and end a target over it")
            }
            Refusal::Taken(owner) => write!(f, "{owner} has taken it at the same time"),
            Refusal::NotEmpty(place) => {
                write!(f, "it is not empty: there is something at byte {place}; --force overwrites it")
            }
            Refusal::IsVolume => f.write_str("it is a volume already; --force overwrites it"),
            Refusal::TooSmall(found, needed) => write!(f, "it has {found} bytes, and {needed} are needed"),
            Refusal::System(error) => error.fmt(f),
        }
    }
}

impl Refusal {
    /// The end of the program.
    pub fn exit(&self, path: &Path) -> Exit {
        let status = if let Refusal::System(_) = self { FAILED } else { REFUSED };
        Exit::new(status, format_args!("{}: {self}", path.display()))
    }
}

impl Error for Refusal {}

impl From<io::Error> for Refusal {
    fn from(error: io::Error) -> Self {
        Refusal::System(error)
    }
}

impl PartialEq for Refusal {
    fn eq(&self, other: &Self) -> bool {
        self.to_string() == other.to_string()
    }
}

impl Eq for Refusal {}
