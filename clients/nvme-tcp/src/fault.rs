//! What ends the target.

use nvmesim::Refusal;
use std::error::Error;
use std::{fmt, io};

/// Why the target ends. Nothing that a host sends is such a fault.
#[derive(Debug)]
pub enum Fault {
    /// The library refused a call that it has to take.
    Refused(Refusal),
    /// The image could not be written or synced. What is in memory may be newer than the file, so no answer may go out.
    Image(io::Error),
    /// The journal could not be written.
    Journal(io::Error),
    /// The kept script could not be written.
    Script(io::Error),
    /// The recording could not be written.
    Recording(io::Error),
    /// The system refused to poll, or to listen.
    System(io::Error),
}

impl fmt::Display for Fault {
    fn fmt(&self, f: &mut fmt::Formatter<'_>) -> fmt::Result {
        match self {
            Fault::Refused(refusal) => write!(f, "libnvmesim: {refusal}"),
            Fault::Image(error) => write!(f, "the image: {error}"),
            Fault::Journal(error) => write!(f, "the journal: {error}"),
            Fault::Script(error) => write!(f, "the script: {error}"),
            Fault::Recording(error) => write!(f, "the recording: {error}"),
            Fault::System(error) => write!(f, "the system: {error}"),
        }
    }
}

impl Error for Fault {}

impl From<Refusal> for Fault {
    fn from(refusal: Refusal) -> Self {
        Fault::Refused(refusal)
    }
}

/// The result of a step, unless the target ends.
pub type Outcome<T> = Result<T, Fault>;
