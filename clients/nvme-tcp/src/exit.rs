//! Why the program ends before it serves, or with what.

use std::error::Error;
use std::fmt::{self, Display};

/// Exit statuses: the configuration is refused, a file or the system failed, the command line is wrong.
pub const REFUSED: u8 = 1;
pub const FAILED: u8 = 2;
pub const BAD_COMMAND_LINE: u8 = 3;

/// The exit status, and the message that goes with it.
#[derive(Debug)]
pub struct Exit {
    pub status: u8,
    message: String,
}

impl Exit {
    pub fn new(status: u8, message: impl Display) -> Exit {
        Exit { status, message: message.to_string() }
    }

    /// An exit for an error, whose message begins with what it is about.
    pub fn about<E: Display>(status: u8, what: impl Display) -> impl FnOnce(E) -> Exit {
        move |error| Exit::new(status, format_args!("{what}: {error}"))
    }

    /// An exit for words that are wrong.
    pub fn usage(error: impl Display) -> Exit {
        Exit::new(BAD_COMMAND_LINE, format_args!("{error}; see --help"))
    }
}

impl Display for Exit {
    fn fmt(&self, f: &mut fmt::Formatter<'_>) -> fmt::Result {
        f.write_str(&self.message)
    }
}

impl Error for Exit {}

#[cfg(test)]
mod tests {
    use super::*;

    #[test]
    fn messages_begin_with_what_they_are_about() {
        let exit = Exit::about(FAILED, "disk.img")("no space");
        assert_eq!((exit.status, exit.to_string().as_str()), (FAILED, "disk.img: no space"));
        let exit = Exit::usage("one CONFIG is needed");
        assert_eq!((exit.status, exit.to_string().as_str()), (BAD_COMMAND_LINE, "one CONFIG is needed; see --help"));
    }
}
