//! Configurations, events and answers as the lines of scripts and transcripts, and query lines, as in sessions.

use crate::layout::{self, Answer, Written};
use crate::numbers::to_u64;
use crate::{raw, Attachment, Config, Controller, Executed, Fetched, Namespace, Subsystem};
use crate::{CQ_FULL, OK, POSTED, TOOK};
use std::fmt;

/// Why the text of a configuration is refused.
#[derive(Clone, Copy, Debug, PartialEq, Eq)]
#[non_exhaustive]
pub enum ConfigFault {
    /// A line is no line of a script, or is not allowed at its place.
    BadLine,
    /// An identifier is wrong: of a controller, host or namespace, or of an attachment.
    BadId,
    /// A namespace has no blocks, or more than the limit.
    BadSize,
    /// There are more than 16 controllers, 8 namespaces or 128 attachments.
    TooMany,
    /// The namespaces have more blocks together than the medium.
    DoesNotFit,
    /// A line is an event.
    HasEvent,
    /// There is no controller.
    Empty,
    /// The text has more than 4,194,304 bytes.
    TooLong,
    /// Memory was refused.
    NoMemory,
}

/// Why the text of a configuration is refused, and where.
#[derive(Clone, Debug, PartialEq, Eq)]
pub struct ConfigError {
    /// Which fault it is.
    pub name: ConfigFault,
    /// The line that is at fault, from 1; 0 if memory was refused.
    pub line: usize,
    /// Column in the line, in bytes from 1; 0 if memory was refused.
    pub column: usize,
    /// What the programs print after the name of the file and a colon: line, column and reason.
    pub reason: String,
}

impl fmt::Display for ConfigError {
    fn fmt(&self, f: &mut fmt::Formatter<'_>) -> fmt::Result {
        f.write_str(&self.reason)
    }
}

impl std::error::Error for ConfigError {}

/// An event of a script.
#[derive(Clone, Copy, Debug, PartialEq, Eq)]
pub enum Event<'b> {
    /// A host stores bytes in its memory.
    Store {
        /// The controller.
        cntlid: u16,
        /// The address of the first byte.
        address: u64,
        /// The bytes.
        bytes: &'b [u8],
    },
    /// A host writes a register.
    Write32 {
        /// The controller.
        cntlid: u16,
        /// The offset of the register.
        offset: u64,
        /// The value.
        value: u32,
    },
    /// A controller fetches a command.
    Fetch {
        /// The controller.
        cntlid: u16,
        /// The submission queue.
        qid: u16,
    },
    /// A controller executes a command.
    Execute {
        /// The controller.
        cntlid: u16,
        /// The place of the command among those fetched, from 0.
        i: usize,
    },
    /// Power is lost, and comes back.
    PowerCycle,
}

/// The result of an event.
#[derive(Clone, Copy, Debug, PartialEq, Eq)]
pub enum Answered {
    /// The bytes are stored.
    Stored,
    /// Some of the bytes are outside the memory.
    Outside,
    /// The register is written.
    Wrote32,
    /// The result of a fetch.
    Fetched(Fetched),
    /// The result of an execution.
    Executed(Executed),
    /// Power was lost, and came back.
    PowerCycled,
    /// There is no such controller.
    NoController,
}

/// Why a text was not written.
#[derive(Clone, Copy, Debug, PartialEq, Eq)]
#[non_exhaustive]
pub enum LineError {
    /// The buffer is too short.
    NoRoom,
    /// No line expresses this event, the event never has this answer, or the line does not begin with `?`.
    NoLine,
    /// Memory was refused.
    NoMemory,
}

impl fmt::Display for LineError {
    fn fmt(&self, f: &mut fmt::Formatter<'_>) -> fmt::Result {
        f.write_str(match self {
            LineError::NoRoom => "the buffer is too short",
            LineError::NoLine => "there is no such line",
            LineError::NoMemory => "out of memory",
        })
    }
}

impl std::error::Error for LineError {}

/// The most controllers, namespaces and attachments of a configuration.
const MOST: (usize, usize, usize) = (16, 8, 128);
/// More than the longest reason.
const REASON: usize = 1024;
/// The longest answer.
const ANSWER: usize = 262_240;

/// Parses a configuration, the lines of a script before its `start`, and checks it for a medium of `blocks` blocks and
/// namespaces of at most `max_blocks` blocks, such as [`SCRIPT_BLOCKS`](crate::SCRIPT_BLOCKS). `start` may be missing,
/// and only blank lines and comments may follow it.
///
/// # Errors
///
/// The first line at fault, or [`ConfigFault::NoMemory`].
pub fn read_configuration(text: &[u8], max_blocks: u64, blocks: u64) -> Result<Config, ConfigError> {
    let mut controllers = vec![Controller::new(0, 0); MOST.0];
    let mut namespaces = vec![Namespace { blocks: 0, nsid: 0, shared: false }; MOST.1];
    let mut attached = vec![Attachment { nsid: 0, cntlid: 0 }; MOST.2];
    let mut reason = [0; REASON];
    let room = (&mut controllers[..], &mut namespaces[..], &mut attached[..]);
    let read = raw::read_configuration(text, (max_blocks, blocks), room, &mut reason);
    if read.what != OK {
        let reason = String::from_utf8_lossy(&reason[..read.length]).into_owned();
        return Err(ConfigError { name: fault(read.what), line: read.line, column: read.column, reason });
    }
    controllers.truncate(read.controllers);
    namespaces.truncate(read.namespaces);
    attached.truncate(read.attached);
    Ok(Config { controllers, namespaces, attached })
}

impl Config {
    /// The lines of a script that describe the configuration, each with its line feed, without `start`. Parsed again,
    /// they give the same configuration.
    ///
    /// # Errors
    ///
    /// [`LineError::NoMemory`].
    pub fn lines(&self) -> Result<String, LineError> {
        let most = 96 * self.controllers.len() + 64 * self.namespaces.len() + 32 * self.attached.len();
        let mut lines = vec![0; most];
        let parts = (&self.controllers[..], &self.namespaces[..], &self.attached[..]);
        let length = written(&raw::configuration_lines(parts, &mut lines))?;
        lines.truncate(length);
        Ok(String::from_utf8_lossy(&lines).into_owned())
    }
}

/// Writes the script line of an event, with its line feed, to the front of a buffer, and returns its length. A line has
/// at most 64 bytes, and two more for each byte that is stored.
///
/// # Errors
///
/// [`LineError::NoRoom`], or [`LineError::NoLine`] for a store of no bytes and for a place above 65,535: the buffer is
/// unchanged.
#[inline]
pub fn event_line(event: &Event<'_>, line: &mut [u8]) -> Result<usize, LineError> {
    let bytes = if let Event::Store { bytes, .. } = event { bytes } else { &[][..] };
    written(&raw::event_line(&event.plain(), bytes, line))
}

/// Writes the transcript line of an event's result, with its line feed, to the front of a buffer, and returns its
/// length, at most 64.
///
/// # Errors
///
/// [`LineError::NoRoom`], or [`LineError::NoLine`] if the event never has this answer: the buffer is unchanged.
#[inline]
pub fn answer_line(event: &Event<'_>, answer: &Answered, line: &mut [u8]) -> Result<usize, LineError> {
    written(&raw::answer_line(&event.plain(), &answer.plain(), line))
}

impl Subsystem<'_> {
    /// Answers a query line, such as `?queues 1`, as a session of `nvmelive` over the same subsystem does, without the
    /// line feed. No host has a driver here. A refusal is an answer too, and names the line by its number.
    ///
    /// # Errors
    ///
    /// [`LineError::NoLine`] if the line does not begin with `?`; [`LineError::NoMemory`].
    pub fn look(&mut self, number: u64, line: &str) -> Result<String, LineError> {
        let mut answer = vec![0; ANSWER];
        let length = written(&self.handle.look(number, line.as_bytes(), &mut answer))?;
        answer.truncate(length.saturating_sub(1));
        Ok(String::from_utf8_lossy(&answer).into_owned())
    }
}

fn written(it: &Written) -> Result<usize, LineError> {
    match it.what {
        OK => Ok(it.length),
        33 => Err(LineError::NoRoom),
        34 => Err(LineError::NoLine),
        _ => Err(LineError::NoMemory),
    }
}

fn fault(number: u32) -> ConfigFault {
    match number {
        23 => ConfigFault::BadId,
        24 => ConfigFault::BadSize,
        25 => ConfigFault::TooMany,
        26 => ConfigFault::DoesNotFit,
        35 => ConfigFault::BadLine,
        36 => ConfigFault::HasEvent,
        37 => ConfigFault::Empty,
        38 => ConfigFault::TooLong,
        _ => ConfigFault::NoMemory,
    }
}

impl Event<'_> {
    /// As the library takes it.
    fn plain(&self) -> layout::Event {
        let none = layout::Event::default();
        match *self {
            Event::Store { cntlid, address, .. } => layout::Event { at: address, kind: 1, cntlid, ..none },
            Event::Write32 { cntlid, offset, value } => layout::Event { at: offset, kind: 2, value, cntlid, ..none },
            Event::Fetch { cntlid, qid } => layout::Event { kind: 4, cntlid, qid, ..none },
            Event::Execute { cntlid, i } => layout::Event { at: to_u64(i), kind: 5, cntlid, ..none },
            Event::PowerCycle => layout::Event { kind: 6, ..none },
        }
    }
}

impl Answered {
    /// As the library returns it.
    fn plain(self) -> Answer {
        let of = |what| Answer { what, ..Answer::default() };
        match self {
            Answered::Stored => of(1),
            Answered::Wrote32 => of(2),
            Answered::Fetched(Fetched::Took) => of(TOOK),
            Answered::Fetched(Fetched::Idle) => of(5),
            Answered::Executed(Executed::Posted(it)) => {
                Answer { value: it.dw0, what: POSTED, sct: it.sct, sc: it.sc, rule: it.denied_by.unwrap_or(0) }
            }
            Answered::Executed(Executed::NoSuch) => of(7),
            Answered::Executed(Executed::CqFull) => of(CQ_FULL),
            Answered::PowerCycled => of(9),
            Answered::NoController => of(17),
            Answered::Outside => of(18),
        }
    }
}
