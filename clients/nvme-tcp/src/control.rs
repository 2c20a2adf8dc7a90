//! Lines of control, for tests and operators.

pub mod counters;
pub mod host_log;
pub mod log;
pub mod metrics;

use crate::control::log::Topic;
use crate::fault::Outcome;
use crate::system::Interest;
use crate::target::Target;
use crate::transport::connection::is_passing;
use crate::transport::output::Output;
use std::fmt::Write;
use std::fs::{self, DirBuilder};
use std::io::{self, Read, Write as _};
use std::net::Shutdown;
use std::os::unix::fs::{DirBuilderExt, FileTypeExt, MetadataExt};
use std::os::unix::net::{UnixListener, UnixStream};
use std::path::Path;
use std::time::{Duration, Instant};

/// The longest line.
const LINE: usize = 4096;
/// With this many bytes that were not taken no further line is answered.
const FULL: usize = 64 << 10;
/// How long a client may take for the answers that are due.
const PATIENCE: Duration = Duration::from_secs(2);

/// Listens at a socket, whose folder nobody else may enter: it is made so, or refused.
pub fn listen(socket: &Path) -> io::Result<UnixListener> {
    let folder = match socket.parent() {
        Some(folder) if folder != Path::new("") => folder,
        _ => Path::new("."),
    };
    if !folder.exists() {
        DirBuilder::new().mode(0o700).create(folder)?;
    }
    if fs::metadata(folder)?.mode() & 0o077 != 0 {
        // It may be a folder that all users share, whose permissions are to stay.
        let own = folder.join("nvmetcp.control").join(socket.file_name().unwrap_or_default());
        let text = "its folder is open to others: choose one that only you can enter, which is created if needed";
        let text = format!("{text}, as --control {}", own.display());
        return Err(io::Error::new(io::ErrorKind::PermissionDenied, text));
    }
    let listener = bind(socket)?;
    listener.set_nonblocking(true)?;
    Ok(listener)
}

/// Binds a socket. One that a killed target has left is replaced; no other file is.
fn bind(socket: &Path) -> io::Result<UnixListener> {
    match fs::symlink_metadata(socket) {
        Ok(it) if it.file_type().is_socket() => remove_unanswered(socket)?,
        Ok(_) => return Err(io::Error::new(io::ErrorKind::AlreadyExists, "it exists, and is not a socket")),
        Err(_) => (),
    }
    UnixListener::bind(socket)
}

/// Removes a socket, unless a target that runs answers at it.
pub fn remove_unanswered(socket: &Path) -> io::Result<()> {
    if UnixStream::connect(socket).is_ok() {
        return Err(io::Error::new(io::ErrorKind::AddrInUse, "another target that runs has it"));
    }
    fs::remove_file(socket)
}

/// Has a target answer a line: the answer, which is one line unless metrics are asked for.
pub fn ask(socket: &Path, line: &str) -> io::Result<String> {
    let mut stream = UnixStream::connect(socket)?;
    stream.write_all(format!("{line}\n").as_bytes())?;
    stream.shutdown(Shutdown::Write)?;
    let mut answer = String::new();
    stream.read_to_string(&mut answer)?;
    Ok(answer)
}

/// A number in decimal digits, or in hexadecimal ones after `0x`.
fn number(word: &str) -> Option<u128> {
    let (digits, base) = word.strip_prefix("0x").map_or((word, 10), |digits| (digits, 16));
    let is_plain = digits.bytes().all(|byte| byte.is_ascii_hexdigit());
    u128::from_str_radix(digits, base).ok().filter(|_| is_plain)
}

/// A connection of someone who asks. Its stream does not block, so that nobody who is slow to read holds the target.
pub struct Console {
    pub stream: UnixStream,
    input: Vec<u8>,
    output: Output,
    /// When it is closed, unless it takes the answers that are due before.
    deadline: Option<Instant>,
    /// Whether no more lines come.
    is_over: bool,
    /// How many lines were answered.
    count: u64,
}

impl Console {
    pub fn new(stream: UnixStream) -> Console {
        let (input, output) = (Vec::new(), Output::default());
        Console { stream, input, output, deadline: None, is_over: false, count: 0 }
    }

    /// What it waits for: to be read, or to be written to while answers are due.
    pub fn wants(&self) -> Interest {
        let is_due = self.output.len() != 0;
        Interest { read: !is_due, write: is_due }
    }

    pub fn is_late(&self, now: Instant) -> bool {
        self.deadline.map_or(false, |deadline| now > deadline)
    }

    /// Receives lines and answers them; whether there may be more.
    pub fn serve(&mut self, target: &mut Target<'_>) -> Outcome<bool> {
        if self.output.len() == 0 {
            self.receive();
        }
        loop {
            let is_answered = self.answer_lines(target)?;
            if !self.send() {
                return Ok(false);
            }
            if self.output.len() != 0 {
                self.deadline = self.deadline.or_else(|| Some(Instant::now() + PATIENCE));
                return Ok(true);
            }
            self.deadline = None;
            if is_answered {
                return Ok(!self.is_over && self.input.len() <= LINE);
            }
        }
    }

    fn receive(&mut self) {
        let mut bytes = [0; LINE];
        match self.stream.read(&mut bytes) {
            Ok(count) => {
                self.is_over = count == 0;
                self.input.extend(&bytes[..count]);
            }
            Err(error) => self.is_over = !is_passing(&error),
        }
    }

    /// Answers lines while there is space; whether all complete ones are answered.
    fn answer_lines(&mut self, target: &mut Target<'_>) -> Outcome<bool> {
        while let Some(end) = self.input.iter().position(|byte| *byte == b'\n') {
            if self.output.len() >= FULL {
                return Ok(false);
            }
            let line: Vec<u8> = self.input.drain(..=end).collect();
            self.count += 1;
            let answer = target.answer_line(self.count, String::from_utf8_lossy(&line).trim())?;
            self.output.put(format!("{answer}\n").as_bytes());
        }
        Ok(true)
    }

    /// Sends as much as the system takes; whether someone is there to take it.
    fn send(&mut self) -> bool {
        while self.output.len() != 0 {
            match self.stream.write(self.output.waiting()) {
                Ok(count) => self.output.sent(count),
                Err(error) if is_passing(&error) => return true,
                Err(_) => return false,
            }
        }
        true
    }
}

impl Target<'_> {
    /// Answers the line with this number. The answer begins with `!` if there is no such line, or nothing that it
    /// names.
    fn answer_line(&mut self, number: u64, line: &str) -> Outcome<String> {
        let words: Vec<&str> = line.split_whitespace().collect();
        let answer = match *words {
            ["powercycle"] => {
                self.power_cycle()?;
                self.log.put(Topic::Service, "powercycle", &[("reason", &"ctl")]);
                Some("powercycle".to_owned())
            }
            ["hosts"] => Some(self.hosts()),
            ["counts"] => Some(self.counts()),
            ["metrics"] => Some(self.metrics()),
            ["ana", cntlid, state] => {
                let index = self.controller_of(cntlid);
                index.and_then(|index| self.set_access(index, state)).map(|()| line.to_owned())
            }
            [verb @ ("hold" | "held" | "go"), cntlid] => self.hold_line(verb, cntlid)?,
            [first, ..] if first.starts_with('?') => {
                Some(self.machine.look(number, line).unwrap_or_else(|error| format!("! line {number}: {error}")))
            }
            _ => None,
        };
        Ok(answer.unwrap_or_else(|| format!("! {line}")))
    }

    /// The place of a controller that a word names.
    fn controller_of(&self, word: &str) -> Option<usize> {
        let cntlid = number(word)?;
        self.controllers.iter().position(|it| u128::from(it.cntlid) == cntlid)
    }

    fn hold_line(&mut self, verb: &str, cntlid: &str) -> Outcome<Option<String>> {
        let index = match self.controller_of(cntlid) {
            Some(index) => index,
            None => return Ok(None),
        };
        let count = self.held[index].len();
        match verb {
            "hold" => self.holds[index] = true,
            "go" => self.release(index)?,
            _ => (),
        }
        Ok(Some(format!("{verb} {cntlid} {count}")))
    }

    /// The hosts that are there, as JSON.
    fn hosts(&mut self) -> String {
        let mut text = String::new();
        for index in 0..self.controllers.len() {
            let queues = self.io_queues(index);
            if let Some(it) = &self.associations[index] {
                let host = u128::from_be_bytes(it.host_id);
                let name =
                    String::from_utf8_lossy(&it.host_name).replace(|c: char| c == '"' || c == '\\' || c < ' ', "?");
                let between = if text.is_empty() { "" } else { ", " };
                let _ = write!(
                    text,
                    "{between}{{\"controller\": {}, \"host\": \"{host:032x}\", \"name\": \"{name}\", \"address\": \"{}\", \
                     \"port\": {}, \"target\": \"{}\", \"io_queues\": {queues}}}",
                    self.controllers[index].cntlid,
                    it.peer.ip(),
                    it.peer.port(),
                    it.local
                );
            }
        }
        format!("[{text}]")
    }

    /// The number of executed commands of each controller, as JSON.
    fn counts(&self) -> String {
        let each: Vec<String> =
            self.controllers.iter().map(|it| format!("\"{}\": {}", it.cntlid, it.commands)).collect();
        let all: u64 = self.controllers.iter().map(|it| it.commands).sum();
        format!("{{\"commands\": {all}, \"controllers\": {{{}}}}}", each.join(", "))
    }
}
