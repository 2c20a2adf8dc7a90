//! An NVMe subsystem that several hosts share: controllers, namespaces and reservations, in your own process. Each call
//! is one event, and libnvmesim is proved to do just that event.
//!
//! A command is stored in the memory of its host, a doorbell is written, and the controller fetches and executes:
//!
//! ```
//! use nvmesim::{Attachment, Config, Controller, Fetched, Namespace, Refusal, Subsystem};
//!
//! let config = Config {
//!     controllers: vec![Controller::new(1, 0xa1)],
//!     namespaces: vec![Namespace { blocks: 64, nsid: 1, shared: false }],
//!     attached: vec![Attachment { nsid: 1, cntlid: 1 }],
//! };
//! let mut subsystem = Subsystem::open(&config, &[0; 64 * 512])?;
//! subsystem.store(1, 0x10000, &[7; 512])?;
//! assert_eq!(subsystem.fetch(1, 0)?, Fetched::Idle);
//! assert_eq!(subsystem.read32(2, 0x1c), Err(Refusal::NoController));
//! # Ok::<(), Box<dyn std::error::Error>>(())
//! ```
//!
//! Bytes may also be borrowed, for as long as the subsystem exists; a Write changes them in place:
//!
//! ```
//! # use nvmesim::{Config, Subsystem};
//! let mut bytes = vec![0; 512];
//! let subsystem = Subsystem::open_lent(&Config::default(), &mut bytes)?;
//! drop(subsystem);
//! bytes[0] = 1;
//! # Ok::<(), nvmesim::OpenError>(())
//! ```
//!
//! They can't be used before:
//!
//! ```compile_fail,E0506
//! # use nvmesim::{Config, Subsystem};
//! let mut bytes = [0; 512];
//! let subsystem = Subsystem::open_lent(&Config::default(), &mut bytes).unwrap();
//! bytes[0] = 1;
//! drop(subsystem);
//! ```
//!
//! A subsystem may go to another thread:
//!
//! ```
//! # use nvmesim::{Config, Subsystem};
//! let subsystem = Subsystem::open(&Config::default(), &[])?;
//! std::thread::spawn(move || drop(subsystem)).join().unwrap();
//! # Ok::<(), nvmesim::OpenError>(())
//! ```
//!
//! A configuration may be read from text, and events written as the lines of a script:
//!
//! ```
//! # use nvmesim::{event_line, read_configuration, ConfigFault, Event, ANY_SIZE};
//! let text = b"controller 1 host 0xa1 raw\nnamespace 1 blocks 64 shared\n";
//! let config = read_configuration(text, ANY_SIZE, 64)?;
//! assert!(config.controllers[0].raw);
//! let error = read_configuration(b"controller one host 1\n", ANY_SIZE, 64).unwrap_err();
//! assert_eq!((error.name, error.line, error.column), (ConfigFault::BadLine, 1, 12));
//! let mut line = [0; 64];
//! let length = event_line(&Event::Fetch { cntlid: 1, qid: 0 }, &mut line).unwrap();
//! assert_eq!(&line[..length], b"fetch 1 0\n");
//! # Ok::<(), nvmesim::ConfigError>(())
//! ```
//!
//! Two threads share one only by a lock:
//!
//! ```compile_fail,E0277
//! # use nvmesim::{Config, Subsystem};
//! let subsystem = Subsystem::open(&Config::default(), &[]).unwrap();
//! std::thread::scope(|threads| {
//!     threads.spawn(|| &subsystem);
//! });
//! ```

#![deny(unsafe_code)]
#![warn(missing_docs)]
#![warn(clippy::pedantic, clippy::as_conversions, clippy::undocumented_unsafe_blocks)]
// Names of the standard, such as C2HData, are no code.
#![allow(clippy::doc_markdown)]

pub mod buffers;
pub mod capsules;
mod commands;
mod config;
pub mod connection;
pub mod fabrics;
mod foreign;
pub mod journal;
mod layout;
mod lines;
mod looks;
mod notices;
mod numbers;
pub mod pdu;
// Its first lines have the reason for all calls. Their parameters and pointers are C's; `&raw mut` needs rustc 1.82.
#[allow(
    unsafe_code,
    clippy::borrow_as_ptr,
    clippy::too_many_arguments,
    clippy::trivially_copy_pass_by_ref,
    clippy::undocumented_unsafe_blocks,
    clippy::wildcard_imports
)]
mod raw;
mod refusal;
pub mod responses;
pub mod transfers;

pub use commands::{Completed, Placed};
pub use config::{Attachment, Config, Controller, Namespace};
use layout::{Answer, Blocks, Disk};
pub use lines::{answer_line, event_line, read_configuration, Answered, ConfigError, ConfigFault, Event, LineError};
pub use looks::{status_name, Command, Holder, Need, Queue, Registrant, Reservation};
pub use notices::{Action, Change, HostView, Notices};
use raw::Handle;
use refusal::{checked, refusal};
pub use refusal::{OpenError, Refusal};

/// The version of `nvmesim.h` that this crate is written for.
const VERSION: u32 = 3;

/// The most blocks that a namespace of a script may have, unless the program gets `--any-size`.
pub const SCRIPT_BLOCKS: u64 = 65_536;
/// A limit of a namespace's blocks that allows every size.
pub const ANY_SIZE: u64 = u64::MAX;

/// The result of a fetch.
#[derive(Clone, Copy, Debug, PartialEq, Eq, Hash)]
pub enum Fetched {
    /// A command was fetched.
    Took,
    /// There was none.
    Idle,
}

/// The completion of a command.
#[derive(Clone, Copy, Debug, PartialEq, Eq, Hash)]
pub struct Completion {
    /// The Status Code Type, 0 to 7.
    pub sct: u8,
    /// The Status Code.
    pub sc: u8,
    /// Double word 0.
    pub dw0: u32,
    /// The number of the rule that denied the command, if one did.
    pub denied_by: Option<u8>,
}

impl Completion {
    /// Whether the status is Successful Completion.
    #[must_use]
    pub fn is_success(&self) -> bool {
        (self.sct, self.sc) == (0, 0)
    }

    /// The standard's name of the status.
    #[must_use]
    pub fn name(&self) -> String {
        status_name(self.sct, self.sc)
    }
}

/// The result of an execution.
#[derive(Clone, Copy, Debug, PartialEq, Eq, Hash)]
pub enum Executed {
    /// The command was executed, and its completion posted.
    Posted(Completion),
    /// There is no such command.
    NoSuch,
    /// The completion queue is full; the command waits.
    CqFull,
}

/// The blocks that a program brings from its disk for one command, at the front of a room.
#[derive(Clone, Copy, Debug, Default, PartialEq, Eq)]
pub struct Brought {
    /// The block of the disk that the room begins with.
    pub first: u64,
    /// How many blocks are in the room as the disk has them.
    pub blocks: u64,
    /// Whether a flush of the disk passes.
    pub flushes: bool,
}

/// A subsystem, over blocks of its own, over bytes that live for `'a`, or over a disk of the program. It is closed when
/// it is dropped.
pub struct Subsystem<'a> {
    handle: Handle<'a>,
}

impl Subsystem<'static> {
    /// Opens a subsystem over a copy of the whole blocks of these bytes, 512 each.
    ///
    /// # Errors
    ///
    /// The first fault of the configuration, or [`OpenError::NoMemory`].
    pub fn open(config: &Config, bytes: &[u8]) -> Result<Self, OpenError> {
        opened(config, Blocks::Copied(bytes))
    }

    /// Opens a subsystem over a disk of `blocks` blocks of 512 bytes, which only the program accesses:
    /// [`Subsystem::execute_over`] brings them. Until then each read, write and flush fails.
    ///
    /// # Errors
    ///
    /// The first fault of the configuration, or [`OpenError::NoMemory`].
    pub fn open_brought(config: &Config, blocks: u64) -> Result<Self, OpenError> {
        opened(config, Blocks::Brought(Disk { blocks }))
    }
}

impl<'a> Subsystem<'a> {
    /// Opens a subsystem over these bytes themselves. A Write changes them at once; if they are a file's, sync it when
    /// a Flush was executed, before you return its completion.
    ///
    /// # Errors
    ///
    /// The first fault of the configuration, or [`OpenError::NoMemory`]: the bytes are unchanged.
    pub fn open_lent(config: &Config, bytes: &'a mut [u8]) -> Result<Self, OpenError> {
        opened(config, Blocks::Lent(bytes))
    }

    /// `count` of the borrowed bytes, from `place` on, as the calls so far have left them. `None` if these are not all
    /// borrowed, as in a subsystem over a copy.
    pub fn bytes(&mut self, place: usize, count: usize) -> Option<&[u8]> {
        self.handle.bytes(place, count)
    }

    /// A hint, which changes nothing: a command will soon write `count` of the borrowed bytes, from `place` on. The
    /// processor fetches them meanwhile.
    pub fn prefetch(&self, place: usize, count: usize) {
        self.handle.prefetch(place, count);
    }

    /// The host of a controller stores bytes in its memory, which has 4 MiB from address 0.
    ///
    /// # Errors
    ///
    /// [`Refusal::NoController`], or [`Refusal::Outside`] if some of the bytes are: nothing is stored.
    pub fn store(&mut self, cntlid: u16, address: u64, bytes: &[u8]) -> Result<(), Refusal> {
        done(self.handle.store(cntlid, address, bytes))
    }

    /// The host of a controller writes one of its registers, such as CC (14h) or a doorbell (1000h on). A write at an
    /// offset without a register changes nothing.
    ///
    /// # Errors
    ///
    /// [`Refusal::NoController`].
    pub fn write32(&mut self, cntlid: u16, offset: u64, value: u32) -> Result<(), Refusal> {
        done(self.handle.write32(cntlid, offset, value))
    }

    /// The host of a controller reads one of its registers; 0 at an offset without a register.
    ///
    /// # Errors
    ///
    /// [`Refusal::NoController`].
    pub fn read32(&mut self, cntlid: u16, offset: u64) -> Result<u32, Refusal> {
        let answer = self.handle.read32(cntlid, offset);
        Ok(answer.checked()?.value)
    }

    /// A controller fetches the next command of a submission queue, 0 to 4.
    ///
    /// # Errors
    ///
    /// [`Refusal::NoController`].
    pub fn fetch(&mut self, cntlid: u16, qid: u16) -> Result<Fetched, Refusal> {
        let answer = self.handle.fetch(cntlid, qid).checked()?;
        Ok(if answer.what == TOOK { Fetched::Took } else { Fetched::Idle })
    }

    /// A controller executes the `i`-th of the commands that it has fetched and not executed, from 0.
    ///
    /// # Errors
    ///
    /// [`Refusal::NoController`].
    pub fn execute(&mut self, cntlid: u16, i: usize) -> Result<Executed, Refusal> {
        Ok(self.handle.execute(cntlid, i).checked()?.executed())
    }

    /// The same over blocks of the disk, which are brought in this room: what [`Subsystem::need`] returns, each as the
    /// last command has left it. The room then has what the command wrote: its first blocks, as many as are returned,
    /// belong on the disk.
    ///
    /// # Errors
    ///
    /// [`Refusal::NoController`]; [`Refusal::Outside`] if the disk does not have all blocks that are brought;
    /// [`Refusal::InMemory`] if there is no disk. Nothing has changed then, the room included.
    pub fn execute_over(
        &mut self,
        cntlid: u16,
        i: usize,
        room: &mut [u8],
        brought: Brought,
    ) -> Result<(Executed, u64), Refusal> {
        let Brought { first, blocks, flushes } = brought;
        let over = self.handle.execute_over(layout::Lent::of(room), cntlid, i, first, blocks, flushes);
        Ok((over.answer.checked()?.executed(), over.at_hand))
    }

    /// Power is lost in all of the subsystem, and comes back.
    pub fn power_cycle(&mut self) {
        self.handle.power_cycle();
    }

    /// Loads bytes of the memory of a controller's host, which has 4 MiB from address 0.
    ///
    /// # Errors
    ///
    /// [`Refusal::NoController`], or [`Refusal::Outside`]: the buffer is unchanged.
    pub fn load(&mut self, cntlid: u16, address: u64, bytes: &mut [u8]) -> Result<(), Refusal> {
        checked(self.handle.load(cntlid, address, bytes))
    }

    /// Reads blocks of a namespace, 512 bytes each, from block `slba` on, as the medium has them. No host reads here, so
    /// no reservation is asked.
    ///
    /// # Errors
    ///
    /// [`Refusal::Outside`], also if there is no such namespace, or [`Refusal::NotWhole`]: the buffer is unchanged.
    /// [`Refusal::MediumFault`].
    pub fn read_blocks(&mut self, nsid: u32, slba: u64, bytes: &mut [u8]) -> Result<(), Refusal> {
        checked(self.handle.read_blocks(nsid, slba, bytes))
    }
}

// The numbers of answers, as the headers have them.
const OK: u32 = 0;
const TOOK: u32 = 4;
const POSTED: u32 = 6;
const CQ_FULL: u32 = 8;
const FIRST_REFUSAL: u32 = 16;
const BAD_PDU: u32 = 40;

fn opened<'a>(config: &Config, blocks: Blocks<'_, 'a>) -> Result<Subsystem<'a>, OpenError> {
    let parts = (&config.controllers[..], &config.namespaces[..], &config.attached[..]);
    let (answer, handle) = Handle::open((VERSION, ANY_SIZE), parts, blocks);
    match answer {
        OK => Ok(Subsystem { handle }),
        23 => Err(OpenError::BadId),
        24 => Err(OpenError::BadSize),
        25 => Err(OpenError::TooMany),
        26 => Err(OpenError::DoesNotFit),
        27 => Err(OpenError::NoMemory),
        _ => Err(OpenError::BadVersion),
    }
}

impl Answer {
    fn checked(self) -> Result<Self, Refusal> {
        if self.what < FIRST_REFUSAL {
            Ok(self)
        } else {
            Err(refusal(self.what))
        }
    }

    fn executed(&self) -> Executed {
        match self.what {
            POSTED => Executed::Posted(self.completion()),
            CQ_FULL => Executed::CqFull,
            _ => Executed::NoSuch,
        }
    }

    fn completion(&self) -> Completion {
        Completion { sct: self.sct, sc: self.sc, dw0: self.value, denied_by: (self.rule != 0).then_some(self.rule) }
    }
}

fn done(answer: Answer) -> Result<(), Refusal> {
    answer.checked().map(|_| ())
}
