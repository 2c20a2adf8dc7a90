//! The run that is being kept: the events of the subsystem in their order, and what each gave. The target's thread
//! notes them, batch by batch; other threads write them, as a script or as a recording.

use crate::fault::{Fault, Outcome};
use crate::nvme::ENTRY;
use crate::recording::pipeline::{Piece, Pipeline};
use nvmesim::{Answered, Executed, Fetched};
use std::io;

/// The bytes of a batch, which is written before the next one is complete.
const PIECE: usize = 128 << 10;
/// The bytes of an early batch, if digits have to be made of them: fewer than FEW batches are being written, and the
/// writing threads need work.
pub const EARLY: usize = 32 << 10;
const FEW: u64 = 3;
/// How many bytes an event takes, about, without those that were stored.
const EVENT: usize = 10;
/// The number of calls of `rest` without an event after which the files give back reserved disk space.
const QUIET: u32 = 10;

/// An event, and what it gave.
#[derive(Clone, Copy, Debug, PartialEq, Eq, Hash)]
pub enum Event {
    /// `count` bytes were stored from an address on.
    Stored {
        cntlid: u16,
        address: u64,
        count: usize,
    },
    Wrote32 {
        cntlid: u16,
        offset: u64,
        value: u32,
    },
    Fetched {
        cntlid: u16,
        qid: u16,
        fetched: Fetched,
    },
    Executed {
        cntlid: u16,
        i: usize,
        executed: Executed,
    },
    PowerCycle,
}

impl Event {
    /// It, with the bytes that it has stored, and what it gave.
    pub fn said(self, bytes: &[u8]) -> (nvmesim::Event<'_>, Answered) {
        match self {
            Event::Stored { cntlid, address, .. } => {
                (nvmesim::Event::Store { cntlid, address, bytes }, Answered::Stored)
            }
            Event::Wrote32 { cntlid, offset, value } => {
                (nvmesim::Event::Write32 { cntlid, offset, value }, Answered::Wrote32)
            }
            Event::Fetched { cntlid, qid, fetched } => {
                (nvmesim::Event::Fetch { cntlid, qid }, Answered::Fetched(fetched))
            }
            Event::Executed { cntlid, i, executed } => {
                (nvmesim::Event::Execute { cntlid, i }, Answered::Executed(executed))
            }
            Event::PowerCycle => (nvmesim::Event::PowerCycle, Answered::PowerCycled),
        }
    }
}

/// A batch of events, and the bytes that they have stored, one after the other.
#[derive(Debug, Default, PartialEq, Eq)]
pub struct Events {
    pub(super) list: Vec<Event>,
    pub(super) stored: Vec<u8>,
}

impl Events {
    /// How many bytes they take, about.
    pub fn length(&self) -> usize {
        self.stored.len() + EVENT * self.list.len()
    }

    /// Removes them, and keeps their memory.
    pub fn clear(&mut self) {
        self.list.clear();
        self.stored.clear();
    }
}

/// Files that the disk can be asked to hold.
pub trait Synced {
    fn sync(&mut self) -> io::Result<()>;
}

/// Files that get the batches of a run in their order.
trait Batches {
    fn begin(&mut self, events: &mut Events, is_awaited: bool) -> io::Result<()>;
    fn send(&mut self, events: &mut Events) -> io::Result<()>;
    fn begun(&self) -> u64;
    fn done(&self) -> io::Result<u64>;
    fn wait_for(&self, count: u64) -> io::Result<()>;
    fn sync(&self) -> io::Result<()>;
}

impl<F: Synced + Send + 'static> Batches for Pipeline<Events, F>
where
    Events: Piece<F>,
{
    fn begin(&mut self, events: &mut Events, is_awaited: bool) -> io::Result<()> {
        Pipeline::begin(self, events, is_awaited)
    }

    fn send(&mut self, events: &mut Events) -> io::Result<()> {
        Pipeline::send(self, events)
    }

    fn begun(&self) -> u64 {
        Pipeline::begun(self)
    }

    fn done(&self) -> io::Result<u64> {
        Pipeline::done(self)
    }

    fn wait_for(&self, count: u64) -> io::Result<()> {
        Pipeline::wait_for(self, count)
    }

    fn sync(&self) -> io::Result<()> {
        self.with_files(F::sync)
    }
}

/// A run that is being kept.
pub struct Run {
    /// What goes to the files next.
    events: Events,
    files: Box<dyn Batches + Send>,
    /// What it is if the files can't be written.
    fault: fn(io::Error) -> Fault,
    /// The bytes of an early batch, if there are any.
    early: Option<usize>,
    /// Whether one connection alone is served. All events of its commands are written together, by the target's thread.
    pub is_alone: bool,
    /// How often `rest` was called since the last event, unless the files rest.
    quiet: Option<u32>,
}

impl Run {
    /// Begins to keep a run in files, by two threads of this name.
    pub fn new<F: Synced + Send + 'static>(name: &str, files: F, fault: fn(io::Error) -> Fault) -> io::Result<Run>
    where
        Events: Piece<F>,
    {
        let files = Box::new(Pipeline::<Events, F>::new(name, 2, files)?);
        Ok(Run { events: Events::default(), files, fault, early: None, is_alone: true, quiet: None })
    }

    /// The same run, whose batches may have only this many bytes if the threads need work.
    pub fn early(self, bytes: usize) -> Run {
        Run { early: Some(bytes), ..self }
    }

    pub fn stored(&mut self, cntlid: u16, address: u64, bytes: &[u8]) -> Outcome<()> {
        // These are the data of another command, so no batch has the last events of a command alone.
        let is_early = self.early.map_or(false, |early| self.events.length() >= early);
        if is_early && bytes.len() > ENTRY && !self.is_alone && self.under_way()? < FEW {
            self.begin(false)?;
        }
        self.events.list.push(Event::Stored { cntlid, address, count: bytes.len() });
        self.events.stored.extend_from_slice(bytes);
        if self.events.length() >= PIECE {
            self.begin(false)?;
        }
        Ok(())
    }

    pub fn wrote32(&mut self, cntlid: u16, offset: u64, value: u32) {
        self.events.list.push(Event::Wrote32 { cntlid, offset, value });
    }

    pub fn fetched(&mut self, cntlid: u16, qid: u16, fetched: Fetched) {
        self.events.list.push(Event::Fetched { cntlid, qid, fetched });
    }

    pub fn executed(&mut self, cntlid: u16, i: usize, executed: Executed) {
        self.events.list.push(Event::Executed { cntlid, i, executed });
    }

    pub fn cycled(&mut self) {
        self.events.list.push(Event::PowerCycle);
    }

    /// Hands all events to the system, or begins to. Returns the number of batches that are done once the system has
    /// them. `is_awaited` says that nothing else is done before.
    pub fn begin(&mut self, is_awaited: bool) -> Outcome<u64> {
        if !self.events.list.is_empty() {
            self.quiet = Some(0);
            self.files.begin(&mut self.events, is_awaited).map_err(self.fault)?;
        }
        Ok(self.files.begun())
    }

    /// Has the disk hold all events, and what they gave.
    pub fn sync(&mut self) -> Outcome<()> {
        let begun = self.begin(true)?;
        self.wait_for(begun)?;
        self.files.sync().map_err(self.fault)
    }

    /// Has the files give back room if nothing was written for a while: this is called again and again.
    pub fn rest(&mut self) -> Outcome<()> {
        self.quiet = self.quiet.map(|quiet| quiet + 1);
        if self.quiet.map_or(false, |quiet| quiet >= QUIET) && self.under_way()? == 0 {
            self.quiet = None;
            self.files.send(&mut Events::default()).map_err(self.fault)?;
        }
        Ok(())
    }

    /// How many batches are not done.
    fn under_way(&self) -> Outcome<u64> {
        Ok(self.files.begun() - self.done()?)
    }

    /// The number of batches that are done.
    pub fn done(&self) -> Outcome<u64> {
        self.files.done().map_err(self.fault)
    }

    /// Waits until `count` batches are done.
    pub fn wait_for(&self, count: u64) -> Outcome<()> {
        self.files.wait_for(count).map_err(self.fault)
    }
}
