//! The run as a recording: a file of frames with the events as they are, of which `nvmetcp expand` makes the script and
//! its transcript. It takes about half of a script's space, and no time for digits.
//!
//! It begins with a line that has its version, and a frame with the beginning of the script. Each further frame is a
//! batch of events: their fields, then the bytes that they have stored. A batch is written before a host hears of its
//! events. So an incomplete last frame was never answered.

pub mod appended;
pub mod expand;
pub mod frame;
pub mod kept;
pub mod lines;
pub mod pipeline;
pub mod run;
pub mod script;

use crate::bytes::{u16_at, u32_at, u64_at};
use crate::configuration::Configuration;
use crate::fault::Fault;
use crate::numbers::to_u64;
use crate::recording::appended::Appended;
use crate::recording::frame::Head;
use crate::recording::pipeline::Piece;
use crate::recording::run::{Event, Events, Run, Synced};
use crate::recording::script::head_of;
use nvmesim::{Completion, Executed, Fetched};
use std::fs::File;
use std::io;

/// What each recording begins with. The number of its version and a line feed follow.
pub const MAGIC: &[u8] = b"nvmetcp recording ";
pub const VERSION: u32 = 1;

/// The first byte of an event: its kind, and what it gave.
const STORED: u8 = 1;
const WROTE32: u8 = 2;
const TOOK: u8 = 3;
const IDLE: u8 = 4;
const POSTED: u8 = 5;
const NO_SUCH: u8 = 6;
const CQ_FULL: u8 = 7;
const POWER_CYCLE: u8 = 8;

/// The fields of an event after its kind, each with its lowest byte first.
struct Fields<'b>(&'b mut Vec<u8>);

impl Fields<'_> {
    fn put(&mut self, event: &Event) {
        match *event {
            Event::Stored { cntlid, address, count } => self.begin(STORED, cntlid).u64(address).u64(to_u64(count)),
            Event::Wrote32 { cntlid, offset, value } => self.begin(WROTE32, cntlid).u64(offset).u32(value),
            Event::Fetched { cntlid, qid, fetched: Fetched::Took } => self.begin(TOOK, cntlid).u16(qid),
            Event::Fetched { cntlid, qid, fetched: Fetched::Idle } => self.begin(IDLE, cntlid).u16(qid),
            Event::Executed { cntlid, i, executed: Executed::NoSuch } => self.begin(NO_SUCH, cntlid).u64(to_u64(i)),
            Event::Executed { cntlid, i, executed: Executed::CqFull } => self.begin(CQ_FULL, cntlid).u64(to_u64(i)),
            Event::Executed { cntlid, i, executed: Executed::Posted(Completion { sct, sc, dw0, denied_by }) } => {
                self.begin(POSTED, cntlid).u64(to_u64(i)).u32(dw0).u8(sct).u8(sc).u8(denied_by.unwrap_or(0))
            }
            Event::PowerCycle => self.u8(POWER_CYCLE),
        };
    }

    fn begin(&mut self, kind: u8, cntlid: u16) -> &mut Self {
        self.u8(kind).u16(cntlid)
    }

    fn u8(&mut self, number: u8) -> &mut Self {
        self.0.push(number);
        self
    }

    fn u16(&mut self, number: u16) -> &mut Self {
        self.0.extend_from_slice(&number.to_le_bytes());
        self
    }

    fn u32(&mut self, number: u32) -> &mut Self {
        self.0.extend_from_slice(&number.to_le_bytes());
        self
    }

    fn u64(&mut self, number: u64) -> &mut Self {
        self.0.extend_from_slice(&number.to_le_bytes());
        self
    }
}

/// Takes the first event of some fields. `None` if there is none.
fn take_event(fields: &mut &[u8]) -> Option<Event> {
    let kind = take(fields, 1)?[0];
    if kind == POWER_CYCLE {
        return Some(Event::PowerCycle);
    }
    let cntlid = u16_at(take(fields, 2)?, 0);
    Some(match kind {
        STORED => {
            let it = take(fields, 16)?;
            Event::Stored { cntlid, address: u64_at(it, 0), count: usize::try_from(u64_at(it, 8)).ok()? }
        }
        WROTE32 => {
            let it = take(fields, 12)?;
            Event::Wrote32 { cntlid, offset: u64_at(it, 0), value: u32_at(it, 8) }
        }
        TOOK | IDLE => {
            let fetched = if kind == TOOK { Fetched::Took } else { Fetched::Idle };
            Event::Fetched { cntlid, qid: u16_at(take(fields, 2)?, 0), fetched }
        }
        POSTED | NO_SUCH | CQ_FULL => {
            let i = usize::try_from(u64_at(take(fields, 8)?, 0)).ok()?;
            Event::Executed { cntlid, i, executed: take_executed(kind, fields)? }
        }
        _ => return None,
    })
}

/// Takes what an execution gave.
fn take_executed(kind: u8, fields: &mut &[u8]) -> Option<Executed> {
    Some(match kind {
        NO_SUCH => Executed::NoSuch,
        CQ_FULL => Executed::CqFull,
        _ => {
            let it = take(fields, 7)?;
            let denied_by = (it[6] != 0).then_some(it[6]);
            Executed::Posted(Completion { dw0: u32_at(it, 0), sct: it[4], sc: it[5], denied_by })
        }
    })
}

/// Takes the first bytes.
fn take<'b>(bytes: &mut &'b [u8], count: usize) -> Option<&'b [u8]> {
    let first = bytes.get(..count)?;
    *bytes = &bytes[count..];
    Some(first)
}

/// Reads the batch of a frame into `events`, which are replaced; whether it is one.
fn read_batch(count: usize, content: &[u8], events: &mut Events) -> bool {
    events.clear();
    let (mut rest, mut stored) = (content, 0_usize);
    for _ in 0..count {
        let event = match take_event(&mut rest) {
            Some(event) => event,
            None => return false,
        };
        if let Event::Stored { count, .. } = event {
            stored = stored.saturating_add(count);
        }
        events.list.push(event);
    }
    events.stored.extend_from_slice(rest);
    stored == rest.len()
}

/// The file of a recording.
pub struct Recording {
    file: Appended,
    /// The head of a frame and the fields of its events, which are written together.
    first: Vec<u8>,
}

impl Recording {
    /// Begins a recording in a file, which is empty.
    pub fn new(file: File, head: &str) -> io::Result<Recording> {
        let mut file = Appended::new(file)?;
        let mut first = [MAGIC, format!("{VERSION}\n").as_bytes()].concat();
        first.extend(Head::new(0, head.as_bytes(), &[]).bytes(to_u64(first.len()))?);
        file.append_both(&first, head.as_bytes())?;
        Ok(Recording { file, first })
    }
}

impl Synced for Recording {
    fn sync(&mut self) -> io::Result<()> {
        self.file.sync()
    }
}

/// Begins to keep a run as a recording, in this file.
pub fn keep(file: File, configuration: &Configuration) -> io::Result<Run> {
    Run::new("recording", Recording::new(file, &head_of(configuration))?, Fault::Recording)
}

/// What a batch is written with: its head, and the fields of its events.
#[derive(Default)]
pub struct Batch {
    head: Head,
    fields: Vec<u8>,
}

impl Piece<Recording> for Events {
    type Made = Batch;

    fn size(&self) -> usize {
        self.length()
    }

    fn make(&self, made: &mut Batch) {
        made.fields.clear();
        self.list.iter().for_each(|event| Fields(&mut made.fields).put(event));
        made.head = Head::new(self.list.len(), &made.fields, &self.stored);
    }

    /// If there are no events, the file gives back disk space that it has reserved.
    fn write(&mut self, made: &Batch, _: Option<&Batch>, recording: &mut Recording) -> io::Result<()> {
        if self.list.is_empty() {
            recording.file.give_back();
            return Ok(());
        }
        let Recording { file, first } = recording;
        first.clear();
        first.extend(made.head.bytes(file.length())?);
        first.extend_from_slice(&made.fields);
        file.append_both(first, &self.stored)?;
        self.clear();
        Ok(())
    }
}

#[cfg(test)]
mod tests {
    use super::*;

    /// Events of each kind.
    fn events() -> Events {
        let most = u16::MAX;
        let posted = |denied_by| Executed::Posted(Completion { sct: 1, sc: 0x8f, dw0: u32::MAX - 1, denied_by });
        let execute = |i, executed| Event::Executed { cntlid: 258, i, executed };
        let list = vec![
            Event::Stored { cntlid: 1, address: u64::MAX, count: 2 },
            Event::Wrote32 { cntlid: most, offset: 1 << 63 | 5, value: 0x1234_5678 },
            Event::Stored { cntlid: most, address: 4096, count: 700 },
            Event::Fetched { cntlid: 2, qid: most, fetched: Fetched::Took },
            Event::Fetched { cntlid: 3, qid: 0, fetched: Fetched::Idle },
            execute(usize::MAX, Executed::NoSuch),
            execute(7, Executed::CqFull),
            execute(0, posted(None)),
            execute(1 << 40, posted(Some(12))),
            Event::PowerCycle,
            Event::Stored { cntlid: 1, address: 0, count: 1 },
        ];
        Events { list, stored: (0..703_usize).map(|at| (at % 251) as u8).collect() }
    }

    /// The content of the frame of a batch, and how many bytes of it are fields.
    fn content_of(events: &Events) -> (Vec<u8>, usize) {
        let mut batch = Batch::default();
        Piece::<Recording>::make(events, &mut batch);
        (([&batch.fields[..], &events.stored]).concat(), batch.fields.len())
    }

    #[test]
    fn batches_are_read_again() {
        let mut read = Events::default();
        for _ in 0..2 {
            assert!(read_batch(11, &content_of(&events()).0, &mut read));
            assert_eq!(read, events());
        }
        assert!(read_batch(0, &[], &mut read) && read == Events::default());
    }

    #[test]
    fn what_is_no_batch_is_refused() {
        let ((content, fields), mut read) = (content_of(&events()), Events::default());
        for cut in 0..content.len() {
            assert!(!read_batch(11, &content[..cut], &mut read), "{cut}");
        }
        assert!(!read_batch(11, &[&content[..], &[0]].concat(), &mut read));
        assert!(!read_batch(10, &content, &mut read) && !read_batch(12, &content, &mut read));
        for kind in [0, POWER_CYCLE + 1, u8::MAX] {
            let wrong = [&content[..fields], &[kind; 30]].concat();
            assert!(!read_batch(12, &wrong, &mut read), "{kind}");
        }
    }
}
