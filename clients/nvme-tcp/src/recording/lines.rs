//! The lines of events: each is a line of a script, and what it gave is a line of the transcript. The library writes
//! both.

use crate::hashing::Secret;
use crate::recording::run::{Event, Events};
use crate::transport::output::Output;
use nvmesim::{answer_line, event_line, Answered, LineError};
use std::collections::hash_map::{Entry, HashMap};
use std::io;

/// A line has no more bytes, without the digits of those that were stored.
const MOST_OF_LINE: usize = 64;
/// How many events are known at most.
const MOST_KNOWN: usize = 2048;

/// Puts the line of an event, by the library.
fn put_line(event: &nvmesim::Event<'_>, lines: &mut Output) -> Result<(), LineError> {
    let stored = if let nvmesim::Event::Store { bytes, .. } = event { bytes.len() } else { 0 };
    lines.fill(MOST_OF_LINE + 2 * stored, |room| event_line(event, room))
}

/// Puts the line of what an event gave, by the library.
fn put_answer(event: &nvmesim::Event<'_>, answered: Answered, gave: &mut Output) -> Result<(), LineError> {
    gave.fill(MOST_OF_LINE, |room| answer_line(event, &answered, room))
}

/// The lines of events that store nothing, and what they give. These repeat, and to ask the library for each would take
/// longer than the rest.
#[derive(Default)]
struct Known(HashMap<Event, [Output; 2], Secret>);

impl Known {
    /// The texts of an event.
    fn of(&mut self, event: Event) -> Result<&[Output; 2], LineError> {
        if self.0.len() >= MOST_KNOWN && !self.0.contains_key(&event) {
            self.0.clear();
        }
        match self.0.entry(event) {
            Entry::Occupied(known) => Ok(known.into_mut()),
            Entry::Vacant(place) => Ok(place.insert(texts_of(event)?)),
        }
    }
}

/// The texts of an event that stores nothing.
fn texts_of(event: Event) -> Result<[Output; 2], LineError> {
    let (event, answered) = event.said(&[]);
    let mut texts = <[Output; 2]>::default();
    put_line(&event, &mut texts[0])?;
    put_answer(&event, answered, &mut texts[1])?;
    Ok(texts)
}

/// The lines of events, and what they gave.
#[derive(Default)]
pub struct Lines {
    texts: [Output; 2],
    known: Known,
    /// Why there is no line of an event, if there is none.
    fault: Option<LineError>,
}

impl Lines {
    /// Replaces them by those of these events.
    pub fn make(&mut self, events: &Events) {
        let Lines { texts: [lines, gave], known, fault } = self;
        [&mut *lines, &mut *gave].into_iter().for_each(|out| out.sent(out.len()));
        let mut stored = &events.stored[..];
        let put = events.list.iter().try_for_each(|event| {
            if let Event::Stored { count, .. } = event {
                let (bytes, others) = stored.split_at(*count);
                stored = others;
                let (event, answered) = event.said(bytes);
                put_line(&event, lines)?;
                return put_answer(&event, answered, gave);
            }
            let [line, given] = known.of(*event)?;
            lines.put(line.waiting());
            gave.put(given.waiting());
            Ok(())
        });
        *fault = put.err();
    }

    /// The lines of the script.
    pub fn lines(&self) -> io::Result<&[u8]> {
        match self.fault {
            None => Ok(self.texts[0].waiting()),
            Some(fault) => Err(io::Error::new(io::ErrorKind::InvalidData, fault)),
        }
    }

    /// The lines of the transcript, if all events have a line.
    pub fn gave(&self) -> &[u8] {
        self.texts[1].waiting()
    }
}

#[cfg(test)]
mod tests {
    use super::*;
    use nvmesim::{Completion, Executed, Fetched};

    /// An event, its line, and that of what it gave.
    type Said = (Event, String, String);

    fn said(event: Event, line: impl Into<String>, gave: impl Into<String>) -> Said {
        (event, line.into(), gave.into())
    }

    /// Stores of bytes that count on from 0, and their lines.
    fn stores() -> Vec<Said> {
        let mut from = 0_usize;
        let each = [(1, u64::MAX, 2), (u16::MAX, 4096, 1), (1, 0, 1300), (7, 64, 63), (7, 64, 64), (7, 64, 65)];
        let store = |(cntlid, address, count)| {
            let hex: String = (from..from + count).map(|byte| format!("{:02x}", byte as u8)).collect();
            from += count;
            let line = format!("store {cntlid} {address} hex:{hex}");
            said(Event::Stored { cntlid, address, count }, line, format!("stored {cntlid}"))
        };
        each.map(store).into()
    }

    /// Events of each kind but stores, and more than are known at most.
    fn others() -> Vec<Said> {
        let most = u16::MAX;
        let wrote = |cntlid, offset, value| Event::Wrote32 { cntlid, offset, value };
        let fetch = |cntlid, qid, fetched| Event::Fetched { cntlid, qid, fetched };
        let execute = |cntlid, i, executed| Event::Executed { cntlid, i, executed };
        let posted = |sc, denied_by| Executed::Posted(Completion { sct: 1, sc, dw0: 0, denied_by });
        let mut list = vec![
            said(wrote(most, u64::MAX, u32::MAX), "write32 65535 18446744073709551615 4294967295", "wrote32 65535"),
            said(wrote(most, 7, 9), "write32 65535 7 9", "wrote32 65535"),
            said(fetch(2, most, Fetched::Took), "fetch 2 65535", "fetch 2 65535 took"),
            said(fetch(10, 0, Fetched::Idle), "fetch 10 0", "fetch 10 0 idle"),
            said(execute(1, 9, Executed::CqFull), "execute 1 9", "execute 1 9 full"),
            said(execute(1, 10, Executed::NoSuch), "execute 1 10", "execute 1 10 none"),
            said(
                execute(most, 65535, posted(0x8f, Some(12))),
                "execute 65535 65535",
                "execute 65535 65535 posted 1:8f 12",
            ),
            said(Event::PowerCycle, "powercycle", "powercycle"),
        ];
        list.extend((0..99).map(|sc| {
            said(execute(1, 0, posted(sc, None)), "execute 1 0", format!("execute 1 0 posted 1:{sc:02x} 0"))
        }));
        list.extend(
            (0..2 * MOST_KNOWN as u64).map(|at| said(wrote(1, at, 1), format!("write32 1 {at} 1"), "wrote32 1")),
        );
        list
    }

    #[test]
    fn events_have_their_lines() {
        let (mut list, mut lines, mut gave) = (Vec::new(), String::new(), String::new());
        for (event, line, answer) in stores().into_iter().chain(others()) {
            list.push(event);
            lines += &(line + "\n");
            gave += &(answer + "\n");
        }
        let stored: Vec<u8> = (0..=255).cycle().take(1495).collect();
        let mut made = Lines::default();
        for _ in 0..2 {
            made.make(&Events { list: list.clone(), stored: stored.clone() });
            assert_eq!((made.lines().unwrap(), made.gave()), (lines.as_bytes(), gave.as_bytes()));
        }
        assert!(made.known.0.len() <= MOST_KNOWN);
    }

    #[test]
    fn an_event_without_a_line_is_a_fault() {
        let mut made = Lines::default();
        let list = vec![Event::Executed { cntlid: 1, i: 65536, executed: Executed::NoSuch }];
        made.make(&Events { list, stored: Vec::new() });
        assert!(made.lines().is_err());
    }
}
