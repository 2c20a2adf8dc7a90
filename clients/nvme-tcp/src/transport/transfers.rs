//! Memory for the data that a host sends in answer to R2T. The library decides which data are whose.

use crate::numbers::index;
use crate::nvme::ENTRY;
use crate::transport::pdu::Fatal;
use nvmesim::capsules::{self, Capsule, Outcome};
use nvmesim::fabrics::Session;
use nvmesim::responses::Responses;
use nvmesim::transfers::{self, Completed, TAGS};
pub use nvmesim::transfers::{Part, Request};
use nvmesim::OpenError;
use std::mem;

/// The memory for the data of the command with a tag. It is kept for later commands: at most 1 MiB for all tags.
#[derive(Default)]
struct Room {
    bytes: Vec<u8>,
    /// The number of data of the command.
    length: usize,
}

impl Room {
    /// All of it, which has space for the data of the command.
    fn whole(&mut self) -> &mut [u8] {
        if self.bytes.len() < self.length {
            self.bytes.reserve_exact(self.length - self.bytes.len());
            self.bytes.resize(self.length, 0);
        }
        &mut self.bytes
    }
}

/// A command that has all its data.
pub struct Transfer {
    completed: Completed,
    tag: usize,
    /// The memory of its data, or none if they have come in one part.
    bytes: Vec<u8>,
}

impl Transfer {
    pub fn entry(&self) -> [u8; ENTRY] {
        self.completed.entry
    }

    /// Whether the digests of all its data were right.
    pub fn is_sound(&self) -> bool {
        self.completed.is_sound
    }

    /// All its data, the last of which are these.
    pub fn data<'d>(&'d self, last: &'d [u8]) -> &'d [u8] {
        if self.bytes.is_empty() {
            last
        } else {
            &self.bytes[..index(self.completed.length)]
        }
    }
}

/// The commands of a connection that have not got all their data.
pub struct Transfers {
    commands: transfers::Transfers,
    rooms: [Room; TAGS],
}

impl Transfers {
    pub fn new() -> Result<Transfers, OpenError> {
        Ok(Transfers { commands: transfers::Transfers::new()?, rooms: Default::default() })
    }

    /// Takes a capsule, whose command may wait for its data then.
    pub fn take_capsule(&mut self, responses: &mut Responses, session: &Session, capsule: &Capsule) -> Outcome {
        capsules::take(responses, &mut self.commands, session, capsule)
    }

    /// The next command to request data for, if a tag is free.
    pub fn next_request(&mut self) -> Option<Request> {
        let request = self.commands.next_request()?;
        self.rooms[usize::from(request.tag)].length = index(request.length);
        Some(request)
    }

    /// Takes the data of a part; the command, if it has all of them now. Data that have come in one part are not copied.
    pub fn take(&mut self, part: &Part, data: &[u8]) -> Result<Option<Transfer>, Fatal> {
        let tag = usize::from(part.tag);
        match self.rooms.get_mut(tag) {
            Some(room) if data.len() < room.length => {
                let completed = self.commands.store(part, data, room.whole())?;
                Ok(completed.map(|completed| Transfer { completed, tag, bytes: mem::take(&mut room.bytes) }))
            }
            _ => {
                let completed = self.commands.take(part)?;
                Ok(completed.map(|completed| Transfer { completed, tag, bytes: Vec::new() }))
            }
        }
    }

    /// Takes back the memory of a command that has its data.
    pub fn give_back(&mut self, transfer: Transfer) {
        if !transfer.bytes.is_empty() {
            self.rooms[transfer.tag].bytes = transfer.bytes;
        }
    }

    /// The connection ends: all commands are dropped, and no more are taken.
    pub fn end(&mut self) {
        self.commands.end();
    }
}

#[cfg(test)]
mod tests {
    use super::*;
    use crate::numbers::narrow;

    fn part(offset: u32, data: &[u8], is_last: bool) -> Part {
        Part { cid: 0, tag: 0, offset, length: narrow(data.len()), is_last, is_sound: true }
    }

    /// A command of `length` bytes that was asked for them.
    fn asked(length: usize) -> Transfers {
        let mut transfers = Transfers::new().unwrap();
        transfers.commands.begin(&[0; ENTRY], narrow(length)).unwrap();
        assert_eq!(transfers.next_request(), Some(Request { cid: 0, tag: 0, length: narrow(length) }));
        transfers
    }

    #[test]
    fn data_are_collected_in_memory_that_is_kept() {
        let mut transfers = asked(8);
        assert!(transfers.take(&part(4, &[1; 4], false), &[1; 4]).is_err());
        assert!(transfers.take(&part(0, &[1; 4], false), &[1; 4]).unwrap().is_none());
        let whole = transfers.take(&part(4, &[2; 4], true), &[2; 4]).unwrap().unwrap();
        assert_eq!((whole.data(&[2; 4]), whole.is_sound()), (&[1, 1, 1, 1, 2, 2, 2, 2][..], true));
        let place = whole.bytes.as_ptr();
        transfers.give_back(whole);
        transfers.commands.begin(&[0; ENTRY], 6).unwrap();
        transfers.next_request().unwrap();
        assert!(transfers.take(&part(0, &[3; 5], false), &[3; 5]).unwrap().is_none());
        let whole = transfers.take(&part(5, &[4], true), &[4]).unwrap().unwrap();
        assert_eq!((whole.data(&[4]), whole.bytes.as_ptr()), (&[3, 3, 3, 3, 3, 4][..], place));
    }

    #[test]
    fn data_of_one_part_stay_where_they_are() {
        let mut transfers = asked(8);
        let whole = transfers.take(&part(0, &[3; 8], true), &[3; 8]).unwrap().unwrap();
        assert_eq!((whole.data(&[3; 8]), whole.bytes.capacity()), (&[3; 8][..], 0));
        transfers.give_back(whole);
        assert!(transfers.rooms.iter().all(|room| room.bytes.capacity() == 0));
    }

    #[test]
    fn a_part_with_another_tag_takes_no_memory() {
        let mut transfers = asked(8);
        for tag in [1, 7, 8, u16::MAX] {
            assert!(transfers.take(&Part { tag, ..part(0, &[1; 4], false) }, &[1; 4]).is_err());
        }
        assert!(transfers.rooms.iter().all(|room| room.bytes.capacity() == 0));
        transfers.end();
        assert_eq!((transfers.commands.count(), transfers.commands.has(0)), (0, false));
        assert_eq!(transfers.commands.begin(&[0; ENTRY], 8), Err(transfers::Refused::Ended));
    }
}
