//! A controller of the subsystem, whose host's memory the target keeps: the way of a command through its queues.

use crate::fault::Outcome;
use crate::numbers::narrow;
use crate::nvme::entry::SubmissionEntry;
use crate::nvme::status::{Status, COMMAND_SEQUENCE, SUCCESS};
use crate::nvme::{
    CREATE_COMPLETION_QUEUE, CREATE_SUBMISSION_QUEUE, DELETE_COMPLETION_QUEUE, DELETE_SUBMISSION_QUEUE, MEMORY_PAGE,
    QUEUES, READ, WRITE,
};
use crate::target::machine::Machine;
use nvmesim::buffers::{self, DataBuffer};
use nvmesim::{Brought, Executed, Need};
use std::borrow::Cow;

/// Offsets of registers.
pub const CAP: u64 = 0x00;
pub const VS: u64 = 0x08;
pub const CC: u64 = 0x14;
pub const CSTS: u64 = 0x1c;
const AQA: u64 = 0x24;
const ASQ: u64 = 0x28;
const ACQ: u64 = 0x30;
/// CC.EN.
pub const ENABLE: u32 = 1;

/// The direction and place of a command's data.
#[derive(Clone, Copy)]
pub enum Data<'d> {
    /// Nowhere: it has none, or keeps the data pointer that it has.
    None,
    /// These go to the controller.
    ToController(&'d [u8]),
    /// This many bytes come from the controller.
    FromController(usize),
}

impl Data<'_> {
    pub fn length(self) -> usize {
        match self {
            Data::None => 0,
            Data::ToController(bytes) => bytes.len(),
            Data::FromController(length) => length,
        }
    }
}

/// The result of a command. Its data are in the memory from `data` on until the next command is executed.
#[derive(Clone, Copy, Debug, PartialEq, Eq)]
pub struct Completed {
    pub status: Status,
    pub(super) dw0: u32,
    pub data: u64,
    /// Whether a rule denied it, so that it has changed nothing.
    pub(super) is_denied: bool,
    /// What it needed of the blocks.
    pub(super) need: Need,
}

impl Completed {
    pub fn without_queue() -> Completed {
        Completed { status: COMMAND_SEQUENCE, dw0: 0, data: 0, is_denied: true, need: Need::Nothing }
    }
}

/// A command that was fetched and not executed. Its place among those changes, and this does not.
#[derive(Clone, Copy, Debug, PartialEq, Eq)]
pub struct Token(u64);

/// A controller, and which queues it has.
pub struct Controller {
    pub cntlid: u16,
    pub host: u128,
    queues: [bool; QUEUES],
    /// The commands that were fetched and not executed, in the order of their fetches, and their queues.
    fetched: Vec<(Token, u16)>,
    next: Token,
    /// How many commands went through its queues.
    pub commands: u64,
}

impl Controller {
    pub fn new(cntlid: u16, host: u128) -> Controller {
        let (queues, fetched) = ([false; QUEUES], Vec::new());
        Controller { cntlid, host, queues, fetched, next: Token(0), commands: 0 }
    }

    pub fn has_queue(&self, qid: u16) -> bool {
        self.queues.get(usize::from(qid)) == Some(&true)
    }

    /// How many commands were fetched and not executed.
    pub fn fetched(&self) -> usize {
        self.fetched.len()
    }

    /// What is forgotten when the controller is reset or power is lost: queues, and what was fetched.
    pub fn forget(&mut self) {
        self.queues = [false; QUEUES];
        self.fetched.clear();
    }

    /// The controller is reset: CC is 0.
    pub fn reset(&mut self, machine: &mut Machine<'_>) -> Outcome<()> {
        self.forget();
        machine.write32(self.cntlid, CC, 0)
    }

    /// Writes CC. Before CC.EN is set, the admin queues get their places and sizes.
    pub fn configure(&mut self, machine: &mut Machine<'_>, value: u32, admin_entries: u16) -> Outcome<()> {
        if value & ENABLE == 0 {
            self.forget();
        } else if !self.has_queue(0) {
            self.place_admin_queues(machine, admin_entries)?;
            self.queues[0] = true;
        }
        machine.write32(self.cntlid, CC, value)
    }

    /// What a host with a bus does before it sets CC.EN, and the PRP list.
    fn place_admin_queues(&self, machine: &mut Machine<'_>, entries: u16) -> Outcome<()> {
        let last = u32::from(entries) - 1;
        let (submission, completion) = (buffers::submission_queue(0), buffers::completion_queue(0));
        for (offset, value) in [(AQA, last << 16 | last), (ASQ, narrow(submission)), (ASQ + 4, 0)] {
            machine.write32(self.cntlid, offset, value)?;
        }
        machine.write32(self.cntlid, ACQ, narrow(completion))?;
        machine.write32(self.cntlid, ACQ + 4, 0)?;
        machine.store(self.cntlid, completion, &[0; MEMORY_PAGE])?;
        let (prp_list, bytes) = buffers::prp_list();
        machine.store(self.cntlid, prp_list, &bytes)
    }

    /// Create I/O Completion Queue and Create I/O Submission Queue, by the admin queue: the first status that is not
    /// success, or success.
    pub fn create_queues(&mut self, machine: &mut Machine<'_>, qid: u16, entries: u16) -> Outcome<Status> {
        let size = (u32::from(entries) - 1) << 16 | u32::from(qid);
        machine.store(self.cntlid, buffers::completion_queue(qid), &[0; MEMORY_PAGE])?;
        let completion = own_entry(CREATE_COMPLETION_QUEUE, buffers::completion_queue(qid), size, 1);
        let made = self.run(machine, 0, &completion, Data::None)?.status;
        if made != SUCCESS {
            return Ok(made);
        }
        let link = u32::from(qid) << 16 | 1;
        let submission = own_entry(CREATE_SUBMISSION_QUEUE, buffers::submission_queue(qid), size, link);
        let made = self.run(machine, 0, &submission, Data::None)?.status;
        if made == SUCCESS {
            self.queues[usize::from(qid)] = true;
        }
        Ok(made)
    }

    /// Delete I/O Submission Queue and Delete I/O Completion Queue: what was fetched from it is dropped.
    pub fn delete_queues(&mut self, machine: &mut Machine<'_>, qid: u16) -> Outcome<()> {
        if !self.has_queue(qid) || !self.has_queue(0) {
            return Ok(());
        }
        self.queues[usize::from(qid)] = false;
        self.run(machine, 0, &own_entry(DELETE_SUBMISSION_QUEUE, 0, u32::from(qid), 0), Data::None)?;
        // What was fetched from it counts until then, in the places of commands.
        self.fetched.retain(|(_, queue)| *queue != qid);
        self.run(machine, 0, &own_entry(DELETE_COMPLETION_QUEUE, 0, u32::from(qid), 0), Data::None)?;
        Ok(())
    }

    /// Executes a command that no blocks have to be brought for: stores it, rings, fetches and executes it, and takes
    /// its completion.
    #[inline]
    pub fn run(
        &mut self,
        machine: &mut Machine<'_>,
        qid: u16,
        entry: &SubmissionEntry,
        data: Data<'_>,
    ) -> Outcome<Completed> {
        let token = match self.submit(machine, qid, entry, data, DataBuffer::AT_ONCE)? {
            Some(token) => token,
            None => return Ok(Completed::without_queue()),
        };
        let need = if is_followed(qid, entry) { self.need(machine, token)? } else { Need::Nothing };
        self.execute(machine, token, need, DataBuffer::AT_ONCE.start(data.length()))
    }

    /// What a fetched command needs of the blocks now.
    pub fn need(&self, machine: &mut Machine<'_>, token: Token) -> Outcome<Need> {
        machine.need(self.cntlid, self.place(token))
    }

    /// Executes a fetched command that needs this, and whose data are at this address; takes its completion.
    pub fn execute(&mut self, machine: &mut Machine<'_>, token: Token, need: Need, data: u64) -> Outcome<Completed> {
        let i = self.place(token);
        let executed = machine.complete(self.cntlid, i)?;
        Ok(self.completed(i, executed, (need, data)))
    }

    /// The same over blocks that are brought in a room. It also returns how many blocks of the room belong on the disk.
    pub fn execute_over(
        &mut self,
        machine: &mut Machine<'_>,
        token: Token,
        (need, data): (Need, u64),
        (room, brought): (&mut [u8], Brought),
    ) -> Outcome<(Completed, u64)> {
        let i = self.place(token);
        let (executed, at_hand) = machine.complete_over(self.cntlid, i, room, brought)?;
        Ok((self.completed(i, executed, (need, data)), at_hand))
    }

    /// The place of a command among those that were fetched. That of one that was dropped is after all of them: there
    /// the subsystem has no command to execute.
    fn place(&self, token: Token) -> usize {
        self.fetched.iter().position(|(it, _)| *it == token).unwrap_or(self.fetched.len())
    }

    /// Places a command with its data; nothing if it was not fetched.
    pub fn submit(
        &mut self,
        machine: &mut Machine<'_>,
        qid: u16,
        entry: &SubmissionEntry,
        data: Data<'_>,
        buffer: DataBuffer,
    ) -> Outcome<Option<Token>> {
        if !self.has_queue(qid) {
            return Ok(None);
        }
        let (at, stored) = stored_data(qid, entry, data, buffer);
        let placed = placed(qid, entry, data, buffer);
        let is_fetched = machine.place(self.cntlid, qid, &placed, (at, &stored))?;
        // A controller that was shut down fetches nothing more until it is reset.
        self.queues[usize::from(qid)] = is_fetched;
        if !is_fetched {
            return Ok(None);
        }
        let token = self.next;
        self.next = Token(token.0 + 1);
        self.fetched.push((token, qid));
        Ok(Some(token))
    }

    /// Stores the data of a command again.
    pub fn place_data(
        &self,
        machine: &mut Machine<'_>,
        qid: u16,
        entry: &SubmissionEntry,
        data: Data<'_>,
        buffer: DataBuffer,
    ) -> Outcome<()> {
        match stored_data(qid, entry, data, buffer) {
            (_, stored) if stored.is_empty() => Ok(()),
            (at, stored) => machine.store(self.cntlid, at, &stored),
        }
    }

    /// The result of the i-th fetched command, which is fetched no more.
    fn completed(&mut self, i: usize, executed: Executed, (need, data): (Need, u64)) -> Completed {
        self.commands += 1;
        let posted = match executed {
            Executed::Posted(completion) => completion,
            Executed::NoSuch | Executed::CqFull => return Completed::without_queue(),
        };
        self.fetched.remove(i);
        let status = Status { sct: posted.sct, sc: posted.sc };
        Completed { status, dw0: posted.dw0, data, is_denied: posted.denied_by.is_some(), need }
    }
}

/// The data that are stored with a command, and their address: its own, or zeros where it may store fewer than its host
/// expects.
fn stored_data<'d>(qid: u16, entry: &SubmissionEntry, data: Data<'d>, buffer: DataBuffer) -> (u64, Cow<'d, [u8]>) {
    match data {
        Data::ToController(bytes) if !bytes.is_empty() => (buffer.start(bytes.len()), Cow::Borrowed(bytes)),
        Data::FromController(length) if length != 0 && !buffers::is_filled(entry.bytes(), qid == 0, length) => {
            (buffer.start(length), Cow::Owned(vec![0; length]))
        }
        _ => (0, Cow::Borrowed(&[])),
    }
}

/// An entry as it goes to the subsystem: a host's has the PRP entries of its data, and one of the target's own those that
/// it has.
fn placed(qid: u16, entry: &SubmissionEntry, data: Data<'_>, buffer: DataBuffer) -> SubmissionEntry {
    let mut placed = *entry.bytes();
    if !matches!(data, Data::None) {
        buffer.place(&mut placed, qid == 0, data.length());
    }
    placed.into()
}

/// Whether the target has to know which blocks a command in memory zeroes, to count them. An admin command, a Read and
/// a Write zero none.
fn is_followed(qid: u16, entry: &SubmissionEntry) -> bool {
    qid != 0 && !matches!(entry.opcode(), READ | WRITE)
}

/// An entry of the target's own.
fn own_entry(opcode: u8, place: u64, dw10: u32, dw11: u32) -> SubmissionEntry {
    // No command of a host has this identifier at the same time: each of these runs to its end.
    let mut entry = SubmissionEntry::new(opcode, 0xfffe, 0).with(dw10, dw11);
    entry.set_prps(place, 0);
    entry
}

#[cfg(test)]
mod tests {
    use super::*;
    use crate::configuration::Configuration;
    use nvmesim::Subsystem;

    /// CC of a controller that is ready.
    const READY: u32 = 4 << 20 | 6 << 16 | ENABLE;

    #[test]
    fn a_command_that_was_dropped_is_not_executed() {
        let text = b"controller 1 host 0xa1\nnamespace 1 blocks 8 shared\nattached 1 1\n";
        let Configuration { config, .. } = Configuration::read(text, 8).unwrap();
        let mut machine = Machine::new(Subsystem::open_brought(&config, 8).unwrap(), None);
        let (mut it, flush, none) = (Controller::new(1, 0xa1), SubmissionEntry::new(0, 7, 1), Data::None);
        it.configure(&mut machine, READY, 8).unwrap();
        for qid in [1, 2] {
            assert_eq!(it.create_queues(&mut machine, qid, 8).unwrap(), SUCCESS);
        }
        let [dropped, kept] =
            [1, 2].map(|qid| it.submit(&mut machine, qid, &flush, none, DataBuffer::AT_ONCE).unwrap().unwrap());
        assert_eq!(it.need(&mut machine, dropped).unwrap(), Need::Flush);
        it.delete_queues(&mut machine, 1).unwrap();
        assert_eq!((it.need(&mut machine, dropped).unwrap(), it.fetched()), (Need::Nothing, 1));
        assert_eq!(it.execute(&mut machine, dropped, Need::Nothing, 0).unwrap(), Completed::without_queue());
        let over = it.execute_over(&mut machine, dropped, (Need::Flush, 0), (&mut [], Brought::default())).unwrap();
        assert_eq!(over, (Completed::without_queue(), 0));
        let brought = Brought { flushes: true, ..Brought::default() };
        let (completed, _) = it.execute_over(&mut machine, kept, (Need::Flush, 0), (&mut [], brought)).unwrap();
        assert_eq!((completed.status, it.fetched()), (SUCCESS, 0));
        it.reset(&mut machine).unwrap();
        assert_eq!(it.need(&mut machine, dropped).unwrap(), Need::Nothing);
        assert_eq!(it.execute(&mut machine, dropped, Need::Nothing, 0).unwrap(), Completed::without_queue());
        let over = it.execute_over(&mut machine, dropped, (Need::Flush, 0), (&mut [], Brought::default())).unwrap();
        assert_eq!(over, (Completed::without_queue(), 0));
    }
}
