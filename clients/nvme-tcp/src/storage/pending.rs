//! The way of a command over the disk: it is fetched, waits for the blocks that it needs, if they are not in memory, is
//! executed over them, and is answered when the system has what it wrote.

use super::Owed;
use crate::fabrics::association::ConnectionId;
use crate::fault::Outcome;
use crate::hashing::Counted;
use crate::nvme::entry::SubmissionEntry;
use crate::nvme::status::{COMMAND_SEQUENCE, SUCCESS};
use crate::nvme::{COMPARE, DATASET_MANAGEMENT, READ, WRITE_ZEROES};
use crate::target::answer::Answer;
use crate::target::controller::{Completed, Data, Token};
use crate::target::Target;
use nvmesim::buffers::DataBuffer;
use nvmesim::Need;

/// Force Unit Access, in double word 12 of a command on blocks.
const FORCE_UNIT_ACCESS: u32 = 1 << 30;
/// No more commands of a controller are taken with this many that were fetched, or this many bytes of their data. The
/// subsystem has room for 64, 16 of which may be held.
const MOST_FETCHED: usize = 40;
const MOST_DATA: usize = 1 << 20;
/// The most commands of a controller that were executed and not answered.
const MOST_OPEN: usize = 256;

/// A command of a host.
#[derive(Clone, Copy)]
pub struct Issued {
    pub connection: ConnectionId,
    pub index: usize,
    pub qid: u16,
    /// What is fetched, and the opcode that the host has sent.
    pub entry: SubmissionEntry,
    pub opcode: u8,
}

/// A fetched command that waits for blocks, or for a sync.
pub struct Pending {
    pub issued: Issued,
    pub token: Token,
    /// The data that it has, or how many bytes come from the controller; and their place in the host's memory.
    data: Vec<u8>,
    length: usize,
    pub buffer: DataBuffer,
    /// Whether it was held, so that it comes after those that were held before.
    was_held: bool,
}

impl Pending {
    pub fn new(issued: Issued, token: Token, data: Data<'_>, buffer: DataBuffer) -> Pending {
        let (data, length) = match data {
            Data::ToController(bytes) => (bytes.to_vec(), bytes.len()),
            data => (Vec::new(), data.length()),
        };
        Pending { issued, token, data, length, buffer, was_held: false }
    }

    pub fn data(&self) -> Data<'_> {
        match (self.data.is_empty(), self.length) {
            (false, _) => Data::ToController(&self.data),
            (true, length) => Data::FromController(length),
        }
    }
}

/// The commands that wait, by their numbers.
#[derive(Default)]
pub struct Waiting {
    list: Counted<Pending>,
    next: u64,
    /// How many bytes of data the commands of each controller have.
    bytes: Vec<usize>,
}

impl Waiting {
    /// The number of the next command.
    fn next(&mut self) -> u64 {
        self.next += 1;
        self.next
    }

    fn has_of(&self, connection: ConnectionId) -> bool {
        self.list.values().any(|it| it.issued.connection == connection)
    }

    fn insert(&mut self, id: u64, pending: Pending) {
        let (index, length) = (pending.issued.index, pending.length);
        self.bytes.resize(self.bytes.len().max(index + 1), 0);
        self.bytes[index] += length;
        self.list.insert(id, pending);
    }

    fn remove(&mut self, id: u64) -> Option<Pending> {
        let pending = self.list.remove(&id)?;
        self.bytes[pending.issued.index] -= pending.length;
        Some(pending)
    }

    /// How many bytes of data the commands of a controller have.
    fn bytes_of(&self, index: usize) -> usize {
        self.bytes.get(index).copied().unwrap_or(0)
    }

    /// The first command of a controller that was held.
    fn first_held(&self, index: usize) -> Option<u64> {
        self.list.iter().filter(|(_, it)| it.was_held && it.issued.index == index).map(|(id, _)| *id).min()
    }
}

impl Target<'_> {
    /// Whether a controller may take no command with this opcode until work of the disk ends. Those of other controllers
    /// do not wait for that, except zeroes.
    pub fn is_busy(&self, index: usize, opcode: u8) -> bool {
        let zeroes = matches!(opcode, WRITE_ZEROES | DATASET_MANAGEMENT);
        let storage = match &self.storage {
            Some(storage) => storage,
            None => return zeroes && self.long_zeroes.is_full(),
        };
        storage.open_of(index) >= MOST_OPEN
            || self.controllers[index].fetched() >= MOST_FETCHED
            || self.waiting.bytes_of(index) >= MOST_DATA
            || zeroes && (storage.has_many_zeroes() || self.long_zeroes.is_full())
    }

    /// Whether a connection has commands that will be answered.
    pub fn owes(&self, connection: ConnectionId) -> bool {
        self.waiting.has_of(connection)
            || self.long_zeroes.has_of(connection)
            || self.storage.as_ref().map_or(false, |it| it.owes(connection))
    }

    /// Executes an I/O command over the disk, or has it wait for blocks.
    pub fn io_over_disk(&mut self, issued: Issued, data: Data<'_>) -> Outcome<Option<Answer>> {
        if issued.opcode == DATASET_MANAGEMENT {
            let ticket = self.storage.as_mut().map(|it| it.open(issued.index));
            let answer = self.deallocate(issued.index, issued.qid, &issued.entry, data, ticket)?;
            return Ok(self.owe(ticket, &issued, answer));
        }
        let Issued { index, qid, entry, .. } = issued;
        let token = match self.controllers[index].submit(&mut self.machine, qid, &entry, data, DataBuffer::AT_ONCE)? {
            Some(token) => token,
            None => return Ok(Some(Answer::of(COMMAND_SEQUENCE))),
        };
        let need = self.controllers[index].need(&mut self.machine, token)?;
        let id = self.waiting.next();
        self.storage.iter_mut().for_each(|it| it.read_ahead(index, need));
        if self.storage.as_mut().map_or(true, |it| it.prepare(need, id)) {
            return self.conclude(&issued, token, need, data, DataBuffer::AT_ONCE);
        }
        self.waiting.insert(id, Pending::new(issued, token, data, DataBuffer::AT_ONCE));
        Ok(None)
    }

    /// Has a command that was held wait for its turn.
    pub fn wait(&mut self, pending: Pending) {
        let id = self.waiting.next();
        self.waiting.insert(id, Pending { was_held: true, ..pending });
        self.storage.iter_mut().for_each(|it| it.ready.push_back(id));
    }

    /// The next answer that waits no more, and the command that it is of.
    pub fn next_answer(&mut self) -> Outcome<Option<(ConnectionId, SubmissionEntry, Answer)>> {
        while let Some(storage) = &mut self.storage {
            if let Some(Owed { connection, entry, answer, .. }) = storage.answers.pop_front() {
                return Ok(Some((connection, entry, answer)));
            }
            let id = match storage.ready.pop_front() {
                Some(id) => id,
                None => break,
            };
            if let Some((issued, answer)) = self.advance(id)? {
                let mut entry = issued.entry;
                entry.set_opcode(issued.opcode);
                return Ok(Some((issued.connection, entry, answer)));
            }
        }
        Ok(None)
    }

    /// Takes a command out of those that wait, if it has what it needs now; with what that is.
    fn take_ready(&mut self, id: u64) -> Outcome<Option<(Pending, Need)>> {
        let Target { waiting, controllers, machine, storage, .. } = self;
        let (pending, storage) = match (waiting.list.get(&id), storage) {
            (Some(pending), Some(storage)) => (pending, storage),
            _ => return Ok(None),
        };
        let index = pending.issued.index;
        if pending.was_held && waiting.first_held(index) != Some(id) {
            return Ok(None);
        }
        let need = controllers[index].need(machine, pending.token)?;
        let is_ready = storage.prepare(need, id);
        Ok(if is_ready { waiting.remove(id).map(|it| (it, need)) } else { None })
    }

    /// Executes a command that has waited, if it has what it needs now: its answer, unless that waits too.
    fn advance(&mut self, id: u64) -> Outcome<Option<(Issued, Answer)>> {
        let (pending, need) = match self.take_ready(id)? {
            Some(ready) => ready,
            None => return Ok(None),
        };
        let Pending { issued, token, buffer, was_held, .. } = pending;
        let Target { controllers, machine, .. } = self;
        let index = issued.index;
        if !was_held {
            // All commands that wait share one place for their data.
            controllers[index].place_data(machine, issued.qid, &issued.entry, pending.data(), buffer)?;
        }
        let answer = self.conclude(&issued, token, need, pending.data(), buffer);
        self.forget(id, index, was_held);
        Ok(answer?.map(|answer| (issued, answer)))
    }

    /// A command waits no more. If it was held, the next that was may come.
    fn forget(&mut self, id: u64, index: usize, was_held: bool) {
        if let Some(storage) = &mut self.storage {
            storage.forget(id);
            if was_held {
                storage.ready.extend(self.waiting.first_held(index));
            }
        }
    }

    /// Executes a command whose blocks are there. It has no answer yet if the system does not have what it wrote.
    fn conclude(
        &mut self,
        issued: &Issued,
        token: Token,
        need: Need,
        data: Data<'_>,
        buffer: DataBuffer,
    ) -> Outcome<Option<Answer>> {
        let Issued { index, qid, entry, .. } = issued;
        let is_write = matches!(need, Need::Write { .. } | Need::Zero { .. });
        let ticket = if is_write { self.storage.as_mut().map(|it| it.open(*index)) } else { None };
        let watch = self.watch(*index, entry)?;
        let completed = self.execute_over(*index, token, need, buffer.start(data.length()), ticket)?;
        let answer = self.answer_of(*index, *qid, entry, data, completed, watch.as_ref())?;
        let ticket = ticket.or_else(|| self.storage.as_mut().and_then(|it| it.follow_writes(need, *index)));
        let answer = if ticket.is_some() { self.kept(answer)? } else { answer };
        Ok(self.owe(ticket, issued, answer))
    }

    /// Executes a fetched command over the blocks that it needs, whose data are at this address. What it writes goes to
    /// the disk under this ticket.
    fn execute_over(
        &mut self,
        index: usize,
        token: Token,
        need: Need,
        data: u64,
        ticket: Option<u64>,
    ) -> Outcome<Completed> {
        let Target { machine, controllers, storage, .. } = self;
        let storage = match storage {
            Some(storage) if need != Need::Nothing => storage,
            _ => return controllers[index].execute(machine, token, need, data),
        };
        let brought = storage.bring(need);
        let (completed, at_hand) = controllers[index].execute_over(machine, token, (need, data), brought)?;
        if let Some(ticket) = ticket {
            storage.take(need, at_hand, ticket);
        }
        Ok(completed)
    }

    /// Fetches and executes a command that reads no blocks.
    pub fn run_over(&mut self, index: usize, qid: u16, entry: &SubmissionEntry, ticket: u64) -> Outcome<Completed> {
        let data = Data::FromController(0);
        let token = match self.controllers[index].submit(&mut self.machine, qid, entry, data, DataBuffer::AT_ONCE)? {
            Some(token) => token,
            None => return Ok(Completed::without_queue()),
        };
        let need = self.controllers[index].need(&mut self.machine, token)?;
        self.execute_over(index, token, need, DataBuffer::AT_ONCE.start(0), Some(ticket))
    }

    /// The answer of a command, unless it has a ticket and a write of it is in progress.
    pub fn owe(&mut self, ticket: Option<u64>, issued: &Issued, answer: Answer) -> Option<Answer> {
        let has_write_cache = self.has_write_cache(issued.index);
        let (storage, ticket) = match (&mut self.storage, ticket) {
            (Some(storage), Some(ticket)) => (storage, ticket),
            _ => return Some(answer),
        };
        let is_forced = issued.opcode != DATASET_MANAGEMENT && issued.entry.cdw12() & FORCE_UNIT_ACCESS != 0;
        let has_effect = answer.status == SUCCESS || matches!(issued.opcode, READ | COMPARE);
        let is_synced = has_effect && (is_forced || !has_write_cache);
        let mut entry = issued.entry;
        entry.set_opcode(issued.opcode);
        let owed = Owed { connection: issued.connection, entry, answer, is_synced };
        storage.close(ticket, owed).map(|owed| owed.answer)
    }

    /// Whether writes of a controller may wait in a cache until a Flush: there is one, and its host has left it on.
    fn has_write_cache(&self, index: usize) -> bool {
        self.has_volatile_cache() && self.associations[index].as_ref().map_or(true, |it| it.features.has_write_cache)
    }

    /// Whether there is a volatile write cache: the system's, over an image without `--write-through`.
    pub fn has_volatile_cache(&self) -> bool {
        self.storage.as_ref().map_or(false, |it| !it.options.writes_through)
    }

    /// The commands of a controller that wait are dropped with their queue, or with all queues.
    pub fn drop_waiting(&mut self, index: usize, qid: Option<u16>) {
        let is_dropped = |it: &Pending| it.issued.index == index && qid.map_or(true, |qid| it.issued.qid == qid);
        let mut dropped: Vec<u64> =
            self.waiting.list.iter().filter(|(_, it)| is_dropped(it)).map(|(id, _)| *id).collect();
        dropped.sort_unstable();
        for id in dropped {
            if let Some(pending) = self.waiting.remove(id) {
                self.forget(id, index, pending.was_held);
            }
        }
        let begun = self.long_zeroes.drop(index, qid);
        self.storage.iter_mut().zip(begun).for_each(|(storage, ticket)| storage.leave_pieces(ticket));
    }
}
