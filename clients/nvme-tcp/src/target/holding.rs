//! Commands that are held between their fetch and their execution, so that a race can be set up.

use crate::fabrics::association::ConnectionId;
use crate::fault::Outcome;
use crate::nvme::entry::SubmissionEntry;
use crate::nvme::DATASET_MANAGEMENT;
use crate::storage::pending::{Issued, Pending};
use crate::target::controller::Data;
use crate::target::deallocating::only_zeroing;
use crate::target::{Effect, Target};
use nvmesim::buffers::{DataBuffer, MOST_HELD, MOST_HELD_DATA};

/// A command that was fetched and waits to be executed.
pub struct Held {
    pub(super) qid: u16,
    pending: Pending,
    /// The number of its buffer.
    number: usize,
}

impl Target<'_> {
    /// Holds a command after its fetch, if it is among those that can be held: few, with little data, and of Dataset
    /// Management only those with one range.
    pub fn hold(
        &mut self,
        connection: ConnectionId,
        index: usize,
        qid: u16,
        entry: &SubmissionEntry,
        data: Data<'_>,
    ) -> Outcome<bool> {
        let zeroing = match entry.opcode() {
            DATASET_MANAGEMENT => match only_zeroing(entry, data, self.configuration.blocks(entry.namespace_id())) {
                None => return Ok(false),
                zeroing => zeroing,
            },
            _ => None,
        };
        let (opcode, data) = (entry.opcode(), if zeroing.is_some() { Data::FromController(0) } else { data });
        let entry = zeroing.as_ref().unwrap_or(entry);
        let number = match (0..MOST_HELD).find(|number| self.held[index].iter().all(|it| it.number != *number)) {
            Some(number) if data.length() <= MOST_HELD_DATA => number,
            _ => return Ok(false),
        };
        let buffer = DataBuffer::held(number);
        let token = self.controllers[index].submit(&mut self.machine, qid, entry, data, buffer)?;
        if let Some(token) = token {
            let issued = Issued { connection, index, qid, entry: *entry, opcode };
            let pending = Pending::new(issued, token, data, buffer);
            self.held[index].push_back(Held { qid, pending, number });
        }
        Ok(token.is_some())
    }

    /// Has the commands of a controller executed that are held, in the order of their fetches.
    pub fn release(&mut self, index: usize) -> Outcome<()> {
        self.holds[index] = false;
        while let Some(Held { pending, .. }) = self.held[index].pop_front() {
            if self.storage.is_some() {
                self.wait(pending);
            } else {
                self.release_one(index, &pending)?;
            }
        }
        Ok(())
    }

    /// Executes a command that was held, over blocks in memory.
    fn release_one(&mut self, index: usize, pending: &Pending) -> Outcome<()> {
        let (Issued { connection, qid, mut entry, opcode, .. }, data) = (pending.issued, pending.data());
        let watch = self.watch(index, &entry)?;
        let (controller, machine) = (&mut self.controllers[index], &mut self.machine);
        let need = controller.need(machine, pending.token)?;
        let completed = controller.execute(machine, pending.token, need, pending.buffer.start(data.length()))?;
        let answer = self.answer_of(index, qid, &entry, data, completed, watch.as_ref())?;
        let answer = self.kept(answer)?;
        entry.set_opcode(opcode);
        self.effects.push_back(Effect::Answer(connection, entry, answer));
        Ok(())
    }
}
