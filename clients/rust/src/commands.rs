//! A host's turn: a command is placed and later completed, or both at once.

use crate::{layout, refusal, Brought, Completion, Executed, Refusal, Subsystem, FIRST_REFUSAL};

/// A command that was placed.
#[derive(Clone, Copy, Debug, PartialEq, Eq, Hash)]
pub struct Placed {
    /// The address of its entry in the memory of its host.
    pub entry_at: u64,
    /// Its place among the commands that the controller has fetched and not executed.
    pub index: usize,
    /// The tail that was written to the doorbell of its queue.
    pub tail: u32,
}

/// The result of completing a command. If no completion was posted, the numbers are 0.
#[derive(Clone, Copy, Debug, PartialEq, Eq, Hash)]
pub struct Completed {
    /// The result of its execution.
    pub executed: Executed,
    /// Its completion queue entry.
    pub entry: [u8; 16],
    /// The head that was written to the doorbell of the completion queue.
    pub head: u32,
    /// The completion queue.
    pub cqid: u16,
}

impl Completed {
    fn of(completed: layout::Completed, entry: [u8; 16]) -> Result<Self, Refusal> {
        let layout::Completed { answer, head, cqid } = completed;
        Ok(Completed { executed: answer.checked()?.executed(), entry, head, cqid })
    }
}

impl Subsystem<'_> {
    /// The host of a controller places a command at an idle queue: it stores the entry at the tail and the data, if there
    /// are any, at `data_at`, and writes the tail doorbell; the controller fetches exactly this command.
    ///
    /// # Errors
    ///
    /// [`Refusal::NoController`]; [`Refusal::NotReady`]; [`Refusal::NoQueue`]; [`Refusal::Busy`]; [`Refusal::Outside`] if some
    /// of the data are outside the memory; [`Refusal::Overlaps`]. Nothing has happened then.
    #[inline]
    pub fn place(
        &mut self,
        cntlid: u16,
        qid: u16,
        entry: &[u8; 64],
        data_at: u64,
        data: &[u8],
    ) -> Result<Placed, Refusal> {
        let layout::Placed { entry_at, index, tail, what } = self.handle.place(cntlid, qid, entry, data_at, data);
        if what >= FIRST_REFUSAL {
            return Err(refusal(what));
        }
        Ok(Placed { entry_at, index, tail })
    }

    /// Completes the `i`-th of the commands that a controller has fetched and not executed, from 0: it is executed, and
    /// if a completion was posted, the host reads it and writes the head doorbell after it.
    ///
    /// # Errors
    ///
    /// [`Refusal::NoController`]: nothing has changed.
    #[inline]
    pub fn complete(&mut self, cntlid: u16, i: usize) -> Result<Completed, Refusal> {
        let mut entry = [0; 16];
        Completed::of(self.handle.complete(cntlid, i, &mut entry), entry)
    }

    /// The same over blocks of the disk, which are brought as for [`Subsystem::execute_over`]. It also returns how many
    /// of the room's first blocks belong on the disk.
    ///
    /// # Errors
    ///
    /// Those of [`Subsystem::execute_over`].
    pub fn complete_over(
        &mut self,
        cntlid: u16,
        i: usize,
        room: &mut [u8],
        brought: Brought,
    ) -> Result<(Completed, u64), Refusal> {
        let mut entry = [0; 16];
        let (room, it) = (layout::Lent::of(room), brought);
        let over = self.handle.complete_over(room, cntlid, i, it.first, it.blocks, it.flushes, &mut entry);
        Ok((Completed::of(over.completed, entry)?, over.at_hand))
    }

    /// One command from its submission queue entry to its completion queue entry: the host stores it at the tail of the
    /// queue and writes the doorbell, the controller fetches and executes it, and the host reads its completion and
    /// writes the head doorbell. Nothing may wait at these queues.
    ///
    /// # Errors
    ///
    /// Those of [`Subsystem::place`], which has no data here.
    pub fn submit(&mut self, cntlid: u16, qid: u16, entry: &[u8; 64]) -> Result<(Completion, [u8; 16]), Refusal> {
        let mut completion = [0; 16];
        let answer = self.handle.submit(cntlid, qid, entry, &mut completion).checked()?;
        Ok((answer.completion(), completion))
    }
}
