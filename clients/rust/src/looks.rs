//! What is seen of a subsystem, and changes nothing.

use crate::layout;
use crate::numbers::joined;
use crate::{checked, raw, Refusal, Subsystem};

/// A queue, as its controller has it.
#[derive(Clone, Copy, Debug, PartialEq, Eq)]
pub struct Queue {
    /// Its address in the memory of the host.
    pub base: u64,
    /// How many entries it has.
    pub size: u16,
    /// The slot of the next command to fetch, or of the first completion that the host has not consumed.
    pub head: u16,
    /// The slot after the last command, or that of the next completion.
    pub tail: u16,
    /// The completion queue: itself, or that of a submission queue's completions.
    pub cqid: u16,
    /// Of a completion queue, the phase tag of the next completion.
    pub phase: bool,
}

/// A command that was fetched and not executed.
#[derive(Clone, Copy, Debug, PartialEq, Eq)]
pub struct Command {
    /// Its submission queue.
    pub qid: u16,
    /// Whether a Preempt and Abort has caught it: it will be aborted.
    pub marked: bool,
    /// Its submission queue entry.
    pub entry: [u8; 64],
}

/// The calls of the medium that the execution of a command may make. Blocks are counted from the first of the medium.
#[derive(Clone, Copy, Debug, PartialEq, Eq)]
pub enum Need {
    /// None.
    Nothing,
    /// Reads of `blocks` blocks, from `first` on: Read and Compare.
    Read {
        /// The first block.
        first: u64,
        /// The number of blocks.
        blocks: u32,
    },
    /// Writes of these blocks: Write.
    Write {
        /// The first block.
        first: u64,
        /// The number of blocks.
        blocks: u32,
    },
    /// Writes of zeros to these blocks: Write Zeroes.
    Zero {
        /// The first block.
        first: u64,
        /// The number of blocks.
        blocks: u32,
    },
    /// One flush: Flush.
    Flush,
}

/// Who holds the reservation of a namespace.
#[derive(Clone, Copy, Debug, PartialEq, Eq)]
pub enum Holder {
    /// Nobody.
    Nobody,
    /// One host, under this type, 1 to 4.
    Host(u8, u128),
    /// Each registrant, under this type, 5 or 6.
    EachRegistrant(u8),
}

/// A host that is registered with a namespace.
#[derive(Clone, Copy, Debug, PartialEq, Eq)]
pub struct Registrant {
    /// Its identifier.
    pub host: u128,
    /// Its reservation key.
    pub key: u64,
}

/// The reservation of a namespace.
#[derive(Clone, Debug, PartialEq, Eq)]
pub struct Reservation {
    /// Who holds it.
    pub holder: Holder,
    /// The registrants, by rising identifier.
    pub registrants: Vec<Registrant>,
    /// The generation counter.
    pub generation: u32,
    /// Whether all this persists through power loss.
    pub ptpl: bool,
    /// The write protection of the namespace: 0 none, 1 write protected, 2 that until a power cycle.
    pub protection: u32,
}

impl Subsystem<'_> {
    /// A submission queue of a controller.
    ///
    /// # Errors
    ///
    /// [`Refusal::NoController`] or [`Refusal::NoQueue`].
    pub fn submission_queue(&mut self, cntlid: u16, qid: u16) -> Result<Queue, Refusal> {
        queue(&self.handle.submission_queue(cntlid, qid))
    }

    /// A completion queue of a controller.
    ///
    /// # Errors
    ///
    /// [`Refusal::NoController`] or [`Refusal::NoQueue`].
    pub fn completion_queue(&mut self, cntlid: u16, qid: u16) -> Result<Queue, Refusal> {
        queue(&self.handle.completion_queue(cntlid, qid))
    }

    /// The commands that a controller has fetched and not executed, in the order of their fetches.
    ///
    /// # Errors
    ///
    /// [`Refusal::NoController`].
    pub fn fetched(&mut self, cntlid: u16) -> Result<Vec<Command>, Refusal> {
        let first = self.handle.fetched(cntlid, 0);
        if first.count == 0 && first.what != NO_SUCH {
            checked(first.what)?;
        }
        Ok((0..first.count).map(|i| command(&self.handle.fetched(cntlid, i))).collect())
    }

    /// What the `i`-th of these commands, from 0, needs of the medium, if it is executed now, or `None` if there is no
    /// such command. Its execution makes no other calls; its completion says which of these were made.
    ///
    /// # Errors
    ///
    /// [`Refusal::NoController`].
    pub fn need(&mut self, cntlid: u16, i: usize) -> Result<Option<Need>, Refusal> {
        let needed = self.handle.needs(cntlid, i);
        if needed.what == NO_SUCH {
            return Ok(None);
        }
        checked(needed.what)?;
        Ok(Some(need(needed)))
    }

    /// Whether a controller is attached to a namespace; false if either does not exist.
    pub fn is_attached(&mut self, cntlid: u16, nsid: u32) -> bool {
        self.handle.is_attached(cntlid, nsid).value == 1
    }

    /// The reservation of a namespace.
    ///
    /// # Errors
    ///
    /// [`Refusal::NoNamespace`].
    pub fn reservation(&mut self, nsid: u32) -> Result<Reservation, Refusal> {
        let hold = self.handle.reservation(nsid);
        checked(hold.what)?;
        let registrants = (0..hold.registrants).map(|i| registrant(&self.handle.registrant(nsid, i))).collect();
        let holder = match (hold.rtype, joined(hold.host_low, hold.host_high)) {
            (0, _) => Holder::Nobody,
            (rtype, 0) => Holder::EachRegistrant(rtype),
            (rtype, host) => Holder::Host(rtype, host),
        };
        Ok(Reservation {
            holder,
            registrants,
            generation: hold.generation,
            ptpl: hold.ptpl,
            protection: hold.protection,
        })
    }
}

/// The number of a call that found no such command.
const NO_SUCH: u32 = 7;

/// The standard's name of a status, or `Unlisted` for one that no command answers.
#[must_use]
pub fn status_name(sct: u8, sc: u8) -> String {
    let mut bytes = [0; 64];
    let length = raw::status_name(sct, sc, &mut bytes);
    String::from_utf8_lossy(&bytes[..length.min(64)]).into_owned()
}

fn queue(seen: &layout::Queue) -> Result<Queue, Refusal> {
    checked(seen.what)?;
    Ok(Queue { base: seen.base, size: seen.size, head: seen.head, tail: seen.tail, cqid: seen.cqid, phase: seen.phase })
}

fn command(seen: &layout::Command) -> Command {
    Command { qid: seen.qid, marked: seen.marked, entry: seen.entry }
}

fn need(layout::Needed { first, blocks, kind, .. }: layout::Needed) -> Need {
    match kind {
        1 => Need::Read { first, blocks },
        2 => Need::Write { first, blocks },
        3 => Need::Zero { first, blocks },
        4 => Need::Flush,
        _ => Need::Nothing,
    }
}

fn registrant(seen: &layout::Registered) -> Registrant {
    Registrant { host: joined(seen.host_low, seen.host_high), key: seen.key }
}
