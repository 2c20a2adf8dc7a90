//! The driver itself: it accesses no device. A call records actions, which [`Driver::actions`] takes.

use crate::fault::{Fault, Status};
use crate::numbers::to_usize;
use crate::raw;
use std::time::Duration;

/// The results that are no faults, as `nvmehost.h` numbers them.
const OK: u32 = 0;
const DONE: u32 = 1;
const ABORTED: u32 = 2;
const NOTHING: u32 = 3;
const NEEDS_STATUS: u32 = 4;
const NEEDS_COMPLETION: u32 = 5;
const WAITS: u32 = 6;
const REFUSED: u32 = 25;
const STORE: u32 = 1;

/// The length in bytes of the memory that the controller reaches, from address 0.
pub const WINDOW: usize = 4 << 20;
/// The length in bytes of the shortest buffer of a poll, that of the longest answer.
pub const BUFFER: usize = 128 << 10;

/// The number of a request, which its answer has too.
#[derive(Clone, Copy, Debug, PartialEq, Eq, Hash)]
pub struct Ticket(pub u64);

/// What the program performs for the driver, in order.
#[derive(Clone, Copy, Debug, PartialEq, Eq)]
pub enum Action {
    /// `length` bytes are stored at this address of the window; [`Driver::load`] has them.
    Store {
        /// Its first byte.
        address: u64,
        /// The number of bytes.
        length: usize,
    },
    /// A value is written to the register at this offset.
    Write {
        /// The register.
        offset: u64,
        /// What it gets.
        value: u32,
    },
}

/// The answer to a request.
#[derive(Clone, Copy, Debug, PartialEq, Eq)]
pub enum Outcome {
    /// The controller completed it. Its data are the first `length` bytes of the buffer.
    Done {
        /// The request.
        ticket: Ticket,
        /// How it ended.
        status: Status,
        /// The completion's first double word.
        dw0: u32,
        /// The number of bytes of its data.
        length: usize,
    },
    /// A reset aborted it: it may have been executed.
    Aborted {
        /// The request.
        ticket: Ticket,
    },
}

/// How far a bring-up is.
#[derive(Clone, Copy, Debug, PartialEq, Eq)]
pub enum BringUp {
    /// The driver is up.
    Up,
    /// Perform the actions, wait with [`Driver::status`], and call again.
    NeedsStatus,
    /// Perform the actions, [`Driver::report_completion`], and call again.
    NeedsCompletion,
}

/// CAP: the longest time of an enable or a reset, and the distance of two doorbells in bytes; there are four.
#[derive(Clone, Copy, Debug, PartialEq, Eq)]
pub struct Limits {
    /// CAP.TO, in units of 500 ms.
    pub timeout: Duration,
    /// CAP.DSTRD, in bytes.
    pub stride: u32,
}

/// The place of the next completion of a queue, and its phase tag, bit 16 of its last double word.
#[derive(Clone, Copy, Debug, PartialEq, Eq)]
pub struct NextCompletion {
    /// Its first byte in the window.
    pub address: u64,
    /// The expected tag.
    pub phase: bool,
}

/// Identify Controller. A command transfers at most 2 to the power of `mdts` pages of 4 KiB; 0 is no limit.
#[derive(Clone, Copy, Debug, PartialEq, Eq)]
pub struct Controller {
    /// The highest namespace identifier.
    pub nn: u32,
    /// The controller's identifier.
    pub cntlid: u16,
    /// Its optional NVM commands, a bit for each: ONCS.
    pub oncs: u16,
    /// The longest transfer, as above.
    pub mdts: u8,
    /// Bit 0: it has a volatile write cache.
    pub vwc: u8,
}

/// The proved driver of one controller. [`crate::Port`] does what its calls ask for.
pub struct Driver {
    pub(crate) handle: raw::Handle,
}

fn judged(code: u32) -> Result<(), Fault> {
    if code == OK {
        Ok(())
    } else {
        Err(Fault::from_code(code))
    }
}

pub(crate) fn placed(placed: raw::Placed) -> Result<Ticket, Fault> {
    judged(placed.code).map(|()| Ticket(placed.ticket))
}

impl Driver {
    /// A driver whose first request has this ticket.
    ///
    /// # Errors
    ///
    /// [`Fault::NoMemory`].
    pub fn open(first: Ticket) -> Result<Driver, Fault> {
        let mut handle = raw::Handle::CLOSED;
        judged(handle.open(first.0))?;
        Ok(Driver { handle })
    }

    /// Judges CAP, which the driver needs before a bring-up.
    ///
    /// # Errors
    ///
    /// Why the controller does not suit: [`Fault::Removed`], [`Fault::QueuesTooShort`], [`Fault::NoNvmCommands`] or
    /// [`Fault::PageSize`].
    pub fn capabilities(&mut self, cap: u64) -> Result<Limits, Fault> {
        let it = self.handle.capabilities(cap);
        judged(it.code).map(|()| Limits { timeout: Duration::from_millis(it.timeout_ms.into()), stride: it.stride })
    }

    /// Disables the controller: all requests are aborted.
    ///
    /// # Errors
    ///
    /// [`Fault::ActionsPending`].
    pub fn reset(&mut self) -> Result<(), Fault> {
        judged(self.handle.reset())
    }

    /// Judges CSTS, read this long after the last action: whether it is the awaited one.
    ///
    /// # Errors
    ///
    /// The status will not come: [`Fault::Removed`], [`Fault::Fatal`] or [`Fault::TimedOut`]. [`Fault::NotAwaited`] if
    /// the driver waits for none, [`Fault::NotJudged`] before [`Driver::capabilities`].
    pub fn status(&mut self, csts: u32, elapsed: Duration) -> Result<bool, Fault> {
        match self.handle.status(csts, u64::try_from(elapsed.as_millis()).unwrap_or(u64::MAX)) {
            WAITS => Ok(false),
            code => judged(code).map(|()| true),
        }
    }

    /// Judges CSTS of a controller that is up: if it is not any more, its requests are not answered.
    ///
    /// # Errors
    ///
    /// [`Fault::Removed`], [`Fault::Fatal`], or [`Fault::NotReady`] if the controller has reset itself.
    pub fn health(csts: u32) -> Result<(), Fault> {
        judged(raw::health(csts))
    }

    /// Enables the controller and creates the queues, in several calls.
    ///
    /// # Errors
    ///
    /// [`Fault::ActionsPending`]; [`Fault::NotJudged`], [`Fault::NotDisabled`] or [`Fault::AlreadyUp`] if it is no time
    /// for it; [`Fault::NoAnswer`] or [`Fault::Answered`] if one of the driver's own commands failed.
    pub fn bring_up(&mut self) -> Result<BringUp, Fault> {
        let it = self.handle.bring_up();
        match it.code {
            NEEDS_STATUS => Ok(BringUp::NeedsStatus),
            NEEDS_COMPLETION => Ok(BringUp::NeedsCompletion),
            REFUSED => Err(Fault::Answered(Status { sct: it.sct, sc: it.sc })),
            code => judged(code).map(|()| BringUp::Up),
        }
    }

    /// Reports the next completion of the admin queue to a bring-up that needs it, or zeros if none came in time.
    ///
    /// # Errors
    ///
    /// [`Fault::NotAwaited`].
    pub fn report_completion(&mut self, entry: &[u8; 16]) -> Result<(), Fault> {
        judged(self.handle.report_completion(entry))
    }

    /// Shuts the controller down: [`Driver::status`] judges whether it is.
    ///
    /// # Errors
    ///
    /// [`Fault::ActionsPending`] or [`Fault::NotUp`].
    pub fn shutdown(&mut self) -> Result<(), Fault> {
        judged(self.handle.shutdown())
    }

    /// The time of a request is over. No request is sent before a reset, after which a poll delivers it as aborted, unless
    /// it was answered before.
    ///
    /// # Errors
    ///
    /// [`Fault::NotWaiting`] if no such request waits; [`Fault::ActionsPending`], [`Fault::NotUp`], or
    /// [`Fault::Expired`].
    pub fn expire(&mut self, ticket: Ticket) -> Result<(), Fault> {
        judged(self.handle.expire(ticket.0))
    }

    /// Asks about the controller, namespace 0, or a namespace, 1 to 64. The driver learns from the answer which
    /// requests it may place.
    ///
    /// # Errors
    ///
    /// [`Fault::NsidTooHigh`]; [`Fault::ActionsPending`], [`Fault::NotUp`], [`Fault::Expired`], [`Fault::NoSlot`],
    /// [`Fault::RingFull`] or [`Fault::NoTicket`].
    pub fn ask(&mut self, nsid: u32) -> Result<Ticket, Fault> {
        placed(self.handle.ask(nsid))
    }

    /// Any Identify command. Its answer is judged only if [`Driver::ask`] sent it.
    ///
    /// # Errors
    ///
    /// Those of [`Driver::ask`] but [`Fault::NsidTooHigh`].
    pub fn identify(&mut self, cns: u8, nsid: u32) -> Result<Ticket, Fault> {
        placed(self.handle.identify(cns, nsid))
    }

    /// Reads 1 to 256 blocks of 512 bytes, from block `slba` on.
    ///
    /// # Errors
    ///
    /// What the controller or the namespace forbids, as they answered [`Driver::ask`]: [`Fault::ControllerNotAsked`],
    /// [`Fault::NamespaceNotAsked`], [`Fault::NotSupported`], [`Fault::TooLong`], [`Fault::PastTheEnd`], or why one of
    /// them does not suit. [`Fault::BadRequest`] for another number of blocks. [`Fault::ActionsPending`],
    /// [`Fault::NotUp`], [`Fault::Expired`], [`Fault::NoSlot`], [`Fault::RingFull`] or [`Fault::NoTicket`].
    pub fn read(&mut self, nsid: u32, slba: u64, blocks: u32) -> Result<Ticket, Fault> {
        placed(self.handle.read(nsid, slba, blocks))
    }

    /// Writes 1 to 256 whole blocks of 512 bytes, from block `slba` on.
    ///
    /// # Errors
    ///
    /// Those of [`Driver::read`].
    pub fn write(&mut self, nsid: u32, slba: u64, bytes: &[u8]) -> Result<Ticket, Fault> {
        placed(self.handle.write(nsid, slba, bytes))
    }

    /// Compares 1 to 256 whole blocks of 512 bytes, from block `slba` on: [`Status::COMPARE_FAILURE`] if they differ.
    ///
    /// # Errors
    ///
    /// Those of [`Driver::read`].
    pub fn compare(&mut self, nsid: u32, slba: u64, bytes: &[u8]) -> Result<Ticket, Fault> {
        placed(self.handle.compare(nsid, slba, bytes))
    }

    /// Fills 1 to 65,536 blocks of 512 bytes with zeros, from block `slba` on.
    ///
    /// # Errors
    ///
    /// Those of [`Driver::read`].
    pub fn write_zeroes(&mut self, nsid: u32, slba: u64, blocks: u32) -> Result<Ticket, Fault> {
        placed(self.handle.write_zeroes(nsid, slba, blocks))
    }

    /// Asks for what was written to the namespace to be kept: when the answer is a success, it is.
    ///
    /// # Errors
    ///
    /// Those of [`Driver::read`].
    pub fn flush(&mut self, nsid: u32) -> Result<Ticket, Fault> {
        placed(self.handle.flush(nsid))
    }

    /// Sends the requests that were placed.
    ///
    /// # Errors
    ///
    /// [`Fault::ActionsPending`], [`Fault::NotUp`] or [`Fault::Expired`].
    pub fn ring(&mut self) -> Result<(), Fault> {
        judged(self.handle.ring())
    }

    /// The next answer, if there is one; its data are at the front of the buffer, which has [`BUFFER`] bytes or more.
    ///
    /// # Errors
    ///
    /// [`Fault::Outside`] for a shorter buffer; [`Fault::ActionsPending`]; [`Fault::NotUp`]; [`Fault::UnknownCommand`]
    /// if a completion answers no request: reset the controller then.
    pub fn poll(&mut self, buffer: &mut [u8]) -> Result<Option<Outcome>, Fault> {
        let it = self.handle.poll(buffer);
        let (ticket, status) = (Ticket(it.ticket), Status { sct: it.sct, sc: it.sc });
        match it.code {
            NOTHING => Ok(None),
            DONE => Ok(Some(Outcome::Done { ticket, status, dw0: it.dw0, length: to_usize(it.len) })),
            ABORTED => Ok(Some(Outcome::Aborted { ticket })),
            code => Err(Fault::from_code(code)),
        }
    }

    /// What the controller answered when it was last asked.
    ///
    /// # Errors
    ///
    /// [`Fault::ControllerNotAsked`]; [`Fault::NotIo`] or [`Fault::EntrySize`] if it does not suit the driver.
    pub fn controller(&mut self) -> Result<Controller, Fault> {
        let it = self.handle.controller();
        let facts = Controller { nn: it.nn, cntlid: it.cntlid, oncs: it.oncs, mdts: it.mdts, vwc: it.vwc };
        judged(it.code).map(|()| facts)
    }

    /// The number of blocks, of 512 bytes each, of a namespace that suits the driver, as it was last asked.
    ///
    /// # Errors
    ///
    /// [`Fault::NamespaceNotAsked`]; [`Fault::NotThere`], [`Fault::BlockSize`] or [`Fault::Metadata`] if it does not
    /// suit the driver.
    pub fn namespace(&mut self, nsid: u32) -> Result<u64, Fault> {
        let it = self.handle.namespace(nsid);
        judged(it.code).map(|()| it.blocks)
    }

    /// Takes the actions of the last call, at most 32, which have to be performed in this order before the next call.
    pub fn actions(&mut self) -> impl Iterator<Item = Action> {
        let mut actions = [raw::Action::default(); raw::ACTIONS];
        let count = self.handle.actions(&mut actions);
        actions.into_iter().take(count).map(|it| match it.kind {
            STORE => Action::Store { address: it.at, length: to_usize(it.len) },
            _ => Action::Write { offset: it.at, value: it.value },
        })
    }

    /// Loads bytes of the driver's own window.
    ///
    /// # Errors
    ///
    /// [`Fault::Outside`]: the buffer is unchanged.
    pub fn load(&mut self, address: u64, bytes: &mut [u8]) -> Result<(), Fault> {
        judged(self.handle.load(address, bytes))
    }

    /// The place of the next completion of the Admin Queue, 0, or the I/O queue, 1.
    ///
    /// # Errors
    ///
    /// [`Fault::Outside`] for another queue.
    pub fn next_completion(&mut self, queue: u32) -> Result<NextCompletion, Fault> {
        let it = self.handle.next_completion(queue);
        judged(it.code).map(|()| NextCompletion { address: it.at, phase: it.phase == 1 })
    }

    /// Stores a completion that the controller has posted; the address and length of its data.
    ///
    /// # Errors
    ///
    /// [`Fault::Outside`] for another queue; [`Fault::ActionsPending`].
    pub fn store_completion(&mut self, queue: u32, entry: &[u8; 16]) -> Result<(u64, usize), Fault> {
        let it = self.handle.store_completion(queue, entry);
        judged(it.code).map(|()| (it.at, to_usize(it.len)))
    }

    /// Stores data of the last completion.
    ///
    /// # Errors
    ///
    /// [`Fault::Outside`] or [`Fault::ActionsPending`]: nothing is stored.
    pub fn store_data(&mut self, address: u64, bytes: &[u8]) -> Result<(), Fault> {
        judged(self.handle.store_data(address, bytes))
    }
}
