//! Events that the controller reports, log pages, and Abort.

use crate::driver::{placed, Driver, Ticket};
use crate::fault::Fault;
use crate::raw;

/// What an event is about.
#[derive(Clone, Copy, Debug, PartialEq, Eq)]
pub enum EventKind {
    /// Error Status.
    Error,
    /// SMART / Health Status.
    Health,
    /// Namespace Attribute Changed: ask the namespaces again.
    Namespaces,
    /// Firmware Activation Starting.
    Firmware,
    /// Reservation Log Page Available: log page 80h.
    Reservation,
    /// Sanitize Operation Completed.
    Sanitize,
    /// Another one: the fields of the [`Event`] say which.
    Other,
}

/// An event, as double word 0 of the answer to [`Driver::await_event`] describes it.
#[derive(Clone, Copy, Debug, PartialEq, Eq)]
pub struct Event {
    /// What it is about.
    pub kind: EventKind,
    /// Asynchronous Event Type, 0 to 7.
    pub event_type: u8,
    /// Asynchronous Event Information.
    pub info: u8,
    /// The log page that clears the event once it is read: [`Driver::log`].
    pub log_page: u8,
}

impl Event {
    /// The event of this double word 0.
    #[must_use]
    pub fn new(dw0: u32) -> Event {
        let it = raw::event(dw0);
        let kind = match it.kind {
            1 => EventKind::Error,
            2 => EventKind::Health,
            3 => EventKind::Namespaces,
            4 => EventKind::Firmware,
            5 => EventKind::Reservation,
            6 => EventKind::Sanitize,
            _ => EventKind::Other,
        };
        Event { kind, event_type: it.r#type, info: it.info, log_page: it.log_page }
    }
}

impl Driver {
    /// Selects the events that the controller reports, by the bits of the feature Asynchronous Event Configuration: bits 7
    /// to 0 are critical warnings, bit 8 is a changed namespace. After a reset they are the controller's own selection.
    ///
    /// # Errors
    ///
    /// Those of [`Driver::await_event`].
    pub fn configure_events(&mut self, events: u32) -> Result<Ticket, Fault> {
        placed(self.handle.configure_events(events))
    }

    /// Asks for the next event: the answer, whose double word 0 is that of an [`Event`], comes once there is one.
    ///
    /// # Errors
    ///
    /// [`Fault::ActionsPending`], [`Fault::NotUp`], [`Fault::Expired`], [`Fault::NoSlot`], [`Fault::RingFull`] or
    /// [`Fault::NoTicket`].
    pub fn await_event(&mut self) -> Result<Ticket, Fault> {
        placed(self.handle.await_event())
    }

    /// Reads this many double words, 1 to 32,768, of a log page. Its event stays reported if it is retained. A page of
    /// the controller has no namespace: `nsid` is 0 or `u32::MAX` then.
    ///
    /// # Errors
    ///
    /// [`Fault::BadRequest`] for another number of double words. Those of [`Driver::await_event`].
    pub fn log(&mut self, nsid: u32, lid: u8, retain: bool, dwords: u32) -> Result<Ticket, Fault> {
        placed(self.handle.log(nsid, lid, retain, dwords))
    }

    /// Asks the controller to abort a request that waits. The answer has a ticket of its own. Bit 0 of its double word 0 is
    /// 0 if the request was aborted, which is then answered with
    /// [`Status::ABORT_REQUESTED`](crate::Status::ABORT_REQUESTED).
    ///
    /// # Errors
    ///
    /// [`Fault::NotWaiting`] if no such request waits. Those of [`Driver::await_event`].
    pub fn abort(&mut self, ticket: Ticket) -> Result<Ticket, Fault> {
        placed(self.handle.abort(ticket.0))
    }
}
