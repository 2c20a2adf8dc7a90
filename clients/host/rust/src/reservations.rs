//! Reservations of a namespace by this host.

use crate::driver::{placed, Driver, Ticket};
use crate::fault::Fault;

/// RREGA of a Reservation Register, with the keys that it needs.
#[derive(Clone, Copy, Debug, PartialEq, Eq)]
pub enum RegisterAction {
    /// Registers this key.
    Register(u64),
    /// Removes the registration, whose current key is this one, or any if there is none here.
    Unregister(Option<u64>),
    /// Replaces the current key, or any if there is none here, by the new one.
    Replace(Option<u64>, u64),
}

/// CPTPL of a Reservation Register: whether registrations and reservations stay when the power is lost.
#[derive(Clone, Copy, Debug, PartialEq, Eq)]
pub enum Persistence {
    /// As before.
    Unchanged,
    /// They are cleared.
    Cleared,
    /// They stay.
    Kept,
}

/// RACQA of a Reservation Acquire.
#[derive(Clone, Copy, Debug, PartialEq, Eq)]
pub enum AcquireAction {
    /// Acquires the reservation.
    Acquire,
    /// Takes it from the hosts with this key, which are no registrants any more.
    Preempt(u64),
    /// The same, and aborts their commands.
    PreemptAndAbort(u64),
}

/// RRELA of a Reservation Release.
#[derive(Clone, Copy, Debug, PartialEq, Eq)]
pub enum ReleaseAction {
    /// Releases the reservation of this type.
    Release(ReservationType),
    /// Releases it, and removes all registrations.
    Clear,
}

/// RTYPE: what other hosts may do.
#[derive(Clone, Copy, Debug, PartialEq, Eq)]
pub enum ReservationType {
    /// Write Exclusive.
    WriteExclusive,
    /// Exclusive Access.
    ExclusiveAccess,
    /// Write Exclusive - Registrants Only.
    WriteExclusiveRegistrants,
    /// Exclusive Access - Registrants Only.
    ExclusiveAccessRegistrants,
    /// Write Exclusive - All Registrants.
    WriteExclusiveAll,
    /// Exclusive Access - All Registrants.
    ExclusiveAccessAll,
}

impl ReservationType {
    /// Its number in the standard, 1 to 6.
    #[must_use]
    pub fn number(self) -> u8 {
        match self {
            ReservationType::WriteExclusive => 1,
            ReservationType::ExclusiveAccess => 2,
            ReservationType::WriteExclusiveRegistrants => 3,
            ReservationType::ExclusiveAccessRegistrants => 4,
            ReservationType::WriteExclusiveAll => 5,
            ReservationType::ExclusiveAccessAll => 6,
        }
    }
}

impl Driver {
    /// Sets the identifier of this host at the controller, which forgets it at each reset.
    ///
    /// # Errors
    ///
    /// [`Fault::ActionsPending`], [`Fault::NotUp`], [`Fault::Expired`], [`Fault::NoSlot`], [`Fault::RingFull`] or
    /// [`Fault::NoTicket`].
    pub fn set_host_identifier(&mut self, identifier: &[u8; 16]) -> Result<Ticket, Fault> {
        placed(self.handle.set_host_identifier(identifier))
    }

    /// Registers this host with a key, which [`Status::RESERVATION_CONFLICT`](crate::Status::RESERVATION_CONFLICT)
    /// refuses if the current key is another one.
    ///
    /// # Errors
    ///
    /// [`Fault::NoHostIdentifier`] until [`Driver::set_host_identifier`] was answered with success, since the last reset.
    /// What the controller or the namespace forbids, as they answered [`Driver::ask`]: [`Fault::ControllerNotAsked`],
    /// [`Fault::NamespaceNotAsked`], [`Fault::NotSupported`], or why one of them does not suit. Those of
    /// [`Driver::set_host_identifier`].
    pub fn register(&mut self, nsid: u32, action: RegisterAction, persistence: Persistence) -> Result<Ticket, Fault> {
        let (number, current, new) = match action {
            RegisterAction::Register(key) => (0, Some(0), key),
            RegisterAction::Unregister(current) => (1, current, 0),
            RegisterAction::Replace(current, key) => (2, current, key),
        };
        let cptpl = match persistence {
            Persistence::Unchanged => 0,
            Persistence::Cleared => 2,
            Persistence::Kept => 3,
        };
        placed(self.handle.register(nsid, number, current, cptpl, new))
    }

    /// Acquires a reservation of this type with the current key of this host.
    ///
    /// # Errors
    ///
    /// Those of [`Driver::register`].
    pub fn acquire(
        &mut self,
        nsid: u32,
        action: AcquireAction,
        kind: ReservationType,
        key: u64,
    ) -> Result<Ticket, Fault> {
        let (number, preempted) = match action {
            AcquireAction::Acquire => (0, 0),
            AcquireAction::Preempt(preempted) => (1, preempted),
            AcquireAction::PreemptAndAbort(preempted) => (2, preempted),
        };
        placed(self.handle.acquire(nsid, number, kind.number(), key, preempted))
    }

    /// Releases the reservation with the current key of this host.
    ///
    /// # Errors
    ///
    /// Those of [`Driver::register`].
    pub fn release(&mut self, nsid: u32, action: ReleaseAction, key: u64) -> Result<Ticket, Fault> {
        let (number, rtype) = match action {
            ReleaseAction::Release(kind) => (0, kind.number()),
            ReleaseAction::Clear => (1, 0),
        };
        placed(self.handle.release(nsid, number, rtype, key))
    }

    /// Reads this many double words, 1 to 32,768, of the report, by the extended data structure: 64 bytes, and 64 more
    /// for each registrant. It needs no host identifier.
    ///
    /// # Errors
    ///
    /// [`Fault::BadRequest`] for another number of double words. Those of [`Driver::register`] but
    /// [`Fault::NoHostIdentifier`].
    pub fn report(&mut self, nsid: u32, dwords: u32) -> Result<Ticket, Fault> {
        placed(self.handle.report(nsid, dwords))
    }
}
