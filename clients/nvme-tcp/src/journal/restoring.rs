//! A new subsystem gets what persists of the last one: the commands of the journal are executed again, and power is
//! lost at each start. So its state is that of one run of the subsystem, in which each restart is a power cycle. With a
//! read-only image it is write protected first, also by commands, and the journal's commands on write protection are
//! skipped; they count again in the next target that writes.
//!
//! A checkpoint is made by commands too, and then compared.

use crate::admin::features::PROTECTED;
use crate::bytes::put;
use crate::configuration::Configuration;
use crate::fault::{Fault, Outcome};
use crate::journal::checkpoint::{Checkpoint, NamespaceState};
use crate::journal::record::Event;
use crate::numbers::to_u64;
use crate::nvme::entry::SubmissionEntry;
use crate::nvme::status::SUCCESS;
use crate::nvme::{
    MEMORY_PAGE, MOST_ENTRIES, NAMESPACE_ATTACHMENT, RESERVATION_ACQUIRE, RESERVATION_REGISTER, SET_FEATURES,
    WRITE_PROTECTION,
};
use crate::target::controller::{Controller, Data, ENABLE};
use crate::target::machine::Machine;
use crate::target::Target;
use nvmesim::{Holder, OpenError, Registrant, Subsystem};
use std::error::Error;
use std::fmt;

/// CC of a controller that executes commands of the journal: entries of 64 and of 16 bytes.
const CONFIGURATION: u32 = 4 << 20 | 6 << 16 | ENABLE;
/// The I/O queue of these commands.
const QUEUE: u16 = 1;
/// Namespace Attachment: SEL.
const ATTACH: u32 = 0;
const DETACH: u32 = 1;
/// Reservation Register: RREGA Unregister and Replace, IEKEY, and CPTPL Set PTPL.
const UNREGISTER: u32 = 1;
const REPLACE: u32 = 2;
const IGNORE_KEY: u32 = 1 << 3;
const SET_PTPL: u32 = 3 << 30;

/// Why a replica does not follow a journal.
#[derive(Debug)]
pub enum Unfollowed {
    /// The library refused a call.
    Fault(Fault),
    /// The command of this record, from 0, does not succeed again.
    Record(usize),
}

impl fmt::Display for Unfollowed {
    fn fmt(&self, f: &mut fmt::Formatter<'_>) -> fmt::Result {
        match self {
            Unfollowed::Fault(fault) => fault.fmt(f),
            Unfollowed::Record(number) => write!(f, "record {number} does not succeed again"),
        }
    }
}

impl Error for Unfollowed {}

/// A subsystem whose controllers execute the events of a journal.
struct Replay<'t, 'a> {
    machine: &'t mut Machine<'a>,
    controllers: &'t mut [Controller],
    /// Whether commands on write protection are skipped.
    is_read_only: bool,
}

/// A subsystem that has what persists, and no hosts.
pub struct Replica {
    machine: Machine<'static>,
    controllers: Vec<Controller>,
    nsids: Vec<u32>,
}

impl Replica {
    pub fn new(configuration: &Configuration) -> Result<Replica, OpenError> {
        let config = &configuration.config;
        let subsystem = Subsystem::open_brought(config, configuration.total_blocks())?;
        Ok(Replica {
            machine: Machine::new(subsystem, None),
            controllers: config.controllers.iter().map(|it| Controller::new(it.cntlid(), it.host())).collect(),
            nsids: config.namespaces.iter().map(|it| it.nsid).collect(),
        })
    }

    /// Executes the events of a journal.
    pub fn follow(&mut self, events: &[Event]) -> Result<(), Unfollowed> {
        let Replica { machine, controllers, .. } = self;
        let failed = Replay { machine, controllers, is_read_only: false }.all(events).map_err(Unfollowed::Fault)?;
        failed.map_or(Ok(()), |number| Err(Unfollowed::Record(number)))
    }

    /// What persists now.
    pub fn checkpoint(&mut self) -> Checkpoint {
        let Replica { machine, controllers, nsids } = self;
        let mut replay = Replay { machine, controllers, is_read_only: false };
        Checkpoint(nsids.iter().filter_map(|nsid| replay.state_of(*nsid)).collect())
    }
}

impl Replay<'_, '_> {
    fn all(&mut self, events: &[Event]) -> Outcome<Option<usize>> {
        for (number, event) in events.iter().enumerate() {
            if !self.one(event)? {
                return Ok(Some(number));
            }
        }
        Ok(None)
    }

    fn one(&mut self, event: &Event) -> Outcome<bool> {
        let (cntlid, qid, entry, data) = match event {
            Event::Command { cntlid, qid, entry, data } => (*cntlid, *qid, entry, data),
            Event::Checkpoint(checkpoint) => return self.make(checkpoint),
            Event::Cycle | Event::Start => {
                self.controllers.iter_mut().for_each(Controller::forget);
                self.machine.power_cycle();
                return Ok(true);
            }
        };
        let is_on_protection = qid == 0 && (entry.opcode(), entry.cdw10_low()) == (SET_FEATURES, WRITE_PROTECTION);
        if self.is_read_only && is_on_protection {
            return Ok(true);
        }
        let mut data = data.clone();
        if (qid, entry.opcode()) == (0, NAMESPACE_ATTACHMENT) {
            // A record ends with the last controller of the list.
            data.resize(data.len().max(MEMORY_PAGE), 0);
        }
        self.succeeds(usize::from(cntlid).wrapping_sub(1), qid, entry, &data)
    }

    /// Executes a command of a controller, if it is there; whether it has succeeded.
    fn succeeds(&mut self, index: usize, qid: u16, entry: &SubmissionEntry, data: &[u8]) -> Outcome<bool> {
        let controller = match self.controllers.get_mut(index) {
            Some(controller) => controller,
            None => return Ok(false),
        };
        if !controller.has_queue(0) {
            controller.configure(self.machine, CONFIGURATION, MOST_ENTRIES)?;
        }
        let queue = qid.min(QUEUE);
        if !controller.has_queue(queue) {
            controller.create_queues(self.machine, queue, MOST_ENTRIES)?;
        }
        let completed = controller.run(self.machine, queue, entry, Data::ToController(data))?;
        Ok(completed.status == SUCCESS)
    }

    /// Executes commands of a controller that is attached to a namespace meanwhile; whether all have succeeded.
    fn attached(&mut self, index: usize, nsid: u32, act: impl FnOnce(&mut Self) -> Outcome<bool>) -> Outcome<bool> {
        Ok(self.attach(index, index, nsid, ATTACH)? && act(self)? && self.attach(index, index, nsid, DETACH)?)
    }

    /// Attaches a namespace to a controller, or detaches it, by a command of another; whether it could.
    fn attach(&mut self, issuer: usize, index: usize, nsid: u32, select: u32) -> Outcome<bool> {
        let mut list = vec![0; MEMORY_PAGE];
        put(&mut list, 0, &1u16.to_le_bytes());
        put(&mut list, 2, &self.controllers[index].cntlid.to_le_bytes());
        self.succeeds(issuer, 0, &entry_of(NAMESPACE_ATTACHMENT, nsid, select, 0), &list)
    }

    fn is_attached(&mut self, index: usize, nsid: u32) -> bool {
        self.machine.is_attached(self.controllers[index].cntlid, nsid)
    }

    /// Write protects a namespace, by a controller that is attached to it.
    fn protect(&mut self, index: usize, nsid: u32, protection: u32) -> Outcome<bool> {
        self.succeeds(index, 0, &entry_of(SET_FEATURES, nsid, WRITE_PROTECTION.into(), protection), &[])
    }

    /// What persists of a namespace now; nothing if there is no such namespace.
    fn state_of(&mut self, nsid: u32) -> Option<NamespaceState> {
        let reservation = self.machine.reservation(nsid)?;
        let cntlids = self.controllers.iter().map(|it| it.cntlid);
        let attached = cntlids.filter(|cntlid| self.machine.is_attached(*cntlid, nsid)).collect();
        Some(NamespaceState { nsid, reservation, attached })
    }

    /// Makes the state of a checkpoint in a subsystem that is new; whether it has that state then.
    fn make(&mut self, checkpoint: &Checkpoint) -> Outcome<bool> {
        for state in &checkpoint.0 {
            if !self.make_one(state)? {
                return Ok(false);
            }
            let mut found = self.state_of(state.nsid);
            if let (true, Some(found)) = (self.is_read_only, &mut found) {
                found.reservation.protection = state.reservation.protection;
            }
            if found.as_ref() != Some(state) {
                return Ok(false);
            }
        }
        Ok(true)
    }

    fn make_one(&mut self, state: &NamespaceState) -> Outcome<bool> {
        let (nsid, mut is_made) = (state.nsid, true);
        for index in 0..self.controllers.len() {
            is_made &= !self.is_attached(index, nsid) || self.attach(index, index, nsid, DETACH)?;
        }
        let protection = if self.is_read_only { 0 } else { state.reservation.protection };
        is_made = is_made && self.register_all(state)? && self.acquire(state)?;
        // The reservation denies commands of other hosts.
        let issuer = Self::holder_of(state).and_then(|it| self.index_of(it.host)).unwrap_or(0);
        if protection != 0 {
            is_made &= self.attached(issuer, nsid, |it| it.protect(issuer, nsid, protection))?;
        }
        for cntlid in &state.attached {
            let index = self.controllers.iter().position(|it| it.cntlid == *cntlid);
            is_made = is_made && index.map_or(Ok(false), |index| self.attach(issuer, index, nsid, ATTACH))?;
        }
        Ok(is_made)
    }

    /// The holder of a reservation, or one of the registrants that hold it all.
    fn holder_of(state: &NamespaceState) -> Option<Registrant> {
        let registrants = &state.reservation.registrants;
        match state.reservation.holder {
            Holder::Nobody => None,
            Holder::Host(_, host) => registrants.iter().find(|it| it.host == host).copied(),
            Holder::EachRegistrant(_) => registrants.first().copied(),
        }
    }

    /// Registers the registrants, and again until the generation counter has its value.
    fn register_all(&mut self, state: &NamespaceState) -> Outcome<bool> {
        let (nsid, reservation) = (state.nsid, &state.reservation);
        let persists = if reservation.ptpl { SET_PTPL } else { 0 };
        let replace = entry_of(RESERVATION_REGISTER, nsid, REPLACE | IGNORE_KEY | persists, 0);
        for Registrant { host, key } in &reservation.registrants {
            let is_done = self.by_host(nsid, *host, |it, index| it.register(index, &replace, *key))?;
            if !is_done {
                return Ok(false);
            }
        }
        let (generation, count) = (u64::from(reservation.generation), to_u64(reservation.registrants.len()));
        match reservation.registrants.first() {
            Some(Registrant { host, key }) => {
                let more = raised(generation, count);
                self.by_host(nsid, *host, |it, index| it.repeat(more, index, &replace, *key))
            }
            None if generation == 0 && !reservation.ptpl => Ok(true),
            // A registrant raises the counter, and is removed in the end.
            None => {
                let more = 1 + raised(generation, 2);
                let unregister = entry_of(RESERVATION_REGISTER, nsid, UNREGISTER | IGNORE_KEY, 0);
                self.attached(0, nsid, |it| Ok(it.repeat(more, 0, &replace, 0)? && it.register(0, &unregister, 0)?))
            }
        }
    }

    /// Acquires the reservation for its holder.
    fn acquire(&mut self, state: &NamespaceState) -> Outcome<bool> {
        let rtype = match state.reservation.holder {
            Holder::Nobody => return Ok(true),
            Holder::Host(rtype, _) | Holder::EachRegistrant(rtype) => rtype,
        };
        let Registrant { host, key } = match Self::holder_of(state) {
            Some(holder) => holder,
            None => return Ok(false),
        };
        let acquire = entry_of(RESERVATION_ACQUIRE, state.nsid, u32::from(rtype) << 8, 0);
        let keys = [key.to_le_bytes(), [0; 8]].concat();
        self.by_host(state.nsid, host, |it, index| it.succeeds(index, QUEUE, &acquire, &keys))
    }

    /// The first controller of a host.
    fn index_of(&self, host: u128) -> Option<usize> {
        self.controllers.iter().position(|it| it.host == host)
    }

    /// Executes commands of a controller of this host.
    fn by_host(&mut self, nsid: u32, host: u128, act: impl FnOnce(&mut Self, usize) -> Outcome<bool>) -> Outcome<bool> {
        match self.index_of(host) {
            Some(index) => self.attached(index, nsid, |it| act(it, index)),
            None => Ok(false),
        }
    }

    /// Executes Reservation Register with a new key.
    fn register(&mut self, index: usize, entry: &SubmissionEntry, key: u64) -> Outcome<bool> {
        self.succeeds(index, QUEUE, entry, &[[0; 8], key.to_le_bytes()].concat())
    }

    fn repeat(&mut self, count: u64, index: usize, entry: &SubmissionEntry, key: u64) -> Outcome<bool> {
        let mut done = 0;
        while done != count && self.register(index, entry, key)? {
            done += 1;
        }
        Ok(done == count)
    }
}

impl<'a> Target<'a> {
    /// Executes the events of a journal; the number of the first that fails now, if one does.
    pub fn restore(&mut self, events: &[Event]) -> Outcome<Option<usize>> {
        let failed = self.replay().all(events)?;
        self.follow_attachments();
        Ok(failed)
    }

    fn replay(&mut self) -> Replay<'_, 'a> {
        let Target { machine, controllers, settings, .. } = self;
        Replay { machine, controllers, is_read_only: settings.is_read_only }
    }

    /// Write protects all namespaces; whether it could. Set Features needs an attached controller: a namespace without
    /// one is attached to the first meanwhile.
    pub fn protect(&mut self) -> Outcome<bool> {
        let nsids: Vec<u32> = self.configuration.config.namespaces.iter().map(|it| it.nsid).collect();
        let (mut replay, mut is_done) = (self.replay(), true);
        for nsid in nsids {
            let attached = (0..replay.controllers.len()).find(|index| replay.is_attached(*index, nsid));
            is_done &= match attached {
                Some(index) => replay.protect(index, nsid, PROTECTED)?,
                None => replay.attached(0, nsid, |it| it.protect(0, nsid, PROTECTED))?,
            };
        }
        Ok(is_done)
    }
}

/// How often a generation counter of this value is raised until it has the other: it has 32 bits.
fn raised(to: u64, from: u64) -> u64 {
    (to + (1 << 32) - from) % (1 << 32)
}

fn entry_of(opcode: u8, nsid: u32, dw10: u32, dw11: u32) -> SubmissionEntry {
    SubmissionEntry::new(opcode, 0, nsid).with(dw10, dw11)
}

#[cfg(test)]
mod tests {
    use super::*;
    use crate::journal::record::Event;
    use crate::nvme::RESERVATION_RELEASE;
    use std::collections::BTreeSet;

    const CONFIG: &[u8] = b"controller 1 host 0xa1\ncontroller 2 host 0xb2\ncontroller 3 host 0xa1\n\
                            namespace 1 blocks 64 shared\nnamespace 4 blocks 8 private\nattached 1 1\nattached 2 1\n\
                            attached 3 4\n";

    fn replica() -> Replica {
        Replica::new(&Configuration::read(CONFIG, 72).unwrap()).unwrap()
    }

    /// Numbers that look random.
    struct Draw(u64);

    impl Draw {
        fn below(&mut self, count: u64) -> u64 {
            self.0 = self.0.wrapping_mul(0x5851_f42d_4c95_7f2d).wrapping_add(0x1405_7b7e_f767_814f);
            (self.0 >> 33) % count
        }

        /// A command that changes what persists, if it succeeds.
        fn event(&mut self) -> Event {
            let (cntlid, nsid) = (1 + self.below(3) as u16, [1, 1, 1, 4][self.below(4) as usize]);
            let keys = [self.below(3).to_le_bytes(), self.below(3).to_le_bytes()].concat();
            let ignores_key = self.below(2) as u32 * IGNORE_KEY;
            let (action, rtype) = (self.below(3) as u32, (1 + self.below(6) as u32) << 8);
            let (qid, entry, data) = match self.below(16) {
                0 => return Event::Cycle,
                1..=6 => {
                    let persists = [0, 0, 2 << 30, SET_PTPL][self.below(4) as usize];
                    (1, entry_of(RESERVATION_REGISTER, nsid, action | ignores_key | persists, 0), keys)
                }
                7..=10 => (1, entry_of(RESERVATION_ACQUIRE, nsid, action | rtype, 0), keys),
                11 | 12 => (1, entry_of(RESERVATION_RELEASE, nsid, (action % 2) | rtype, 0), keys),
                13 | 14 => {
                    let mut list = vec![0; MEMORY_PAGE];
                    put(&mut list, 0, &[1, 0, 1 + self.below(3) as u8, 0]);
                    (0, entry_of(NAMESPACE_ATTACHMENT, nsid, action % 2, 0), list)
                }
                _ => (0, entry_of(SET_FEATURES, nsid, WRITE_PROTECTION.into(), action), Vec::new()),
            };
            Event::Command { cntlid, qid, entry, data }
        }
    }

    #[test]
    fn each_state_can_be_made_again() {
        let (mut draw, mut shapes, mut kinds) = (Draw(7), BTreeSet::new(), BTreeSet::new());
        for _ in 0..60 {
            let mut replica = replica();
            for _ in 0..150 {
                let (before, event) = (replica.checkpoint(), draw.event());
                if replica.follow(&[event]).is_err() {
                    assert_eq!(replica.checkpoint(), before, "a command that fails changes nothing");
                    continue;
                }
                let state = replica.checkpoint();
                let found: Vec<_> = state.0.iter().map(kind_of).collect();
                let others = state.0.iter().map(|it| (it.reservation.protection, it.attached.clone()));
                if shapes.insert((found.clone(), others.collect::<Vec<_>>())) {
                    let mut again = self::replica();
                    assert!(again.follow(&[Event::Checkpoint(state.clone())]).is_ok(), "{state:?}");
                    assert_eq!(again.checkpoint(), state);
                    kinds.extend(found);
                }
            }
        }
        // Nobody, one or two registrants, under each type, with and without PTPL.
        assert_eq!(kinds.len(), 2 * (1 + 2 * 7), "{kinds:?}");
    }

    /// How many registrants a reservation has, its type, and whether it persists.
    fn kind_of(state: &NamespaceState) -> (usize, u8, bool) {
        let rtype = match state.reservation.holder {
            Holder::Nobody => 0,
            Holder::Host(rtype, _) | Holder::EachRegistrant(rtype) => rtype,
        };
        (state.reservation.registrants.len(), rtype, state.reservation.ptpl)
    }

    #[test]
    fn a_state_that_can_not_be_made_is_noticed() {
        let is_refused = |states: &[NamespaceState]| {
            let events = [Event::Checkpoint(Checkpoint(states.to_vec()))];
            matches!(replica().follow(&events), Err(error @ Unfollowed::Record(0))
                if error.to_string() == "record 0 does not succeed again")
        };
        let Checkpoint(mut states) = replica().checkpoint();
        states[0].reservation.registrants = vec![Registrant { host: 0xc3, key: 1 }];
        assert!(is_refused(&states));
        states[0].reservation.registrants.clear();
        states[0].reservation.holder = Holder::Host(1, 0xa1);
        assert!(is_refused(&states));
        states[0].reservation.holder = Holder::Nobody;
        states[0].attached = vec![9];
        assert!(is_refused(&states));
    }

    #[test]
    fn generation_counters_have_32_bits() {
        assert_eq!([raised(7, 2), raised(2, 2), raised(0, 2)], [5, 0, (1 << 32) - 2]);
        let mut replica = replica();
        for generation in [2, 3, 5000] {
            let Checkpoint(mut states) = replica.checkpoint();
            states[0].reservation.generation = generation;
            let mut again = self::replica();
            assert!(again.follow(&[Event::Checkpoint(Checkpoint(states.clone()))]).is_ok());
            assert_eq!(again.checkpoint(), Checkpoint(states));
        }
    }
}
