//! What hosts were promised, and whether they got it.

use super::history::{Block, State};
use super::keyring::KeyRing;
use super::protection::Protection;
use super::queue::Completion;
use super::reservations::{entries_of, Registrations};
use super::strayed::Strayed;
use crate::world::{with, SECOND};
use std::cell::RefCell;
use std::collections::{BTreeMap, BTreeSet};

pub const BLOCK: usize = 512;
/// The key of host 0; the others have the next.
pub const KEY: u64 = 0x1000;
/// Statuses after which a write may have been executed: Data Transfer Error, Internal Error, Command Abort Requested,
/// Transient Transport Error, and Write Fault.
const UNSURE: [u16; 5] = [0x04, 0x06, 0x07, 0x22, 0x280];
const CONFLICT: u16 = 0x83;
const COMPARE_FAILURE: u16 = 0x285;

/// What a command does, for the checker.
#[derive(Clone, Debug)]
pub enum Act {
    Write {
        slba: usize,
        values: Vec<u64>,
    },
    Read {
        slba: usize,
        count: usize,
    },
    Compare {
        slba: usize,
        values: Vec<u64>,
    },
    /// All blocks of a namespace.
    Flush {
        slba: usize,
        count: usize,
    },
    /// A command that may change the reservation; `takes` if its success leaves the host as the one that may write, and
    /// `from` if its success takes the registration of another host away.
    Reserve {
        takes: bool,
        from: Option<usize>,
    },
    Register,
    /// It also releases the reservation.
    Unregister,
    Report,
    /// It changes nothing, and has one of these statuses unless something else denies it.
    Wrong {
        wanted: Vec<u16>,
    },
}

impl Act {
    /// Its first block, if it is about blocks.
    fn place(&self) -> Option<usize> {
        match self {
            Act::Write { slba, .. } | Act::Read { slba, .. } | Act::Compare { slba, .. } | Act::Flush { slba, .. } => {
                Some(*slba)
            }
            _ => None,
        }
    }
}

/// A command that was sent.
#[derive(Clone, Debug)]
pub struct Sent {
    pub host: usize,
    pub cntlid: u16,
    pub begun: u64,
    pub act: Act,
    /// The process that it was sent to.
    pub process: usize,
    /// Force Unit Access.
    pub is_forced: bool,
    /// The digest of its data is wrong.
    pub is_spoiled: bool,
}

impl Sent {
    /// Whether it may change who has the reservation.
    fn may_change_holder(&self) -> bool {
        matches!(self.act, Act::Reserve { .. } | Act::Unregister)
    }
}

/// Since when only one host may write.
#[derive(Clone, Copy, Debug)]
struct Fence {
    host: usize,
    since: u64,
}

pub struct Checker {
    /// The blocks of all namespaces, and how many of them are of namespace 1, which alone is reserved and protected.
    pub blocks: Vec<Block>,
    first: usize,
    pub violations: Vec<String>,
    pub writes_through: bool,
    pub sent: u64,
    pub answered: u64,
    pub statuses: BTreeMap<u16, u64>,
    /// Commands without an answer, by their numbers.
    open: BTreeMap<u64, Sent>,
    /// Commands of connections that were lost, with their numbers.
    given_up: Vec<(u64, Sent)>,
    strayed: Strayed,
    next: u64,
    next_value: u64,
    fence: Option<Fence>,
    /// How many commands on the reservation were sent, and which of them was the last when each was.
    reserves: u64,
    reserved_at: BTreeMap<u64, u64>,
    /// When the reservation may have changed last.
    changed: u64,
    pub fenced: u64,
    pub registrations: Registrations,
    /// Whether reservations persist through power loss.
    persists: bool,
    /// The values of the writes that each target has answered: they are in its kept run. And how often it has answered
    /// a command of a controller with this identifier that is in the run as it is.
    pub kept: BTreeMap<usize, Vec<u64>>,
    pub commands: BTreeMap<usize, BTreeMap<(u16, u16), usize>>,
    /// Targets that were killed by hosts, and whether power was lost.
    pub crashes: BTreeMap<usize, bool>,
    /// What may end a connection: cuts of them, and when a power cycle was asked for last.
    pub cuts: BTreeSet<i32>,
    pub cycled: u64,
    /// How many hosts crowd a target with connections that are no queues, and when one has last stopped that.
    pub crowds: u64,
    pub crowded: u64,
    pub protection: Protection,
    pub keys: KeyRing,
    /// The target in whose memory the blocks are, if they are in memory.
    pub memory: Option<usize>,
    /// What never changes, by its name.
    pub same: BTreeMap<&'static str, Vec<u8>>,
}

thread_local! {
    static CHECKER: RefCell<Option<Checker>> = const { RefCell::new(None) };
}

/// Asks the checker. What it keeps is of no process, also if a process's own call comes here.
pub fn check<R>(act: impl FnOnce(&mut Checker) -> R) -> R {
    crate::heap::of_no_process(|| CHECKER.with(|it| act(it.borrow_mut().as_mut().expect("there is a checker"))))
}

pub fn begin(blocks: usize, first: usize, writes_through: bool, persists: bool) {
    let checker = Checker {
        blocks: (0..blocks).map(|_| Block::new()).collect(),
        first,
        violations: Vec::new(),
        writes_through,
        sent: 0,
        answered: 0,
        statuses: BTreeMap::new(),
        open: BTreeMap::new(),
        given_up: Vec::new(),
        strayed: Strayed::default(),
        next: 0,
        next_value: 0,
        fence: None,
        reserves: 0,
        reserved_at: BTreeMap::new(),
        changed: 0,
        fenced: 0,
        registrations: Registrations::new(persists),
        persists,
        kept: BTreeMap::new(),
        commands: BTreeMap::new(),
        crashes: BTreeMap::new(),
        cuts: BTreeSet::new(),
        cycled: 0,
        crowds: 0,
        crowded: 0,
        protection: Protection::default(),
        keys: KeyRing::default(),
        memory: None,
        same: BTreeMap::new(),
    };
    CHECKER.with(|it| *it.borrow_mut() = Some(checker));
}

/// The bytes of a block with a value.
pub fn bytes_of(value: u64) -> [u8; BLOCK] {
    let mut bytes = [0; BLOCK];
    if value != 0 {
        for (at, room) in (0..).zip(bytes.chunks_exact_mut(8)) {
            room.copy_from_slice(&word(value, at).to_le_bytes());
        }
    }
    bytes
}

fn word(value: u64, at: u64) -> u64 {
    if at == 0 {
        value
    } else {
        (value ^ at << 40).wrapping_mul(0x9e37_79b9_7f4a_7c15)
    }
}

/// The value of a block, if all of it has one.
pub fn value_of(bytes: &[u8]) -> Option<u64> {
    let mut first = [0; 8];
    first.copy_from_slice(&bytes[..8]);
    let value = u64::from_le_bytes(first);
    (bytes_of(value)[..] == *bytes).then_some(value)
}

fn now() -> u64 {
    with(|it| it.now)
}

impl Checker {
    pub fn violate(&mut self, text: String) {
        with(|it| it.note(&format!("VIOLATION {text}")));
        if self.violations.len() < 8 {
            self.violations.push(text);
        }
    }

    /// Values that no block has had.
    pub fn values(&mut self, count: usize) -> Vec<u64> {
        self.next_value += count as u64;
        (self.next_value - count as u64 + 1..=self.next_value).collect()
    }

    /// The newest value of a block that was answered, more or less.
    pub fn newest(&self, block: usize) -> u64 {
        self.blocks[block].versions.last().map_or(0, |it| it.value)
    }

    /// A command is sent: its number.
    pub fn begin(&mut self, sent: Sent) -> u64 {
        self.next += 1;
        if let (Act::Write { slba, values }, false) = (&sent.act, self.is_void(&sent)) {
            for (block, value) in (*slba..).zip(values) {
                self.blocks[block].begin(self.next, *value, sent.begun);
            }
        }
        self.begin_reserve(&sent);
        self.sent += 1;
        self.open.insert(self.next, sent);
        self.next
    }

    fn begin_reserve(&mut self, sent: &Sent) {
        if matches!(sent.act, Act::Reserve { .. } | Act::Register | Act::Unregister) {
            with(|it| it.note(&format!("path {} sends command {}: {:?}", sent.cntlid, self.next, sent.act)));
        }
        match sent.act {
            Act::Reserve { from, .. } => {
                self.fence = None;
                self.reserves += 1;
                self.reserved_at.insert(self.next, self.reserves);
                from.into_iter().for_each(|it| self.registrations.take(it, self.next, sent.begun));
            }
            Act::Unregister => {
                (self.fence, self.reserves) = (None, self.reserves + 1);
                self.registrations.take(sent.host, self.next, sent.begun);
            }
            Act::Register => self.registrations.register(sent.host, self.next, sent.begun),
            _ => (),
        }
    }

    /// The host that has the reservation, if that is known.
    pub fn holder(&self) -> Option<usize> {
        self.fence.map(|it| it.host)
    }

    /// When the oldest command began that may still be answered.
    fn oldest(&self) -> u64 {
        self.open.values().map(|it| it.begun).min().unwrap_or(u64::MAX)
    }

    /// A command is answered; whether that promises what a crash may not take.
    pub fn answer(&mut self, number: u64, completion: &Completion) -> bool {
        let sent = if let Some(sent) = self.open.remove(&number) {
            sent
        } else {
            self.violate(format!("command {number} is answered twice"));
            return false;
        };
        let is_reserve = matches!(sent.act, Act::Register | Act::Unregister | Act::Reserve { .. });
        let lasts = is_reserve || matches!(sent.act, Act::Flush { .. }) || sent.is_forced;
        self.judge(&sent, number, completion);
        lasts && completion.status == 0
    }

    fn judge(&mut self, sent: &Sent, number: u64, completion: &Completion) {
        self.answered += 1;
        *self.statuses.entry(completion.status).or_default() += 1;
        let is_done = completion.status == 0;
        self.judge_failure(sent, completion.status);
        if completion.status == CONFLICT && sent.act.place().map_or(false, |it| it >= self.first) {
            self.violate(format!("a namespace that nobody has reserved has a conflict: {sent:?}"));
        }
        if matches!(sent.act, Act::Read { .. } | Act::Compare { .. } | Act::Flush { .. } | Act::Report) && is_done {
            let commands = self.commands.entry(sent.process).or_default();
            *commands.entry((sent.cntlid, completion.cid)).or_default() += 1;
        }
        match &sent.act {
            Act::Write { .. } | Act::Read { .. } | Act::Compare { .. } | Act::Flush { .. } if self.is_void(sent) => (),
            Act::Write { .. } if sent.is_spoiled && is_done => {
                self.violate(format!("a write succeeds whose digest is wrong: {sent:?}"));
            }
            Act::Write { slba, values } => self.wrote(sent, number, (*slba, values), completion.status),
            Act::Read { slba, count } if is_done => self.has_read(sent, *slba, *count, &completion.data),
            Act::Compare { slba, values } if is_done => self.saw(sent, *slba, values),
            Act::Compare { .. } if completion.status == COMPARE_FAILURE => (),
            Act::Flush { slba, count } if is_done => {
                self.blocks[*slba..slba + count].iter_mut().for_each(|it| it.flush(sent.begun));
            }
            Act::Reserve { takes, from } => self.reserved(sent, number, (*takes, *from), completion.status),
            Act::Register => self.registered(number, completion.status, true),
            Act::Unregister => {
                self.registered(number, completion.status, true);
                self.note_change(completion.status);
            }
            Act::Report if is_done => self.reported(sent, &completion.data),
            Act::Wrong { wanted } => self.judge_wrong(sent, wanted, completion),
            _ => (),
        }
    }

    /// A command that registers a host, or takes a registration away, is answered.
    fn registered(&mut self, number: u64, status: u16, is_certain: bool) {
        match status {
            0 => self.registrations.bound(number, now(), is_certain),
            status if UNSURE.contains(&status) => (),
            _ => self.registrations.deny(number),
        }
    }

    /// A command that changes the reservation is answered.
    fn note_change(&mut self, status: u16) {
        if status == 0 || UNSURE.contains(&status) {
            self.changed = now();
        }
    }

    /// A host has a reservation, unless another command may have changed that since this one was sent, or still may.
    fn reserved(&mut self, sent: &Sent, number: u64, (takes, from): (bool, Option<usize>), status: u16) {
        // A host that preempts itself may stay.
        self.registered(number, status, from != Some(sent.host));
        let is_last = self.reserved_at.remove(&number) == Some(self.reserves);
        let others = self.open.values().chain(self.given_up.iter().map(|(_, it)| it)).any(Sent::may_change_holder);
        if takes && status == 0 && is_last && !others && self.changed <= sent.begun {
            self.fence = Some(Fence { host: sent.host, since: now() });
        }
        self.note_change(status);
    }

    /// A Reservation Report is answered.
    fn reported(&mut self, sent: &Sent, data: &[u8]) {
        let entries = entries_of(data, KEY);
        if let Err(text) = self.registrations.judge(&entries, sent.begun, now()) {
            self.violate(format!("a report is wrong: {text}"));
        }
        if let Some(fence) = self.fence.filter(|it| it.since < sent.begun) {
            if entries.iter().any(|it| it.is_holder != (it.host == fence.host)) {
                self.violate(format!("host {} has the reservation, and the report says {entries:?}", fence.host));
            }
        }
    }

    /// Power may be lost in the subsystem from now on, which keeps what persists; the number of that.
    pub fn lose_reservations(&mut self) -> u64 {
        if !self.persists {
            self.fence = None;
        }
        self.registrations.lose(now())
    }

    /// It was lost by now, for sure or perhaps.
    pub fn has_lost_reservations(&mut self, number: u64, is_certain: bool) {
        if !self.persists {
            (self.fence, self.changed) = (None, now());
        }
        self.registrations.has_lost(number, if is_certain { now() } else { u64::MAX }, is_certain);
    }

    fn wrote(&mut self, sent: &Sent, number: u64, (slba, values): (usize, &[u64]), status: u16) {
        let (mut end, is_first) = (now(), slba < self.first);
        if let Some(fence) = self.fence.filter(|it| is_first && it.host != sent.host) {
            if status == 0 && sent.begun > fence.since {
                let text = format!("a write of host {} succeeds after its fence was answered: {sent:?}", sent.host);
                self.violate(text);
            }
            self.fenced += u64::from(status == CONFLICT);
            end = end.min(fence.since);
        }
        if status == 0 && (self.protection.is_read_only || is_first && self.protection.covers(sent.begun)) {
            self.violate(format!("a write succeeds after the write protection was answered: {sent:?}"));
        }
        let state = match status {
            0 => State::Done,
            status if UNSURE.contains(&status) && !sent.is_spoiled => State::Maybe,
            _ => State::Denied,
        };
        if status == 0 && values[0] != 0 {
            self.kept.entry(sent.process).or_default().extend(values);
        }
        let (oldest, is_durable) = (self.oldest(), self.writes_through || sent.is_forced);
        for it in &mut self.blocks[slba..slba + values.len()] {
            it.answer(number, end, state, is_durable);
            it.prune(oldest);
        }
    }

    fn has_read(&mut self, sent: &Sent, slba: usize, count: usize, data: &[u8]) {
        if data.len() != count * BLOCK {
            return self.violate(format!("a read of {count} blocks has {} bytes", data.len()));
        }
        let values: Vec<Option<u64>> = data.chunks_exact(BLOCK).map(value_of).collect();
        if let Some(at) = values.iter().position(Option::is_none) {
            return self.violate(format!("block {} is neither old nor new", slba + at));
        }
        self.saw(sent, slba, &values.into_iter().flatten().collect::<Vec<_>>());
    }

    /// A command of a host has seen these values.
    fn saw(&mut self, sent: &Sent, slba: usize, values: &[u64]) {
        let (end, oldest) = (now(), self.oldest());
        for (block, value) in (slba..).zip(values) {
            if let Err(text) = self.blocks[block].read(*value, sent.begun, end) {
                self.violate(format!("block {block}: {text}"));
            }
            self.blocks[block].prune(oldest);
        }
    }

    /// The connection of a command was lost.
    pub fn give_up(&mut self, number: u64) {
        let sent = match self.open.remove(&number) {
            Some(sent) => sent,
            None => return,
        };
        if let Act::Write { slba, values } = &sent.act {
            let state = if sent.is_spoiled { State::Denied } else { State::Maybe };
            for it in &mut self.blocks[*slba..slba + values.len()] {
                it.answer(number, u64::MAX, state, false);
            }
        }
        self.reserved_at.remove(&number);
        self.given_up.push((number, sent));
    }

    /// Blocks may have these bytes from now on, by a fault of the disk.
    pub fn stray(&mut self, slba: usize, bytes: &[u8]) {
        self.next = self.strayed.add(&mut self.blocks, slba, bytes, self.next, now());
    }

    /// Nothing that was given up is executed from now on: of this controller, or of all.
    pub fn bound(&mut self, cntlid: Option<u16>) {
        let end = now();
        self.bound_protection(cntlid);
        if cntlid.is_none() {
            self.strayed.bound(&mut self.blocks, end);
        }
        let (over, rest): (Vec<_>, Vec<_>) =
            self.given_up.drain(..).partition(|(_, it)| cntlid.map_or(true, |cntlid| it.cntlid == cntlid));
        self.given_up = rest;
        for (number, sent) in over {
            self.changed = if sent.may_change_holder() { end } else { self.changed };
            if let Act::Write { slba, values } = &sent.act {
                for it in &mut self.blocks[*slba..slba + values.len()] {
                    it.bound(number, end);
                }
            }
            self.registrations.bound(number, end, false);
        }
    }

    /// Whether a target may have closed a connection since a time to make room, before its Connect.
    pub fn was_crowded(&self, since: u64) -> bool {
        self.crowds != 0 || self.crowded + SECOND > since
    }

    /// All that was answered is on the disk.
    pub fn sync(&mut self) {
        let now = now();
        self.blocks.iter_mut().for_each(|it| it.flush(now));
    }

    pub fn lose_power(&mut self) {
        let (now, writes_through) = (now(), self.writes_through);
        self.blocks.iter_mut().for_each(|it| it.lose_power(now, writes_through));
    }
}
