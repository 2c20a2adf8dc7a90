//! Hosts of the simulator. Each path is a fiber: it connects, sends random commands, and gives the answers to the
//! checker.

mod admin;
mod breaches;
pub mod chap;
pub mod checker;
mod choice;
mod fabrics;
mod features;
pub mod history;
mod identify;
mod impostor;
pub mod keyring;
mod logs;
pub mod pdu;
mod protection;
mod proving;
pub mod queue;
mod queues;
pub mod reservations;
mod strayed;
pub mod visits;
mod wrong;

use crate::ending::crash;
use crate::habits::Habits;
use crate::world::{self, with, MILLISECOND, SECOND};
use admin::Known;
use chap::Choice;
use checker::{check, Act, Sent};
use choice::Area;
use pdu::Digests;
use proving::Proof;
use queue::{Breach, Command, Completion, Lost, Queue, PATIENCE};
use std::collections::BTreeMap;
use std::net::SocketAddr;

/// Opcodes.
const READ: u8 = 0x02;
const KEEP_ALIVE: u8 = 0x18;
/// CC with the controller enabled.
const ENABLE: u64 = 0x46_0001;
const CC: u32 = 0x14;
const CSTS: u32 = 0x1c;
/// Status of a command on a namespace that is detached.
const DETACHED: u16 = 0x02;
/// How long a target may refuse a path whose last connections have ended.
const REFUSALS: u64 = 20 * SECOND;
/// After this time an end of a connection has a reason that others know too.
const REASON: u64 = 3 * SECOND;

/// A path of a host to the subsystem.
#[derive(Clone, Debug)]
pub struct Path {
    pub host: usize,
    pub hosts: usize,
    pub per_host: usize,
    pub cntlid: u16,
    /// The blocks of namespace 1, and of namespace 2, after them in what is served, if its controller has that.
    pub blocks: usize,
    pub second: usize,
    pub depth: usize,
    /// Whether it takes no answers before it has sent as many commands as it may.
    pub is_eager: bool,
    /// How many blocks a command has at most, and out of four how many may have more than a few.
    pub longest: usize,
    pub long: usize,
    /// Whether it breaks rules now and then.
    pub lies: bool,
    /// Out of a thousand commands, those on reservations.
    pub reserves: u64,
    /// Whether reservations persist through power loss.
    pub persists: bool,
    pub digests: Digests,
    /// One time out of this number a write has Force Unit Access, the target is killed after an answer, twenty times as
    /// often if that promises something, and a queue ends.
    pub forces: u64,
    pub crashes: u64,
    pub restless: u64,
    /// Whether a crash may be one of the power.
    pub cuts_power: bool,
    /// What it sends, of a hundred commands: writes, reads, compares, zeroes, deallocations. The others flush.
    pub mix: [usize; 5],
    /// The name of the subsystem, and the address that discovery returns, if it is not the target's.
    pub name: &'static str,
    pub advertised: Option<&'static str>,
    /// The hash and the DH group by which hosts authenticate themselves, if they have to.
    pub choice: Option<Choice>,
    pub habits: Habits,
}

fn below(limit: usize) -> usize {
    with(|it| it.random.index(limit))
}

fn once_in(count: u64) -> bool {
    with(|it| it.random.once_in(count))
}

fn now() -> u64 {
    with(|it| it.now)
}

/// The process that listens there.
fn process_at(address: SocketAddr) -> usize {
    with(|it| it.net.listening.values().find(|it| it.address == Some(address)).map_or(world::HOSTS, |it| it.process))
}

/// Whether a target was stopped at a time, or later.
fn was_stopped(process: usize, since: u64) -> bool {
    with(|it| it.processes[process].stopped_until >= since)
}

impl Path {
    pub fn host_id(&self) -> u128 {
        Path::id_of(self.host)
    }

    /// HOSTID of a host.
    pub fn id_of(host: usize) -> u128 {
        0xa1 + host as u128
    }

    /// Uses the targets until `is_over`.
    pub fn run(&self, addresses: impl Fn() -> Vec<SocketAddr>, is_over: impl Fn() -> bool) {
        let mut refused = None;
        while !is_over() {
            let all = addresses();
            if all.is_empty() {
                world::pause(10 * MILLISECOND);
                continue;
            }
            let address = all[below(all.len())];
            if once_in(self.habits.visits) {
                let begun = now();
                self.visit(address);
                // Meanwhile it asked for nothing that could be refused.
                refused = refused.map(|(by, since)| (by, since + now() - begun));
            }
            match self.connect(address) {
                Ok(mut session) => {
                    refused = None;
                    session.work(&is_over);
                }
                Err(Lost::Refused) => refused = self.count_refusal(refused, process_at(address)),
                Err(lost) => self.lose(&lost),
            }
            let most = if once_in(8) { SECOND } else { 30 * MILLISECOND };
            let time = with(|it| it.random.within(MILLISECOND, most));
            world::pause(time);
        }
    }

    /// A target has refused a Connect, perhaps as it has since a time: that may not last.
    fn count_refusal(&self, refused: Option<(usize, u64)>, process: usize) -> Option<(usize, u64)> {
        match refused {
            Some((by, since)) if by == process && !was_stopped(process, since) => {
                if now() > since + REFUSALS {
                    let text = format!("path {} is refused for {} s", self.cntlid, REFUSALS / SECOND);
                    check(|it| it.violate(text));
                }
                refused
            }
            _ => Some((process, now())),
        }
    }

    /// Reads all blocks; whether that was possible. The namespace may be detached.
    pub fn read_all(&self, address: SocketAddr) -> Result<bool, Lost> {
        let mut session = match self.connect(address) {
            Ok(session) => session,
            Err(Lost::Ended | Lost::Refused) => return Ok(false),
            Err(lost) => return Err(lost),
        };
        let detached = |check: &mut checker::Checker| check.statuses.get(&DETACHED).copied();
        let before = check(detached);
        session.restore()?;
        for Area { nsid, base, blocks } in self.areas() {
            for slba in (0..blocks).step_by(256) {
                let count = 256.min(blocks - slba);
                let words = [&(slba as u64).to_le_bytes()[..], &(count as u32 - 1).to_le_bytes()].concat();
                let command = Command { opcode: READ, nsid, words, length: count * 512, ..Command::default() };
                session.send(&command, Act::Read { slba: base + slba, count })?;
                session.receive()?;
            }
        }
        Ok(check(detached) == before)
    }

    pub fn lose(&self, lost: &Lost) {
        match lost {
            Lost::Ended | Lost::Refused => (),
            Lost::Silent => {
                let text = format!("path {} gets neither an answer nor an end in {} s", self.cntlid, PATIENCE / SECOND);
                check(|it| it.violate(text));
            }
            Lost::Broken(text) => check(|it| it.violate(format!("path {}: {text}", self.cntlid))),
        }
    }

    /// Connects a queue, whose host authenticates itself if it has to; whether the target takes both.
    fn connect_queue(&self, queue: &mut Queue, qid: u16, keep_alive_ms: u32) -> Result<bool, Lost> {
        let connected = queue.connect(&self.connect_of(qid, keep_alive_ms))?;
        Ok(connected.status == 0 && self.prove(queue, &connected)? == Proof::Done)
    }

    fn connect(&self, address: SocketAddr) -> Result<Session<'_>, Lost> {
        let keep_alive = if below(3) == 0 { [1, 2, 10][below(3)] } else { 0 };
        let (process, begun) = (process_at(address), now());
        let mut admin = Queue::open(address, self.digests)?;
        if !self.connect_queue(&mut admin, 0, keep_alive * 1_000)? {
            return Err(Lost::Refused);
        }
        // Its association has ended, and with it all of its commands.
        check(|it| it.bound(Some(self.cntlid)));
        if once_in(self.habits.admin) {
            admin::be_early(&mut admin)?;
        }
        admin.set_property(CC, ENABLE)?;
        if admin.property(CSTS)?.value & 1 == 0 {
            return Err(Lost::Ended);
        }
        let mut io = Queue::open(address, self.digests)?;
        if !self.connect_queue(&mut io, 1, 0)? {
            return Err(Lost::Ended);
        }
        with(|it| it.note(&format!("path {} is connected to {address}", self.cntlid)));
        let names = vec![admin.name(), io.name()];
        Ok(Session {
            path: self,
            admin,
            io,
            open: BTreeMap::new(),
            address,
            process,
            begun,
            names,
            keep_alive: u64::from(keep_alive) * SECOND,
            // The target counts from the Connect on.
            heard: begun,
            answered: now(),
            may_end: false,
            known: Known::default(),
        })
    }
}

/// A path that is connected.
struct Session<'p> {
    path: &'p Path,
    admin: Queue,
    io: Queue,
    /// The numbers of commands by their identifiers.
    open: BTreeMap<u16, u64>,
    address: SocketAddr,
    process: usize,
    /// When it has begun to connect.
    begun: u64,
    /// Its connections so far.
    names: Vec<i32>,
    /// Keep Alive Timeout in nanoseconds, and when the last Keep Alive that was answered was sent.
    keep_alive: u64,
    heard: u64,
    /// When the last answer came, or the first of the commands that are open was sent.
    answered: u64,
    /// Whether it has done what may end its connections.
    may_end: bool,
    known: Known,
}

impl Session<'_> {
    fn work(&mut self, is_over: &impl Fn() -> bool) {
        let result = self.serve(is_over);
        self.give_up();
        match result {
            Err(Lost::Ended | Lost::Refused) => self.judge_end(),
            Err(lost) => self.path.lose(&lost),
            Ok(()) => (),
        }
    }

    /// All commands that have no answer will have none.
    fn give_up(&mut self) {
        for (_, number) in std::mem::take(&mut self.open) {
            check(|it| it.give_up(number));
        }
    }

    /// A connection has ended: there must be a reason. Others may know it later, and the path does not wait for that.
    fn judge_end(&mut self) {
        let is_late = self.keep_alive != 0 && now() > self.heard + self.keep_alive;
        if is_late || self.may_end {
            return;
        }
        let Path { host, cntlid, .. } = *self.path;
        let (process, begun, names) = (self.process, self.begun, self.names.clone());
        let judge = move || {
            world::pause(REASON);
            let is_gone = with(|it| {
                let process = &it.processes[process];
                !process.is_alive || process.outcome.is_some() || process.is_asked_to_end
            });
            let is_cut = |it: &mut checker::Checker| names.iter().any(|name| it.cuts.contains(name));
            let may_fail = |it: &mut checker::Checker| it.keys.has_changed(host, begun);
            let is_disturbed = check(|it| it.cycled + 15 * SECOND > begun || is_cut(it) || may_fail(it));
            if !is_gone && !is_disturbed && !was_stopped(process, begun) {
                let said = with(|it| it.processes[process].said.clone());
                let last: Vec<&str> = said.lines().rev().take(3).collect();
                let text = format!("a connection of path {cntlid} ends without a reason; the target said {last:?}");
                check(|it| it.violate(text));
            }
        };
        world::spawn("reason", Box::new(judge));
    }

    fn serve(&mut self, is_over: &impl Fn() -> bool) -> Result<(), Lost> {
        self.restore()?;
        for (command, act) in self.path.first() {
            self.send(&command, act)?;
            self.receive()?;
        }
        let lifetime = 20 + below(2_000);
        let mut count = 0;
        while !is_over() && count < lifetime {
            self.stay_alive()?;
            let is_full = self.open.len() >= self.path.depth;
            if !is_full && (self.open.is_empty() || self.path.is_eager || below(3) != 0) {
                self.issue()?;
                count += 1;
            } else if !self.open.is_empty() {
                self.receive_for(if below(2) == 0 { 2 * SECOND } else { PATIENCE })?;
            }
            if below(50) == 0 {
                self.pause_or_lie()?;
            }
            if once_in(self.path.habits.admin) {
                self.administer()?;
            }
            if once_in(self.path.restless) && !self.change_queues()? {
                return Ok(());
            }
        }
        // Sometimes with commands that have no answer.
        if below(3) != 0 {
            while !self.open.is_empty() {
                self.receive()?;
            }
        }
        Ok(())
    }

    fn pause_or_lie(&mut self) -> Result<(), Lost> {
        if self.path.lies && below(40) == 0 {
            self.may_end = true;
            let mut bytes = vec![0; 8 + below(200)];
            with(|it| bytes.iter_mut().for_each(|byte| *byte = it.random.next() as u8));
            self.io.send_bytes(&bytes)?;
        } else if self.path.choice.is_some() && below(8) == 0 {
            self.prove_again()?;
        } else if below(10) == 0 {
            self.admin.call(&Command { opcode: 0x06, words: vec![1, 0, 0, 0], length: 4096, ..Command::default() })?;
        } else {
            let most = if below(20) == 0 { 3 * SECOND } else { 2 * MILLISECOND };
            let time = with(|it| it.random.within(0, most));
            self.rest(time)?;
        }
        Ok(())
    }

    /// Does nothing for a time but to stay alive.
    fn rest(&mut self, time: u64) -> Result<(), Lost> {
        let end = now() + time;
        while now() < end {
            let step = if self.keep_alive == 0 { time } else { self.keep_alive / 3 };
            world::pause(step.min(end - now()));
            self.stay_alive()?;
        }
        Ok(())
    }

    /// Sends Keep Alive if it is due.
    fn stay_alive(&mut self) -> Result<(), Lost> {
        let sent = now();
        if self.keep_alive != 0 && sent >= self.heard + self.keep_alive / 3 {
            self.admin.call(&Command { opcode: KEEP_ALIVE, ..Command::default() })?;
            self.may_end |= now() > self.heard + self.keep_alive;
            self.heard = sent;
        }
        Ok(())
    }

    fn issue(&mut self) -> Result<(), Lost> {
        if self.path.lies && once_in(60 * self.path.habits.errs) {
            return self.flood();
        }
        if once_in(self.path.habits.errs) {
            let (command, act) = self.path.choose_wrong();
            self.may_end |= command.breach != Breach::None;
            return self.send(&command, act);
        }
        let (command, act) = self.path.choose();
        self.send(&command, act)
    }

    /// More commands whose data never come than the queue has entries: the target ends the connection.
    fn flood(&mut self) -> Result<(), Lost> {
        self.may_end = true;
        for _ in 0..34 {
            let (command, act) = self.path.unanswered();
            self.send(&command, act)?;
        }
        Ok(())
    }

    fn send(&mut self, command: &Command, act: Act) -> Result<(), Lost> {
        let sent = Sent {
            host: self.path.host,
            cntlid: self.path.cntlid,
            begun: now(),
            act,
            process: self.process,
            is_forced: choice::is_forced(command),
            is_spoiled: command.is_spoiled,
        };
        if self.open.is_empty() {
            self.answered = now();
        }
        let number = check(|it| it.begin(sent));
        match self.io.send(command) {
            Ok(cid) => {
                if let Some(other) = self.open.insert(cid, number) {
                    check(|it| it.give_up(other));
                }
                Ok(())
            }
            Err(lost) => {
                check(|it| it.give_up(number));
                Err(lost)
            }
        }
    }

    /// The next answer; until then the host stays alive.
    fn receive(&mut self) -> Result<(), Lost> {
        self.answered = now();
        self.receive_for(PATIENCE)
    }

    /// The next answer, if it comes in this time: a host may send more while others are due.
    fn receive_for(&mut self, time: u64) -> Result<(), Lost> {
        let end = now() + time;
        loop {
            let due = if self.keep_alive == 0 { end } else { end.min(self.heard + self.keep_alive / 3) };
            match self.io.receive_until(due.max(now() + 1)) {
                Err(Lost::Silent) if due < end => self.stay_alive()?,
                Err(Lost::Silent) if now() < self.answered + PATIENCE => return Ok(()),
                result => return self.take(&result?),
            }
        }
    }

    fn take(&mut self, completion: &Completion) -> Result<(), Lost> {
        self.answered = now();
        let number = match self.open.remove(&completion.cid) {
            Some(number) => number,
            None => return Err(Lost::Broken(format!("an answer to command {}, which was not sent", completion.cid))),
        };
        with(|it| it.note(&format!("path {} command {number} status {:x}", self.path.cntlid, completion.status)));
        let lasts = check(|it| it.answer(number, completion));
        if once_in(if lasts { (self.path.crashes + 19) / 20 } else { self.path.crashes }) {
            crash(self.process, self.path.cuts_power && below(2) == 0);
        }
        Ok(())
    }
}
