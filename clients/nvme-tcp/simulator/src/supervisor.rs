//! Starts targets, troubles them, and judges how they end.

mod troubles;

use crate::chance::Random;
use crate::ending::{fail_power, has_ended};
use crate::hosts::chap::Choice;
use crate::hosts::checker::{check, Checker, BLOCK};
use crate::hosts::keyring::KEYS;
use crate::replay::{commands_of, replay, values_of};
use crate::scenario::Scenario;
use crate::superblock;
use crate::tools::{self, REFUSED};
use crate::world::disk::Kind;
use crate::world::misdirection::Stray;
use crate::world::{self, with, Outcome, World, MILLISECOND, SECOND};
use std::ffi::OsString;
use std::net::SocketAddr;
use std::path::Path;

pub type Act = fn(Vec<OsString>) -> Outcome;

pub const DEVICE: &str = "/dev/shared";
pub const IMAGE: &str = "/image";
pub const CONFIG: &str = "/etc/config";
/// The place of the first block of a volume.
const BLOCKS_AT: usize = 2 << 20;
/// How long a target may take to start, with a lease to wait out, and to end in order.
const LONGEST: u64 = 60 * SECOND;

/// What a target names that refuses what it has read.
const STATE: [&str; 5] = ["journal", "superblock", "volume", "configuration", "/state"];
/// The most answers that are awaited before the next trouble.
const MOST_ANSWERS: u64 = 100;

/// A target that was started.
pub struct Running {
    pub process: usize,
    pub machine: usize,
    script: String,
    pub control: String,
    pub address: SocketAddr,
    pub second: Option<SocketAddr>,
    /// When it was started, and how often the world's disk had failed before.
    begun: u64,
    faults: u64,
    /// How often its disk had read superblock or journal at a wrong place.
    strayed: u64,
    /// The machine was stopped, or another target was started.
    may_lose_lease: bool,
}

pub struct Supervisor {
    pub scenario: Scenario,
    pub act: Act,
    pub running: Vec<Running>,
    starts: usize,
    pub replayed: usize,
    pub ends: usize,
    /// The epoch of the last target that has served a volume.
    epoch: u64,
}

pub fn words(list: &[&str]) -> Vec<OsString> {
    list.iter().map(OsString::from).collect()
}

/// What goes to a wrong place while a target starts, if something does.
fn stray_of_start(random: &mut Random) -> Option<Stray> {
    match random.below(16) {
        0..=3 => Some(Stray::ReadState(random.index(8))),
        4 => Some(Stray::State),
        _ => None,
    }
}

fn recording_of(script: &str) -> String {
    format!("{script}.recording")
}

/// Whether a target refuses the journal of a volume, or that of the state folder.
fn names_journal(text: &str) -> bool {
    text.contains("its journal") || text.contains("/state")
}

/// The injected faults that may end a target.
fn faults(world: &World) -> u64 {
    let kinds = ["failed read", "unreadable", "failed write", "failed sync", "failed output"];
    kinds.iter().filter_map(|it| world.injected.get(it)).sum()
}

impl Supervisor {
    pub fn new(scenario: Scenario, act: Act) -> Supervisor {
        Supervisor { scenario, act, running: Vec::new(), starts: 0, replayed: 0, ends: 0, epoch: 0 }
    }

    /// Makes what is served.
    pub fn prepare(&mut self) {
        let (config, is_volume) = (self.scenario.config(), self.scenario.is_volume);
        let is_memory = self.scenario.manner.is_memory;
        let size = self.scenario.all_blocks() * BLOCK;
        let lacks_holes = self.scenario.manner.lacks_holes;
        with(|world| {
            world.disks.lacks_holes = lacks_holes;
            let inode = world.disks.create(Path::new(CONFIG), Kind::File);
            world.disks.inodes[inode].write(0, config.as_bytes());
            let (path, kind) = if is_volume { (DEVICE, Kind::BlockDevice) } else { (IMAGE, Kind::File) };
            let inode = world.disks.create(Path::new(path), kind);
            world.disks.inodes[inode].set_length(if is_volume { BLOCKS_AT + size } else { size });
            world.disks.served = Some((inode, if is_volume { BLOCKS_AT } else { 0 })).filter(|_| !is_memory);
            let written = world.disks.find(Path::new(CONFIG)).unwrap_or(0);
            let until = world.disks.inodes[written].written();
            world.disks.inodes[written].sync(until);
        });
        if self.scenario.manner.choice.is_some() {
            check(|it| it.keys.write());
        }
        if is_volume {
            let (act, chances) = (self.act, with(|it| std::mem::take(&mut it.chances)));
            let format = world::start_process(0, "format", move || act(words(&["format", DEVICE, "--config", CONFIG])));
            while with(|it| it.processes[format].outcome.is_none()) {
                world::pause(MILLISECOND);
            }
            let outcome = with(|it| it.processes[format].outcome.clone());
            with(|it| it.chances = chances);
            if let Some(Err((_, text))) = outcome {
                check(|it| it.violate(format!("format fails: {text}")));
            }
            if self.has("power") && with(|it| it.random.once_in(4)) {
                fail_power();
            }
        }
    }

    fn has(&self, kind: &str) -> bool {
        self.scenario.kinds.contains(&kind)
    }

    fn command_line(&self, machine: usize, listen: &str, script: &str, control: &str) -> Vec<OsString> {
        let (manner, recording) = (&self.scenario.manner, recording_of(script));
        let mut list = vec!["--listen", listen, "--control", control, "--wait"];
        match self.scenario.keeps_run {
            true if manner.records => list.extend(["--record", &recording]),
            true => list.extend(["--script", script]),
            false => (),
        }
        list.extend(manner.is_read_only.then_some("--read-only"));
        let more: Vec<String> =
            manner.words.iter().map(|it| it.replace(":99", [":99", ":89"][machine.min(1)])).collect();
        list.extend(more.iter().map(String::as_str));
        list.extend(manner.name.into_iter().flat_map(|it| ["--name", it]));
        list.extend(manner.advertised.into_iter().flat_map(|it| ["--advertise", it]));
        let allowed: Vec<String> = if manner.binds { self.scenario.allowed() } else { Vec::new() };
        list.extend(allowed.iter().flat_map(|it| ["--allow", it.as_str()]));
        let choice = manner.choice.map(Choice::text);
        list.extend(choice.iter().flat_map(|it| ["--keys", KEYS, "--dhchap", it]));
        if !manner.is_memory {
            list.extend(["--cache", "4M"]);
        }
        if self.scenario.is_volume {
            list.push(DEVICE);
        } else {
            list.extend(self.scenario.options.iter());
            list.extend(if manner.is_memory { &[][..] } else { &["--image", IMAGE] });
            list.extend(["--state", "/state", CONFIG]);
        }
        words(&list)
    }

    /// The script of the target that runs.
    pub fn script(&self) -> Option<String> {
        let keeps = self.scenario.keeps_run && !self.scenario.manner.records;
        self.running.first().filter(|_| keeps).map(|it| it.script.clone())
    }

    /// The recording of the target that runs.
    pub fn recording(&self) -> Option<String> {
        let records = self.scenario.keeps_run && self.scenario.manner.records;
        self.running.first().filter(|_| records).map(|it| recording_of(&it.script))
    }

    /// Starts a target on a machine, and waits until it serves or ends.
    pub fn start(&mut self, machine: usize) {
        self.starts += 1;
        let (script, control) = (format!("/run/{}.nvme", self.starts), format!("/run/{}.control", self.starts));
        let address = SocketAddr::from(([127, 0, 0, 1], 4420 + machine as u16));
        let (act, mut given) = (self.act, self.command_line(machine, &address.to_string(), &script, &control));
        let second = self.scenario.manner.has_second.then(|| SocketAddr::from(([127, 0, 0, 1], 5420 + machine as u16)));
        given.splice(0..0, second.into_iter().flat_map(|it| words(&["--listen", &it.to_string()])));
        with(|it| it.note(&format!("target {} starts on machine {machine}", self.starts)));
        let process = world::start_process(machine, "target", move || act(given));
        let may_lose_lease = !self.running.is_empty();
        self.running.iter_mut().for_each(|it| it.may_lose_lease = true);
        let (begun, faults, strayed) = with(|it| (it.now, faults(it), it.disks.misdirection.reads));
        let it = Running { process, machine, script, control, address, second, begun, faults, strayed, may_lose_lease };
        self.running.push(it);
        if self.scenario.manner.is_memory {
            check(|it| it.begin_memory(process));
        }
        let loss = check(Checker::lose_reservations);
        let next = if self.has("disk") { with(|it| stray_of_start(&mut it.random)) } else { None };
        next.into_iter().for_each(|next| with(|it| it.disks.misdirection.next = Some(next)));
        self.wait_until_it_serves(process);
        let serves = with(|it| it.processes[process].served.is_some());
        check(|it| it.has_lost_reservations(loss, serves));
        if serves && self.scenario.is_volume {
            self.judge_epoch();
        }
        if self.running.len() == 1 {
            check(|it| it.bound(None));
        } else {
            // Some hosts go to the other target at once.
            let count = with(|it| it.random.within(1, 4));
            (0..count).for_each(|_| self.cut());
        }
    }

    /// Waits until a target serves or ends. The power may fail meanwhile.
    fn wait_until_it_serves(&mut self, process: usize) {
        let (now, cuts) = with(|it| (it.now, self.has("power") && it.random.once_in(10)));
        let cut = if cuts { now + with(|it| it.random.below(SECOND / 3)) } else { u64::MAX };
        loop {
            let (serves, time) = with(|it| (it.processes[process].served.is_some(), it.now));
            if serves || has_ended(process) {
                return;
            }
            if time > now + LONGEST {
                return check(|it| it.violate("a target neither serves nor ends".to_owned()));
            }
            if time > cut {
                return self.cut_power();
            }
            world::pause(5 * MILLISECOND);
        }
    }

    /// Each target that serves a volume has raised the epoch in its superblock.
    fn judge_epoch(&mut self) {
        let epoch = with(|it| it.disks.served.map_or(0, |(at, _)| superblock::epoch(&it.disks.inodes[at].data)));
        if epoch <= self.epoch {
            check(|it| it.violate(format!("a target serves in epoch {epoch}, and another did in {}", self.epoch)));
        }
        self.epoch = epoch;
    }

    /// Starts a target after all have ended, on a machine that may have had it.
    pub fn restart(&mut self) {
        let machine = if self.scenario.is_volume { with(|it| it.random.index(2)) } else { 0 };
        self.start(machine);
    }

    /// Takes away the targets that have ended, and judges them.
    pub fn collect(&mut self) {
        let all = std::mem::take(&mut self.running);
        for it in all {
            let crashed = check(|check| check.crashes.remove(&it.process));
            match with(|world| world.processes[it.process].outcome.clone()) {
                _ if crashed.is_some() => {
                    self.replay(&it, false);
                    self.close(&it, 0);
                }
                None => self.running.push(it),
                Some(outcome) => {
                    self.judge(&it, &outcome);
                    self.close(&it, 0);
                }
            }
        }
        // A power loss ends command lines, too, which nobody waits for.
        check(|check| check.crashes.retain(|process, _| self.running.iter().any(|it| it.process == *process)));
    }

    fn judge(&mut self, it: &Running, outcome: &Outcome) {
        let is_excused = with(|world| faults(world)) > it.faults || it.may_lose_lease;
        let said = with(|world| world.processes[it.process].said.clone());
        let strayed = with(|world| world.disks.misdirection.reads) > it.strayed;
        match outcome {
            Ok(()) => {
                check(Checker::sync);
                self.replay(it, true);
            }
            Err((1..=2, text)) if names_journal(text) && with(|it| it.disks.put_back()) => {
                with(|it| *it.injected.entry("misdirection noticed").or_default() += 1);
            }
            Err((REFUSED, text)) if text.contains(KEYS) && check(|check| check.keys.was_spoiled(it.begun)) => (),
            // A disk has read superblock or journal at a wrong place, and the target says that it does not fit.
            Err((1..=2, text)) if strayed && STATE.iter().any(|it| text.contains(it)) => {
                with(|it| *it.injected.entry("misread noticed").or_default() += 1);
            }
            Err((status, text)) => {
                let last: Vec<&str> = said.lines().rev().take(3).collect();
                if *status == 101 || !is_excused {
                    check(|check| check.violate(format!("a target ends: {text}; it said {last:?}")));
                }
                self.replay(it, false);
            }
        }
    }

    /// A process is gone. Its machine's peers notice that after a while if the machine is gone too.
    fn close(&mut self, it: &Running, silent: u64) {
        self.ends += 1;
        with(|world| {
            world.kill(it.process);
            let World { net, random, now, .. } = world;
            net.drop_all(it.process, *now, silent, random);
        });
        if self.running.is_empty() {
            check(|it| it.bound(None));
        }
    }

    /// Each command that a target has answered is in its kept run.
    fn check_run(&self, it: &Running, script: &[u8]) {
        let (values, commands) = (values_of(script), commands_of(script));
        for (command, count) in check(|check| check.commands.remove(&it.process)).unwrap_or_default() {
            if commands.get(&command).copied().unwrap_or(0) < count {
                let text = format!("the kept run lacks command {} of controller {}", command.1, command.0);
                return check(|it| it.violate(text));
            }
        }
        for value in check(|check| check.kept.remove(&it.process)).unwrap_or_default() {
            if !values.contains(&value) {
                return check(|it| it.violate(format!("the kept run lacks the write of value {value:#x}")));
            }
        }
    }

    /// Replays the script of a target.
    fn replay(&mut self, it: &Running, is_over: bool) {
        if !self.scenario.keeps_run {
            return;
        }
        if self.scenario.manner.records {
            tools::expand(self.act, &recording_of(&it.script), &it.script, is_over);
        }
        let (script, transcript, served) = with(|world| {
            let transcript = world.disks.take(&format!("{}.out", it.script));
            (world.disks.take(&it.script), transcript, world.processes[it.process].served.take())
        });
        // What a crash of a machine leaves of it is nothing, or the space that was reserved.
        if script.iter().any(|it| *it != 0) {
            self.check_run(it, &script);
        }
        let mut blocks = match served {
            Some(_) if it.may_lose_lease => return,
            Some(_) if self.scenario.manner.is_memory => vec![0; self.scenario.all_blocks() * BLOCK],
            Some(served) => served,
            _ => return,
        };
        match replay(&script, &transcript, &mut blocks) {
            Ok(count) => self.replayed += count,
            Err(text) => return check(|it| it.violate(format!("replay: {text}"))),
        }
        if is_over && !self.scenario.manner.is_memory && with(|it| it.disks.blocks() != blocks) {
            let now = with(|it| it.disks.blocks().to_vec());
            let at = now.iter().zip(&blocks).position(|(one, other)| one != other).unwrap_or(0) / BLOCK;
            check(|it| it.violate(format!("replay: block {at} of the disk is not what the program has at the end")));
        }
    }

    /// Kills a target.
    pub fn kill(&mut self, at: usize) {
        let it = self.running.swap_remove(at);
        with(|world| {
            world.note("a target is killed");
            world.kill(it.process);
        });
        self.replay(&it, false);
        self.close(&it, 0);
    }

    /// The power of all machines and disks fails.
    pub fn cut_power(&mut self) {
        for it in std::mem::take(&mut self.running) {
            with(|world| world.kill(it.process));
            self.replay(&it, false);
            self.close(&it, 4 * SECOND);
        }
        fail_power();
    }

    /// Waits for a time, in which hosts may end targets.
    pub fn rest(&self, time: u64) {
        let end = with(|it| it.now) + time;
        // Some time passes in any case, so that a run without progress ends.
        world::pause(time.min(10 * MILLISECOND));
        while with(|it| it.now) < end && check(|it| it.crashes.is_empty() && it.violations.is_empty()) {
            world::pause((end - with(|it| it.now)).min(10 * MILLISECOND));
        }
    }

    /// Waits until hosts have got some more answers, so that trouble meets them at work, but not for long.
    pub fn wait_for_answers(&self) {
        let (count, end) = with(|it| (it.random.below(MOST_ANSWERS), it.now + 3 * SECOND));
        let until = check(|it| it.answered) + count;
        while with(|it| it.now) < end && check(|it| it.answered < until && it.crashes.is_empty()) {
            world::pause(MILLISECOND);
        }
    }

    /// Asks a target to end, and waits for that.
    pub fn end(&mut self, at: usize) {
        let process = self.running[at].process;
        with(|world| {
            world.note("a target is asked to end");
            world.processes[process].is_asked_to_end = true;
        });
        let end = with(|it| it.now) + LONGEST;
        while !has_ended(process) {
            if with(|it| it.now) > end {
                return check(|it| it.violate("a target does not end".to_owned()));
            }
            world::pause(5 * MILLISECOND);
        }
        self.collect();
        if self.running.is_empty() && self.has("power") && with(|it| it.random.once_in(3)) {
            fail_power();
        }
    }
}
