//! Troubles of targets that run: they are killed, stopped, cut off from hosts, held and asked, and their disk fails.

use super::Supervisor;
use crate::ending::{has_ended, lose_sectors, stop_in_write};
use crate::hosts::checker::check;
use crate::shadow::os::unix::net::UnixStream;
use crate::world::misdirection::Stray;
use crate::world::{self, with, World, MICROSECOND, MILLISECOND, SECOND};
use std::io::{Read, Write};

/// How long consoles of operators may leave no room for another.
const LONGEST_CROWD: u64 = 20 * SECOND;

/// The ends after which targets are left alone: what was killed keeps its memory, and a seed should be short.
const MOST_ENDS: usize = 30;

impl Supervisor {
    /// Power is lost in the subsystem of a target, and comes back.
    fn cycle(&self, at: usize) {
        let loss = check(|it| {
            it.cycled = with(|it| it.now);
            it.lose_reservations()
        });
        let is_done = self.ask(at, "powercycle");
        check(|it| {
            it.cycled = with(|it| it.now);
            it.has_lost_reservations(loss, is_done);
        });
    }

    /// Asks a target a control line; whether it has an answer.
    fn ask(&self, at: usize, line: &str) -> bool {
        with(|it| it.note(&format!("control line {line}")));
        if let Ok(mut stream) = UnixStream::connect(&self.running[at].control) {
            let sent = stream.write_all(format!("{line}\n").as_bytes());
            let mut room = [0; 256];
            if sent.is_ok() && with(|it| it.processes[self.running[at].process].stopped_until <= it.now) {
                return stream.read(&mut room).map_or(false, |count| room[..count].starts_with(line.as_bytes()));
            }
        }
        false
    }

    /// One trouble, chosen at random among those of the scenario.
    pub fn trouble(&mut self) {
        self.collect();
        let kinds = self.scenario.kinds.clone();
        if kinds.is_empty() || self.running.is_empty() || self.ends > MOST_ENDS {
            return;
        }
        let (kind, at) = with(|it| (kinds[it.random.index(kinds.len())], it.random.index(self.running.len())));
        if ["kill", "power", "stop", "takeover", "cut", "end", "cycle", "hold"].contains(&kind) {
            with(|it| *it.injected.entry(kind).or_default() += 1);
        }
        match kind {
            "kill" => self.kill(at),
            "power" => self.cut_power(),
            "end" => self.end(at),
            "stop" => self.stop(at),
            "takeover" if self.scenario.is_volume && self.running.len() == 1 => {
                self.start(1 - self.running[at].machine.min(1));
            }
            "cut" => (0..3).for_each(|_| self.cut()),
            "cycle" => self.cycle(at),
            "hold" => self.hold(at),
            // A target that keeps its run ends at a read that fails.
            "disk" if !self.scenario.keeps_run && with(|it| it.random.once_in(2)) => self.lose_or_misdirect_blocks(),
            "disk" if self.running.len() == 1 => self.misdirect(at),
            _ => (),
        }
    }

    /// Some blocks can't be read from now on; or the next read or write of blocks goes to a wrong place. Of a target that
    /// keeps its run the program would not have read the same.
    fn lose_or_misdirect_blocks(&self) {
        let next = match with(|it| it.random.below(4)) {
            0 => Stray::ReadBlocks,
            1 => Stray::WrittenBlocks,
            _ => return lose_sectors(),
        };
        with(|it| it.disks.misdirection.next = Some(next));
    }

    /// A write to a journal goes to a wrong place of it, and the target is killed soon. The next one either has all that
    /// was promised, or refuses the volume or the state folder, which an operator puts back then.
    fn misdirect(&mut self, at: usize) {
        if with(|it| it.disks.misdirection.misdirected.is_some()) {
            return;
        }
        with(|it| it.disks.misdirection.next = Some(Stray::Journal));
        let process = self.running[at].process;
        let end = with(|it| it.now) + SECOND;
        while with(|it| it.now < end && it.disks.misdirection.misdirected.is_none()) && !has_ended(process) {
            world::pause(100 * MICROSECOND);
        }
        with(|it| it.disks.misdirection.next = None);
        self.collect();
        if with(|it| it.disks.misdirection.misdirected.is_some()) && !self.running.is_empty() {
            self.kill(0);
        }
    }

    /// Stops a process for a time, in which another may take its volume over.
    fn stop(&mut self, at: usize) {
        let process = self.running[at].process;
        let takes = with(|it| it.random.once_in(2))
            && self.scenario.is_volume
            && self.running.len() == 1
            && self.has("takeover");
        // The other serves once a lease has ended: before this one continues, or not.
        let (least, most) = match (takes, with(|it| it.random.once_in(2))) {
            (true, true) => (2 * SECOND, 4 * SECOND),
            (true, false) => (5 * SECOND, 9 * SECOND),
            (false, _) => (MILLISECOND, 9 * SECOND),
        };
        let (time, in_write) = with(|it| (it.random.within(least, most), it.random.once_in(2)));
        self.running[at].may_lose_lease |= self.scenario.is_volume;
        if !in_write || !stop_in_write(process, time) {
            with(|it| {
                it.note(&format!("target is stopped for {} ms", time / MILLISECOND));
                it.processes[process].stopped_until = it.now + time;
            });
        }
        if takes {
            self.start(1 - self.running[at].machine.min(1));
        }
    }

    /// Cuts a connection of a host.
    pub(super) fn cut(&self) {
        with(|world| {
            let World { net, random, now, .. } = world;
            let names: Vec<i32> =
                net.sides.iter().filter(|(_, it)| it.process == world::HOSTS).map(|(name, _)| *name).collect();
            if !names.is_empty() {
                let name = names[random.index(names.len())];
                net.cut(name, *now, random);
                check(|it| it.cuts.insert(name));
            }
        });
    }

    /// Holds the commands of a controller for a time. A target that is stopped would take the lines in any order.
    fn hold(&self, at: usize) {
        if with(|it| it.processes[self.running[at].process].stopped_until > it.now) {
            return;
        }
        let (cntlid, time) = with(|it| (1 + it.random.index(self.scenario.paths.len()), it.random.below(SECOND)));
        self.ask(at, &format!("hold {cntlid}"));
        world::pause(time);
        self.ask_until_answered(at, &format!("go {cntlid}"));
    }

    /// Asks a control line again and again: a target that has as many consoles as it takes closes the next ones.
    fn ask_until_answered(&self, at: usize, line: &str) {
        let (process, end) = (self.running[at].process, with(|it| it.now) + LONGEST_CROWD);
        while !self.ask(at, line) && !has_ended(process) && check(|it| it.violations.is_empty()) {
            if with(|it| it.now > end && it.processes[process].stopped_until + LONGEST_CROWD < it.now) {
                return check(|it| it.violate(format!("the control line {line} has no answer")));
            }
            world::pause(100 * MILLISECOND);
        }
    }
}
