//! How targets and machines are stopped at once: by a kill, by a loss of power, and in the midst of a write.

use crate::hosts::checker::{check, Checker};
use crate::world::disk::SECTOR;
use crate::world::{self, with, World, MICROSECOND, MILLISECOND, SECOND};

/// The most crashes of a seed after answers.
const MOST_CRASHES: u64 = 12;
/// What a disk loses together.
const PAGE: usize = 4096;

/// A host has got an answer, and at once its target is killed, or the power of all machines and disks fails.
pub fn crash(process: usize, loses_power: bool) {
    let count = with(|it| *it.injected.entry("crash").and_modify(|it| *it += 1).or_insert(1));
    if has_ended(process) || count > MOST_CRASHES {
        return;
    }
    with(|world| {
        world.note(if loses_power { "power fails after an answer" } else { "a target is killed after an answer" });
        *world.injected.entry(if loses_power { "power" } else { "kill" }).or_default() += 1;
        for it in 1..world.processes.len() {
            let other = &world.processes[it];
            if (loses_power || it == process) && other.is_alive && other.outcome.is_none() {
                world.kill(it);
                let World { net, random, now, .. } = world;
                net.drop_all(it, *now, if loses_power { 4 * SECOND } else { 0 }, random);
                check(|check| check.crashes.insert(it, loses_power));
            }
        }
    });
    if loses_power {
        fail_power();
    }
}

/// Has a process stop in its next write to a medium; whether there was one soon.
pub fn stop_in_write(process: usize, time: u64) -> bool {
    with(|it| it.processes[process].stops_in_write = Some(time));
    let end = with(|it| it.now) + 20 * MILLISECOND;
    while with(|it| it.now < end && it.processes[process].stops_in_write.is_some()) {
        world::pause(100 * MICROSECOND);
    }
    with(|it| it.processes[process].stops_in_write.take()).is_none()
}

/// Some pages of what is served can't be read from now on, until they are written.
pub fn lose_sectors() {
    with(|world| {
        let World { disks, random, .. } = world;
        let (first, count) = (disks.served.map_or(0, |(_, place)| place / PAGE), disks.blocks().len() / PAGE);
        for _ in 0..if count == 0 { 0 } else { random.within(1, 4) } {
            let page = first + random.index(count);
            disks.unreadable.extend(page * PAGE / SECTOR..(page + 1) * PAGE / SECTOR);
        }
    });
}

/// Whether a process has ended or was killed.
pub fn has_ended(process: usize) -> bool {
    with(|it| !it.processes[process].is_alive || it.processes[process].outcome.is_some())
}

/// The power of all machines and disks fails.
pub fn fail_power() {
    with(|world| {
        world.cut_power();
        world.boots.values_mut().for_each(|it| *it += 1);
    });
    check(Checker::lose_power);
}
