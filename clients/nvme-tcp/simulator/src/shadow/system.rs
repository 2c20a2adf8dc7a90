//! The functions of the target's `system.rs`.

use super::fs::File;
use crate::world::{self, with, Key, MICROSECOND, MILLISECOND};
use ::std::io;
use ::std::os::unix::io::AsRawFd;
use ::std::time::Duration;

/// The most events of one call.
const MOST: usize = 64;

#[derive(Clone, Copy, Debug, PartialEq, Eq)]
pub struct Interest {
    pub read: bool,
    pub write: bool,
}

#[derive(Clone, Copy, Debug)]
pub struct Ready {
    pub name: u64,
    pub read: bool,
    pub is_over: bool,
}

/// Each machine was started at another time.
pub fn time_since_boot() -> Duration {
    with(|it| Duration::from_nanos(it.now + 1_000_000_000 * it.machine() as u64))
}

pub fn note_signals() {}

pub fn is_asked_to_end() -> bool {
    with(|it| {
        let process = it.process();
        it.processes[process].is_asked_to_end
    })
}

pub fn note_hang_up() {}

pub fn is_asked_to_read_again() -> bool {
    with(|it| {
        let process = it.process();
        std::mem::take(&mut it.processes[process].hangs_up)
    })
}

pub fn hide_memory() -> io::Result<()> {
    Ok(())
}

pub fn user() -> u32 {
    0
}

pub fn end_when_lost(_: &impl AsRawFd) -> io::Result<()> {
    Ok(())
}

pub fn reserve(_: &File, _: u64, _: u64) -> io::Result<()> {
    let fails = with(|it| {
        let fails = it.chances.failed_accept;
        it.happens("failed reserve", fails)
    });
    if fails {
        Err(io::ErrorKind::Unsupported.into())
    } else {
        Ok(())
    }
}

pub fn punch_hole(file: &File, place: u64, count: u64) -> io::Result<()> {
    file.punch_hole(place, count)
}

pub fn lock(file: &File, is_shared: bool, waits: bool) -> io::Result<()> {
    if waits && with(|it| it.random.once_in(2)) {
        return Err(io::ErrorKind::Interrupted.into());
    }
    file.lock(is_shared, waits)
}

/// The descriptors that are waited for.
pub struct Poll {
    name: i32,
    /// What was ready last, as a number that no order changes, and how often it was so before.
    last: (u64, u64),
}

impl Poll {
    pub fn new() -> io::Result<Poll> {
        with(|it| {
            let name = it.net.descriptor();
            it.net.polls.insert(name, world::network::Poll::default());
            Ok(Poll { name, last: (0, 0) })
        })
    }

    pub fn add(&self, descriptor: &impl AsRawFd, name: u64, interest: Interest) -> io::Result<()> {
        self.watch(descriptor.as_raw_fd(), Some(self.name));
        self.change(descriptor, name, interest)
    }

    pub fn change(&self, descriptor: &impl AsRawFd, name: u64, interest: Interest) -> io::Result<()> {
        with(|it| {
            if let Some(poll) = it.net.polls.get_mut(&self.name) {
                poll.watched.insert(descriptor.as_raw_fd(), (name, interest.read, interest.write));
            }
        });
        Ok(())
    }

    pub fn remove(&self, descriptor: &impl AsRawFd) -> io::Result<()> {
        let descriptor = descriptor.as_raw_fd();
        self.watch(descriptor, None);
        with(|it| it.net.polls.get_mut(&self.name).and_then(|it| it.watched.remove(&descriptor)));
        Ok(())
    }

    fn watch(&self, descriptor: i32, poll: Option<i32>) {
        with(|it| {
            it.net.sides.get_mut(&descriptor).into_iter().for_each(|it| it.poll = poll);
            it.net.listening.get_mut(&descriptor).into_iter().for_each(|it| it.poll = poll);
        });
    }

    /// Waits for events, which come in any order.
    pub fn wait(&mut self, milliseconds: i32, ready: &mut Vec<Ready>) -> io::Result<()> {
        ready.clear();
        world::may_yield();
        self.find(ready);
        self.spend(ready);
        if ready.is_empty() && milliseconds != 0 {
            let until = with(|it| it.now) + milliseconds as u64 * MILLISECOND;
            world::wait(Key::Descriptor(self.name), Some(until));
            self.find(ready);
        }
        Ok(())
    }

    /// The call takes time. A caller that leaves the same descriptors ready again and again does not keep others from
    /// running.
    fn spend(&mut self, ready: &[Ready]) {
        let sum = ready.iter().fold(1, |sum: u64, it| sum.wrapping_mul(it.name << 1 | 1));
        let is_same = !ready.is_empty() && sum == self.last.0;
        self.last = (sum, if is_same { self.last.1 + 1 } else { 0 });
        if self.last.1 >= 16 {
            world::pause(self.last.1.min(100) * MICROSECOND);
        }
    }

    fn find(&self, ready: &mut Vec<Ready>) {
        with(|world| {
            let net = &world.net;
            let watched = net.polls.get(&self.name).into_iter().flat_map(|it| &it.watched);
            for (descriptor, (name, reads, writes)) in watched {
                let (read, write, is_over) = net.readiness(*descriptor);
                if read && *reads || write && *writes || is_over {
                    ready.push(Ready { name: *name, read: read && *reads, is_over });
                }
            }
            for at in (1..ready.len()).rev() {
                ready.swap(at, world.random.index(at + 1));
            }
            ready.truncate(MOST);
        });
    }
}

impl Drop for Poll {
    fn drop(&mut self) {
        with(|it| it.net.polls.remove(&self.name));
    }
}
