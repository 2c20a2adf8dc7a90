//! System calls that the standard library lacks: its poll, epoll(7), options of sockets, space and locks of files,
//! signals, and what keeps memory secret. One of six files with unsafe code. The others are `memory.rs`, `arena.rs`,
//! `libcrypto.rs`, `processor.rs` and clients/rust/src/raw.rs, which calls the library.
//!
//! Why it is safe: `Event` has the layout of the kernel's `struct epoll_event` on x86-64, which is packed; arrays and
//! values have the lengths that the calls are given; and nobody else owns a descriptor that a call has returned. The
//! signal handler stores to an atomic value and calls signal(2), as a handler may.

use crate::numbers::narrow;
use std::fs::File;
use std::io;
use std::os::raw::c_long;
use std::os::unix::io::{AsRawFd, FromRawFd, OwnedFd, RawFd};
use std::sync::atomic::{AtomicBool, Ordering};
use std::time::Duration;

/// What a descriptor is waited for.
#[derive(Clone, Copy, Debug, PartialEq, Eq)]
pub struct Interest {
    pub read: bool,
    pub write: bool,
}

/// A descriptor on which something can be done. What is neither of these two is that it can be written.
#[derive(Clone, Copy, Debug)]
pub struct Ready {
    pub name: u64,
    pub read: bool,
    /// The other side is gone.
    pub is_over: bool,
}

#[repr(C, packed)]
#[derive(Clone, Copy)]
struct Event {
    events: u32,
    name: u64,
}

const ADD: i32 = 1;
const DELETE: i32 = 2;
const CHANGE: i32 = 3;
const CLOSE_ON_EXEC: i32 = 0o2_000_000;
const READ: u32 = 0x001;
const WRITE: u32 = 0x004;
const FAULT: u32 = 0x008;
const HANG_UP: u32 = 0x010;
/// FALLOC_FL_KEEP_SIZE, and FALLOC_FL_PUNCH_HOLE.
const KEEP_LENGTH: i32 = 1;
const PUNCH_HOLE: i32 = 2;
/// The most events of one call.
const MOST: usize = 64;

extern "C" {
    fn epoll_create1(flags: i32) -> i32;
    fn epoll_ctl(poll: i32, what: i32, descriptor: i32, event: *mut Event) -> i32;
    fn epoll_wait(poll: i32, events: *mut Event, most: i32, milliseconds: i32) -> i32;
    fn setsockopt(socket: i32, level: i32, option: i32, value: *const i32, size: u32) -> i32;
    fn fallocate(file: i32, mode: i32, place: i64, count: i64) -> i32;
    fn flock(file: i32, operation: i32) -> i32;
    fn signal(number: i32, action: usize) -> usize;
    fn prctl(what: i32, value: usize, _: usize, _: usize, _: usize) -> i32;
    fn geteuid() -> u32;
    fn clock_gettime(clock: i32, time: *mut [c_long; 2]) -> i32;
}

/// The time since the machine was started, also while it sleeps: CLOCK_BOOTTIME. If it is unknown, all leases have ended.
pub fn time_since_boot() -> Duration {
    let mut time = [0; 2];
    // SAFETY: there is room for both words of the time.
    match unsafe { clock_gettime(7, &mut time) } {
        0 => Duration::new(narrow(time[0]), narrow(time[1])),
        _ => Duration::MAX,
    }
}

/// SIGINT and SIGTERM.
const ENDING: [i32; 2] = [2, 15];
/// SIG_DFL: the signal ends the process.
const DEFAULT: usize = 0;
static IS_ASKED_TO_END: AtomicBool = AtomicBool::new(false);

extern "C" fn ask_to_end(_: i32) {
    IS_ASKED_TO_END.store(true, Ordering::Relaxed);
    act_on_signals(DEFAULT);
}

fn act_on_signals(action: usize) {
    for number in ENDING {
        // SAFETY: the action is SIG_DFL or `ask_to_end`, which does what a handler may.
        unsafe { signal(number, action) };
    }
}

/// From now on the first SIGINT or SIGTERM is noted, and a second one ends the process at once.
#[allow(clippy::as_conversions)] // A function has no other conversion to the number that signal(2) takes.
pub fn note_signals() {
    act_on_signals(ask_to_end as extern "C" fn(i32) as usize);
}

/// Whether this signal has come.
pub fn is_asked_to_end() -> bool {
    IS_ASKED_TO_END.load(Ordering::Relaxed)
}

static IS_ASKED_TO_READ_AGAIN: AtomicBool = AtomicBool::new(false);

extern "C" fn ask_to_read_again(_: i32) {
    IS_ASKED_TO_READ_AGAIN.store(true, Ordering::Relaxed);
}

/// From now on SIGHUP is noted, each time.
#[allow(clippy::as_conversions)] // As above.
pub fn note_hang_up() {
    const HANG_UP: i32 = 1;
    // SAFETY: the action does what a handler may.
    unsafe { signal(HANG_UP, ask_to_read_again as extern "C" fn(i32) as usize) };
}

/// Whether SIGHUP was noted since this was asked last.
pub fn is_asked_to_read_again() -> bool {
    IS_ASKED_TO_READ_AGAIN.swap(false, Ordering::Relaxed)
}

/// Keeps the memory of this process from other processes of its user, and out of core dumps: PR_SET_DUMPABLE.
pub fn hide_memory() -> io::Result<()> {
    const SET_DUMPABLE: i32 = 4;
    // SAFETY: it takes numbers alone.
    match unsafe { prctl(SET_DUMPABLE, 0, 0, 0, 0) } {
        0 => Ok(()),
        _ => Err(io::Error::last_os_error()),
    }
}

/// The user that this process acts as.
pub fn user() -> u32 {
    // SAFETY: it takes nothing, and never fails.
    unsafe { geteuid() }
}

/// Options of sockets by their levels: SO_KEEPALIVE; TCP_KEEPIDLE, idle seconds before the first probe; TCP_KEEPINTVL,
/// seconds between probes; TCP_KEEPCNT, failed probes before the connection ends; and TCP_USER_TIMEOUT, milliseconds
/// until it ends if sent bytes are not acknowledged.
const ASKS: [(i32, i32, i32); 5] = [(1, 9, 1), (6, 4, 30), (6, 5, 10), (6, 6, 6), (6, 18, 90_000)];

/// Has the system end a connection whose other side was not heard of for 90 seconds.
pub fn end_when_lost(socket: &impl AsRawFd) -> io::Result<()> {
    ASKS.iter().try_for_each(|(level, option, value)| {
        // SAFETY: the value is an `i32`, of 4 bytes.
        match unsafe { setsockopt(socket.as_raw_fd(), *level, *option, value, 4) } {
            0 => Ok(()),
            _ => Err(io::Error::last_os_error()),
        }
    })
}

/// Reserves disk space for a file, from a position. The file keeps its length.
pub fn reserve(file: &File, place: u64, count: u64) -> io::Result<()> {
    change_space(file, KEEP_LENGTH, place, count)
}

/// Replaces bytes of a file by a hole, which reads as zeros. The file keeps its length.
pub fn punch_hole(file: &File, place: u64, count: u64) -> io::Result<()> {
    change_space(file, KEEP_LENGTH | PUNCH_HOLE, place, count)
}

fn change_space(file: &File, mode: i32, place: u64, count: u64) -> io::Result<()> {
    // SAFETY: it takes numbers alone, and the file is open.
    match unsafe { fallocate(file.as_raw_fd(), mode, narrow(place), narrow(count)) } {
        0 => Ok(()),
        _ => Err(io::Error::last_os_error()),
    }
}

/// Locks a file by flock(2): LOCK_SH or LOCK_EX, and LOCK_NB unless it waits.
pub fn lock(file: &File, is_shared: bool, waits: bool) -> io::Result<()> {
    let operation = if is_shared { 1 } else { 2 } | if waits { 0 } else { 4 };
    // SAFETY: it takes numbers alone, and the file is open.
    match unsafe { flock(file.as_raw_fd(), operation) } {
        0 => Ok(()),
        _ => Err(io::Error::last_os_error()),
    }
}

/// The descriptors that are waited for.
pub struct Poll {
    descriptor: OwnedFd,
    events: [Event; MOST],
}

impl Poll {
    pub fn new() -> io::Result<Poll> {
        // SAFETY: it takes a number alone.
        let number = unsafe { epoll_create1(CLOSE_ON_EXEC) };
        if number < 0 {
            return Err(io::Error::last_os_error());
        }
        // SAFETY: the call has made the descriptor, and nobody else has it.
        let descriptor = unsafe { OwnedFd::from_raw_fd(number) };
        Ok(Poll { descriptor, events: [Event { events: 0, name: 0 }; MOST] })
    }

    /// Waits for a descriptor too, under a name.
    pub fn add(&self, descriptor: &impl AsRawFd, name: u64, interest: Interest) -> io::Result<()> {
        self.control(ADD, descriptor.as_raw_fd(), name, interest)
    }

    /// Waits for something else of a descriptor.
    pub fn change(&self, descriptor: &impl AsRawFd, name: u64, interest: Interest) -> io::Result<()> {
        self.control(CHANGE, descriptor.as_raw_fd(), name, interest)
    }

    /// Waits for a descriptor no more.
    pub fn remove(&self, descriptor: &impl AsRawFd) -> io::Result<()> {
        self.control(DELETE, descriptor.as_raw_fd(), 0, Interest { read: false, write: false })
    }

    fn control(&self, what: i32, descriptor: RawFd, name: u64, interest: Interest) -> io::Result<()> {
        let events = if interest.read { READ } else { 0 } | if interest.write { WRITE } else { 0 };
        let mut event = Event { events, name };
        // SAFETY: the event has the layout of the kernel's, which copies it.
        match unsafe { epoll_ctl(self.descriptor.as_raw_fd(), what, descriptor, &mut event) } {
            0 => Ok(()),
            _ => Err(io::Error::last_os_error()),
        }
    }

    /// Waits for events, at most for a time, and replaces the content of `ready` by them. A signal ends the wait too.
    pub fn wait(&mut self, milliseconds: i32, ready: &mut Vec<Ready>) -> io::Result<()> {
        ready.clear();
        let poll = self.descriptor.as_raw_fd();
        // SAFETY: there is room for `MOST` events, which have the layout of the kernel's.
        let count = unsafe { epoll_wait(poll, self.events.as_mut_ptr(), narrow(MOST), milliseconds) };
        if count < 0 {
            let error = io::Error::last_os_error();
            return if error.kind() == io::ErrorKind::Interrupted { Ok(()) } else { Err(error) };
        }
        ready.extend(self.events[..narrow::<_, usize>(count)].iter().map(|event| {
            let Event { events, name } = *event;
            let is_over = events & (FAULT | HANG_UP) != 0;
            Ready { name, read: events & READ != 0, is_over }
        }));
        Ok(())
    }
}
