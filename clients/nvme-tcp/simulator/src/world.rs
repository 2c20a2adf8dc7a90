//! The state of the simulated world, and its scheduler: which fiber continues, and when time passes.

pub mod disk;
pub mod meddler;
pub mod misdirection;
pub mod network;
pub mod tap;

use crate::chance::Random;
use crate::fiber::{self, Fiber};
use crate::heap;
use crate::processor;
use disk::Disks;
use network::Network;
use std::cell::RefCell;
use std::collections::BTreeMap;
use std::time::Duration;
use tap::Tap;

pub const MICROSECOND: u64 = 1_000;
pub const MILLISECOND: u64 = 1_000 * MICROSECOND;
pub const SECOND: u64 = 1_000 * MILLISECOND;
/// The process of hosts and of the checker, which is never killed.
pub const HOSTS: usize = 0;

/// What a fiber waits for.
#[derive(Clone, Copy, Debug, PartialEq, Eq)]
pub enum Key {
    /// A mutex, condition variable or channel, by its address. Only equality counts.
    Address(usize),
    /// A descriptor.
    Descriptor(i32),
    /// The end of a fiber.
    Fiber(usize),
    /// A lock of a file.
    Lock,
    Nothing,
}

#[derive(Clone, Copy, Debug, PartialEq, Eq)]
enum State {
    Ready,
    Waiting(Key),
    Ended,
}

/// A simulated thread.
struct Thread {
    process: usize,
    name: String,
    state: State,
    until: Option<u64>,
    is_late: bool,
    /// It is in a system call, which does not stop with its process.
    is_called: bool,
    fiber: Option<Fiber>,
}

impl Thread {
    /// Whether it can run at a time, if its process is stopped until another.
    fn can_run(&self, now: u64, stopped_until: u64) -> bool {
        self.state == State::Ready && (self.is_called || stopped_until <= now)
    }
}

/// How a process ended by itself.
pub type Outcome = Result<(), (u8, String)>;

/// A simulated process.
pub struct Process {
    pub machine: usize,
    /// It serves what the others of its kind serve, and is no tool.
    pub is_target: bool,
    pub is_alive: bool,
    /// It was stopped, as by SIGSTOP.
    pub stopped_until: u64,
    /// It will be stopped in its next write to a medium, for this time.
    pub stops_in_write: Option<u64>,
    pub is_asked_to_end: bool,
    /// It was sent SIGHUP.
    pub hangs_up: bool,
    pub outcome: Option<Outcome>,
    /// What it wrote to standard error.
    pub said: String,
    /// The blocks when it began to serve.
    pub served: Option<Vec<u8>>,
}

/// How likely faults are: once in this number of times, never if 0.
#[derive(Clone, Debug, Default)]
pub struct Chances {
    pub late_disk: u64,
    pub failed_read: u64,
    pub failed_write: u64,
    pub failed_sync: u64,
    pub short: u64,
    /// A write into a kept run, and a connection that is accepted.
    pub failed_output: u64,
    pub failed_accept: u64,
    /// Random numbers of libcrypto.
    pub failed_random: u64,
    /// A switch to another fiber when none is necessary.
    pub yields: u64,
}

impl Chances {
    /// Failures are frequent: of the disk, or of the kept run. Whether there is one.
    pub fn fail(&mut self, seed: u64) -> bool {
        (self.failed_accept, self.failed_random) = (20, 60);
        if seed % 3 == 0 {
            self.failed_output = 500;
            return true;
        }
        (self.failed_read, self.failed_write, self.failed_sync) = (60, 200, 200);
        false
    }
}

pub struct World {
    pub random: Random,
    pub now: u64,
    pub steps: u64,
    pub processes: Vec<Process>,
    /// How often each machine was started.
    pub boots: BTreeMap<usize, u64>,
    pub net: Network,
    pub disks: Disks,
    pub chances: Chances,
    pub log: Log,
    /// What is kept for the timeline.
    pub tap: Option<Tap>,
    threads: Vec<Thread>,
    current: usize,
    /// Injected faults by their names, with how often each happened.
    pub injected: BTreeMap<&'static str, u64>,
    /// The processes and times at which libcrypto had no random number, each until a host has been refused by it.
    pub failed_numbers: Vec<(usize, u64)>,
}

/// The events of a run: their digest, and their lines if somebody reads them.
#[derive(Default)]
pub struct Log {
    pub digest: u64,
    pub count: u64,
    pub lines: Option<Vec<String>>,
    /// The line that each process has begun to say.
    begun: BTreeMap<usize, String>,
}

impl Log {
    pub fn put(&mut self, now: u64, text: &str) {
        self.count += 1;
        for byte in now.to_le_bytes().iter().chain(text.as_bytes()) {
            self.digest = (self.digest ^ u64::from(*byte)).wrapping_mul(0x0100_0000_01b3);
        }
        if let Some(lines) = &mut self.lines {
            lines.push(format!("{:>14.6} {text}", now as f64 / SECOND as f64));
        }
    }

    /// Takes what a process says, which is no event: each whole line is one of the log.
    pub fn tell(&mut self, now: u64, process: usize, text: &str) {
        let lines = match &mut self.lines {
            Some(lines) => lines,
            None => return,
        };
        let begun = self.begun.entry(process).or_default();
        begun.push_str(text);
        while let Some(end) = begun.find('\n') {
            let line: String = begun.drain(..=end).collect();
            lines.push(format!("{:>14.6} process {process}: {}", now as f64 / SECOND as f64, line.trim_end()));
        }
    }
}

thread_local! {
    static WORLD: RefCell<Option<World>> = const { RefCell::new(None) };
}

thread_local! {
    static PLANTED: RefCell<String> = const { RefCell::new(String::new()) };
}

/// Plants a fault, in a copy of the target.
pub fn plant(name: &str) {
    PLANTED.with(|it| name.clone_into(&mut it.borrow_mut()));
}

pub fn is_planted(name: &str) -> bool {
    PLANTED.with(|it| *it.borrow() == name)
}

/// Does something with the world. It must not switch. What it allocates is the world's.
pub fn with<R>(act: impl FnOnce(&mut World) -> R) -> R {
    heap::of_no_process(|| WORLD.with(|it| act(it.borrow_mut().as_mut().expect("there is a world"))))
}

/// Begins a world.
pub fn begin(seed: u64, chances: Chances, is_logged: bool) {
    let hosts = Process::new(usize::MAX);
    let world = World {
        random: Random::new(seed),
        now: 1_000 * SECOND,
        steps: 0,
        processes: vec![hosts],
        boots: BTreeMap::new(),
        net: Network::default(),
        disks: Disks::new(),
        chances,
        log: Log { lines: is_logged.then(Vec::new), ..Log::default() },
        tap: is_logged.then(Tap::default),
        threads: Vec::new(),
        current: usize::MAX,
        injected: BTreeMap::new(),
        failed_numbers: Vec::new(),
    };
    processor::begin(seed % 4 != 0);
    WORLD.with(|it| *it.borrow_mut() = Some(world));
}

impl Process {
    fn new(machine: usize) -> Process {
        Process {
            machine,
            is_target: false,
            is_alive: true,
            stopped_until: 0,
            stops_in_write: None,
            is_asked_to_end: false,
            hangs_up: false,
            outcome: None,
            said: String::new(),
            served: None,
        }
    }
}

impl World {
    pub fn note(&mut self, text: &str) {
        let now = self.now;
        self.log.put(now, text);
        self.tap.iter_mut().for_each(|it| it.note(now, text));
    }

    /// Whether a fault happens now, which is counted.
    pub fn happens(&mut self, name: &'static str, once_in: u64) -> bool {
        let happens = self.random.once_in(once_in);
        if happens {
            *self.injected.entry(name).or_default() += 1;
        }
        happens
    }

    /// The process whose fiber runs.
    pub fn process(&self) -> usize {
        self.threads.get(self.current).map_or(HOSTS, |it| it.process)
    }

    /// Stops the process that runs in its write to a medium, if a trouble wants that; whether it did.
    pub fn stop_in_write(&mut self) -> bool {
        let process = self.process();
        let time = self.processes[process].stops_in_write.take();
        if let Some(time) = time {
            self.note(&format!("target is stopped in a write for {} ms", time / MILLISECOND));
            self.processes[process].stopped_until = self.now + time;
        }
        time.is_some()
    }

    pub fn machine(&self) -> usize {
        self.processes[self.process()].machine
    }

    /// Makes all fibers ready that wait for something.
    pub fn wake_all(&mut self, key: Key) {
        for it in self.threads.iter_mut().filter(|it| it.state == State::Waiting(key)) {
            it.state = State::Ready;
        }
    }

    /// Makes one of them ready.
    pub fn wake_one(&mut self, key: Key) {
        let all: Vec<usize> =
            (0..self.threads.len()).filter(|it| self.threads[*it].state == State::Waiting(key)).collect();
        if !all.is_empty() {
            let chosen = all[self.random.index(all.len())];
            self.threads[chosen].state = State::Ready;
        }
    }

    fn spawn(&mut self, process: usize, name: &str, size: usize, work: fiber::Work) -> usize {
        let fiber = Fiber::new(size, work, ended);
        let thread = Thread {
            process,
            name: name.to_owned(),
            state: State::Ready,
            until: None,
            is_late: false,
            is_called: false,
            fiber: Some(fiber),
        };
        let free = self.threads.iter().position(|it| it.state == State::Ended && it.fiber.is_none());
        if let Some(at) = free {
            self.threads[at] = thread;
            at
        } else {
            self.threads.push(thread);
            self.threads.len() - 1
        }
    }

    pub fn has_ended(&self, thread: usize) -> bool {
        self.threads[thread].state == State::Ended
    }

    /// The next fiber to run, and where its stack pointer is. Time passes first if all wait. `None` if nothing will
    /// ever happen.
    fn choose(&mut self) -> Option<*mut usize> {
        loop {
            self.wake_late();
            while self.net.deliver(self.now).map(|keys| keys.into_iter().for_each(|it| self.wake_all(it))).is_some() {}
            if let Some(chosen) = self.ready() {
                self.now += 100 + self.random.below(1_500);
                self.steps += 1;
                self.current = chosen;
                return self.threads[chosen].fiber.as_mut().map(Fiber::place);
            }
            let timers =
                self.threads.iter().filter(|it| matches!(it.state, State::Waiting(_))).filter_map(|it| it.until);
            let stops = self.threads.iter().filter(|it| it.state == State::Ready);
            let stops = stops.map(|it| self.processes[it.process].stopped_until);
            let next = timers.chain(stops).chain(self.net.next()).min()?;
            self.now = self.now.max(next);
        }
    }

    /// Any of the fibers that can run now.
    fn ready(&mut self) -> Option<usize> {
        let (now, processes) = (self.now, &self.processes);
        let can_run = |it: &Thread| it.can_run(now, processes[it.process].stopped_until);
        let count = self.threads.iter().filter(|it| can_run(it)).count();
        let chosen = self.random.index(count);
        let mut all = self.threads.iter().enumerate().filter(|(_, it)| can_run(it));
        all.nth(chosen).map(|(at, _)| at)
    }

    fn wake_late(&mut self) {
        let now = self.now;
        for it in &mut self.threads {
            if matches!(it.state, State::Waiting(_)) && it.until.map_or(false, |until| until <= now) {
                (it.state, it.is_late) = (State::Ready, true);
            }
        }
    }

    /// Ends a process at once: none of its fibers runs again, and nothing of it is dropped.
    pub fn kill(&mut self, process: usize) {
        self.processes[process].is_alive = false;
        let now = self.now;
        self.tap.iter_mut().for_each(|it| it.end(process, now));
        for it in self.threads.iter_mut().filter(|it| it.process == process && it.state != State::Ended) {
            it.state = State::Ended;
            it.fiber = None;
        }
        self.disks.unlock_all(process);
        self.wake_all(Key::Lock);
        heap::free_all(process);
    }
}

/// A fiber has run to its end, or has panicked.
fn ended(panicked: Option<String>) {
    with(|world| {
        let current = world.current;
        world.threads[current].state = State::Ended;
        if let Some(text) = panicked {
            let process = world.threads[current].process;
            let text = format!("panic of thread {}: {text}", world.threads[current].name);
            world.note(&text);
            world.processes[process].outcome = Some(Err((101, text)));
        }
        world.wake_all(Key::Fiber(current));
    });
    fiber::leave();
}

/// Runs one fiber until it waits. False if nothing will ever happen.
pub fn step() -> bool {
    let place = match with(World::choose) {
        Some(place) => place,
        None => return false,
    };
    heap::set_owner(with(|it| it.process()));
    fiber::resume(place);
    heap::set_owner(HOSTS);
    with(|it| {
        let current = it.current;
        // Its stack is not used any more.
        if it.threads[current].state == State::Ended {
            it.threads[current].fiber = None;
        }
        it.current = usize::MAX;
    });
    true
}

/// Starts a process that runs this.
pub fn start_process(machine: usize, name: &str, work: impl FnOnce() -> Outcome + 'static) -> usize {
    with(|world| {
        world.boots.entry(machine).or_insert(1);
        world.processes.push(Process { is_target: name == "target", ..Process::new(machine) });
        let process = world.processes.len() - 1;
        let name = format!("{name} {process}");
        let now = world.now;
        world.tap.iter_mut().for_each(|it| it.begin(process, machine, now));
        let run = move || {
            let outcome = work();
            with(|world| {
                world.note(&format!("{name} ends: {outcome:?}"));
                let now = world.now;
                world.tap.iter_mut().for_each(|it| it.end(process, now));
                world.processes[process].outcome = Some(outcome);
            });
        };
        world.spawn(process, "main", 8 << 20, Box::new(run));
        process
    })
}

/// Starts a thread in the process that runs now.
pub fn spawn(name: &str, work: fiber::Work) -> usize {
    with(|world| {
        let process = world.process();
        world.spawn(process, name, 2 << 20, work)
    })
}

/// Waits until something is woken, or until a time; whether it was the time.
pub fn wait(key: Key, until: Option<u64>) -> bool {
    with(|world| {
        let current = world.current;
        let it = &mut world.threads[current];
        (it.state, it.until, it.is_late) = (State::Waiting(key), until, false);
    });
    fiber::leave();
    with(|world| {
        let current = world.current;
        world.threads[current].is_late
    })
}

/// Begins or ends a system call. The thread of a stopped process waits at the end.
pub fn call(begins: bool) {
    let is_stopped = with(|world| {
        let current = world.current;
        world.threads[current].is_called = begins;
        world.processes[world.threads[current].process].stopped_until > world.now
    });
    if is_stopped && !begins {
        pause(0);
    }
}

/// Waits for a time, in nanoseconds.
pub fn pause(time: u64) {
    let until = with(|it| it.now + time);
    wait(Key::Nothing, Some(until));
}

pub fn sleep(time: Duration) {
    pause(u64::try_from(time.as_nanos()).unwrap_or(u64::MAX / 4));
}

/// May let others run.
pub fn may_yield() {
    if fiber::is_inside() && with(|it| it.random.once_in(it.chances.yields)) {
        yield_now();
    }
}

/// Lets others run.
pub fn yield_now() {
    with(|world| {
        let current = world.current;
        world.threads[current].state = State::Ready;
    });
    fiber::leave();
}
