//! The loop of the one thread: it waits until a connection can be served, and serves it.

use crate::authentication::worker::Finished;
use crate::control::counters::Closing;
use crate::control::log::Topic;
use crate::control::Console;
use crate::fabrics::association::HostQueue;
use crate::fault::{Fault, Outcome};
use crate::hashing::Counted;
use crate::numbers::{narrow, to_u64, to_usize};
use crate::nvme::entry::SubmissionEntry;
use crate::storage::Storage;
use crate::system::{end_when_lost, is_asked_to_end, is_asked_to_read_again, Interest, Poll, Ready};
use crate::target::answer::Answer;
use crate::target::{Effect, Handed, Target};
use crate::transport::connection::{Connection, ROOM};
use crate::transport::input::Rooms;
use crate::transport::listening::{plain, Listener};
use crate::transport::transfers::Transfers;
use nvmesim::fabrics::Live;
use std::cmp::Reverse;
use std::collections::{HashMap, VecDeque};
use std::io;
use std::mem;
use std::net::{IpAddr, TcpListener};
use std::os::unix::net::UnixListener;
use std::time::{Duration, Instant};

/// The name of the listener for lines of control. Those for hosts have the numbers from 1 on, and then connections.
const CONTROL: u64 = 0;
/// That of the thread which computes for proofs, that of the threads of the disk, and that of the journal.
const WORK: u64 = u64::MAX;
const DISK: u64 = u64::MAX - 1;
const JOURNAL: u64 = u64::MAX - 2;
/// Interval between timeout checks.
const LOOK: Duration = Duration::from_millis(100);
/// The most connections without a controller's queue. A new one closes one of them.
const MOST_GUESTS: usize = 48;
const MOST_CONSOLES: usize = 8;

/// What the poll is asked of a connection at first, and while it waits for a record.
const TO_READ: Interest = Interest { read: true, write: false };
const NOTHING: Interest = Interest { read: false, write: false };

/// A connection that is served.
struct Served {
    connection: Connection,
    interest: Interest,
    /// The journal must have synced all records, and the system must have all events of the batch, before its answers
    /// are sent and more is received.
    waits_for: Option<Handed>,
}

impl Served {
    /// Has the poll wait for what the connection waits for.
    fn wait_by(&mut self, poll: &Poll, name: u64) -> Outcome<()> {
        let (read, write) = self.connection.wants();
        self.watch(poll, name, Interest { read, write })
    }

    fn watch(&mut self, poll: &Poll, name: u64, wanted: Interest) -> Outcome<()> {
        if wanted != self.interest && !self.connection.is_closed {
            poll.change(&self.connection.socket, name, wanted).map_err(Fault::System)?;
            self.interest = wanted;
        }
        Ok(())
    }
}

/// The target with its connections.
pub struct Server<'a> {
    target: Target<'a>,
    poll: Poll,
    hosts: Vec<Listener<TcpListener>>,
    control: Option<Listener<UnixListener>>,
    connections: Counted<Served>,
    /// Receive buffers.
    rooms: Rooms,
    /// The connections that wait for the journal or the kept run, in the order in which they have begun to.
    waiting: VecDeque<u64>,
    /// Those that wait until the disk can take commands.
    stalled: Vec<u64>,
    /// Whether only one connection can be served, the same as before, and none waits.
    is_alone: bool,
    /// The connection that could be served last, if there was only one.
    last: Option<u64>,
    consoles: HashMap<u64, Asking>,
    next: u64,
}

/// Someone who asks lines of control, and what the poll is asked for.
struct Asking {
    console: Console,
    interest: Interest,
}

impl<'a> Server<'a> {
    /// A target that hosts reach at some listeners, and lines of control at another. None of them blocks.
    pub fn new(target: Target<'a>, hosts: Vec<TcpListener>, control: Option<UnixListener>) -> io::Result<Self> {
        let poll = Poll::new()?;
        let hosts =
            (1..).zip(hosts).map(|(name, it)| Listener::new(it, name, &poll)).collect::<io::Result<Vec<_>>>()?;
        let control = control.map(|it| Listener::new(it, CONTROL, &poll)).transpose()?;
        target.prover.as_ref().map_or(Ok(()), |it| poll.add(it.wakeup(), WORK, TO_READ))?;
        target.storage.as_ref().map_or(Ok(()), |it| poll.add(it.wakeup(), DISK, TO_READ))?;
        target.journal.as_ref().map_or(Ok(()), |it| poll.add(&it.wakeup, JOURNAL, TO_READ))?;
        Ok(Server {
            target,
            poll,
            next: 1 + to_u64(hosts.len()),
            hosts,
            control,
            connections: Counted::default(),
            rooms: Rooms::new(ROOM),
            waiting: VecDeque::new(),
            stalled: Vec::new(),
            is_alone: true,
            last: None,
            consoles: HashMap::new(),
        })
    }

    /// Serves until the target is asked to end, and ends in order then. Only a fault ends it otherwise.
    pub fn run(mut self) -> Outcome<()> {
        let mut ready = Vec::new();
        let mut look = Instant::now() + LOOK;
        while !is_asked_to_end() {
            self.turn(&mut ready, &mut look)?;
        }
        self.target.log.put(Topic::Service, "ending", &[("reason", &"signal")]);
        self.end_connections()?;
        while !self.connections.is_empty() {
            self.turn(&mut ready, &mut look)?;
        }
        self.target.end()
    }

    /// Takes no more connections and no more commands. Those that are there get the answers that are due, and are
    /// closed.
    fn end_connections(&mut self) -> Outcome<()> {
        let poll = &self.poll;
        self.hosts.drain(..).try_for_each(|it| it.close(poll)).map_err(Fault::System)?;
        self.control.take().map_or(Ok(()), |it| it.close(poll)).map_err(Fault::System)?;
        self.consoles.clear();
        let names: Vec<u64> = self.connections.keys().copied().collect();
        for name in names {
            if let Some(served) = self.connections.get_mut(&name) {
                served.connection.end();
                served.connection.closing = Some(Closing::Shutdown);
                if served.waits_for.is_none() {
                    self.finish(name, false)?;
                }
            }
        }
        Ok(())
    }

    /// Serves every connection that is ready. If none is, and some wait for the kept run, blocks on the oldest write.
    fn turn(&mut self, ready: &mut Vec<Ready>, look: &mut Instant) -> Outcome<()> {
        let is_patient = self.awaited().is_none() && !self.target.has_turn();
        let patience = if is_patient { LOOK } else { Duration::ZERO };
        self.target.hand_out()?;
        self.poll.wait(narrow(patience.as_millis()), ready).map_err(Fault::System)?;
        let now = Instant::now();
        let is_due = now >= *look;
        // Nothing is served before, so that a target that was stopped notices first what has happened meanwhile.
        self.target.check_files(is_due)?;
        if is_due {
            *look = now + LOOK;
        }
        self.is_alone = self.is_only(ready);
        self.target.machine.serve_alone(self.is_alone);
        let mut is_idle = true;
        for it in ready.iter() {
            match it.name {
                CONTROL => self.accept_consoles()?,
                WORK => self.take_work()?,
                DISK => self.take_blocks()?,
                JOURNAL => self.take_records()?,
                name if name <= to_u64(self.hosts.len()) => self.accept_hosts(to_usize(name) - 1)?,
                name if self.consoles.contains_key(&name) => self.serve_console(name)?,
                name => is_idle &= !self.serve(name, *it)?,
            }
        }
        if self.target.take_turn()? {
            self.apply_effects()?;
            self.resume_stalled()?;
        } else if is_idle {
            self.target.hand_out()?;
            self.awaited().map_or(Ok(()), |handed| self.target.wait_for(handed))?;
        }
        self.resume()?;
        if is_due {
            if is_asked_to_read_again() {
                self.target.read_keys_again()?;
            }
            self.close_late(now)?;
            self.resume_listeners(now)?;
            self.target.machine.rest_run()?;
            self.target.log.rest(now);
        }
        Ok(())
    }

    /// The batches after which the first connection continues that waits for some.
    fn awaited(&self) -> Option<Handed> {
        let mut handed = self.waiting.iter().filter_map(|name| self.connections.get(name)?.waits_for);
        handed.find(|it| !self.target.has_events(*it).unwrap_or(true))
    }

    /// Whether only one connection can be served, as before, so that others are probably idle. With many hosts there
    /// are moments at which one of them is ready.
    fn is_only(&mut self, ready: &[Ready]) -> bool {
        let before = self.last;
        match ready {
            [] => return false,
            [it] if self.waiting.is_empty() => self.last = Some(it.name),
            _ => self.last = None,
        }
        self.last.is_some() && self.last == before
    }

    fn resume_listeners(&mut self, now: Instant) -> Outcome<()> {
        let poll = &self.poll;
        self.hosts.iter_mut().try_for_each(|it| it.resume(poll, now))?;
        self.control.as_mut().map_or(Ok(()), |it| it.resume(poll, now))
    }

    fn accept_hosts(&mut self, listener: usize) -> Outcome<()> {
        while let Some((socket, peer)) = self.hosts[listener].next(&self.poll, TcpListener::accept)? {
            let name = self.next;
            self.next += 1;
            let (peer, local) = (plain(peer), socket.local_addr().map(plain));
            let is_set = socket.set_nonblocking(true).and_then(|()| socket.set_nodelay(true));
            let is_set = is_set.and_then(|()| end_when_lost(&socket));
            let is_added = is_set.and_then(|()| self.poll.add(&socket, name, TO_READ));
            if let (Ok(local), Ok(()), Ok(transfers)) = (local, is_added, Transfers::new()) {
                let queue = HostQueue::new(name, peer, local);
                let connection = Connection::new(socket, queue, transfers);
                self.target.counters.accepted += 1;
                self.connections.insert(name, Served { connection, interest: TO_READ, waits_for: None });
                self.make_room()?;
            }
        }
        Ok(())
    }

    /// Closes a connection that is no queue of a controller, if there are too many: the oldest of the address that has
    /// the most of them, so that nobody drives out the hosts of other addresses.
    fn make_room(&mut self) -> Outcome<()> {
        let mut guests: HashMap<IpAddr, Vec<u64>> = HashMap::new();
        for (name, Served { connection, .. }) in &self.connections {
            if !matches!(connection.queue.session.last(), Live::Queue { .. }) {
                guests.entry(connection.queue.peer.ip()).or_default().push(*name);
            }
        }
        if guests.values().map(Vec::len).sum::<usize>() <= MOST_GUESTS {
            return Ok(());
        }
        let oldest = |names: &Vec<u64>| names.iter().min().copied();
        let most = guests.values().max_by_key(|names| (names.len(), Reverse(oldest(names))));
        most.and_then(oldest).map_or(Ok(()), |name| self.close(name, Closing::Crowded))
    }

    /// Serves a connection, unless it waits for the journal or the kept run; whether it did.
    fn serve(&mut self, name: u64, ready: Ready) -> Outcome<bool> {
        let served = match self.connections.get_mut(&name) {
            Some(served) => served,
            None => return Ok(false),
        };
        if let Some(handed) = served.waits_for {
            // A record takes a sync of the disk. Until then the loop would turn for what this host sends.
            if self.target.has_events(handed)? {
                served.watch(&self.poll, name, NOTHING)?;
            }
            return Ok(false);
        }
        if ready.read || ready.is_over {
            served.connection.receive(&mut self.target, &mut self.rooms)?;
        }
        self.finish(name, false)?;
        Ok(true)
    }

    /// Continues connections whose authentication has waited for a computation.
    fn take_work(&mut self) -> Outcome<()> {
        for Finished { connection, done } in self.target.take_finished() {
            if let Some(served) = self.connections.get_mut(&connection) {
                served.connection.finish_work(&mut self.target, done)?;
                self.finish(connection, false)?;
            }
        }
        Ok(())
    }

    /// Continues commands and connections that have waited for the disk.
    fn take_blocks(&mut self) -> Outcome<()> {
        self.target.storage.as_mut().map_or(Ok(()), Storage::take_finished)?;
        self.apply_effects()?;
        self.resume_stalled()
    }

    fn resume_stalled(&mut self) -> Outcome<()> {
        for name in mem::take(&mut self.stalled) {
            self.finish(name, false)?;
        }
        Ok(())
    }

    /// Begins the writes that have waited for records of the journal. The answers that have are sent at the end of the
    /// turn.
    fn take_records(&mut self) -> Outcome<()> {
        self.target.journal.iter().for_each(|it| it.wakeup.clear());
        self.apply_effects()
    }

    /// Sends the answers for which the disk has all records, and the system all that had to be written.
    fn resume(&mut self) -> Outcome<()> {
        for _ in 0..self.waiting.len() {
            let name = self.waiting.pop_front().unwrap_or_default();
            let served = match self.connections.get_mut(&name) {
                Some(served) => served,
                None => continue,
            };
            match served.waits_for {
                Some(handed) if !self.target.has(handed)? => self.waiting.push_back(name),
                _ => {
                    served.waits_for = None;
                    self.finish(name, true)?;
                }
            }
        }
        Ok(())
    }

    /// Flushes a connection, then applies side effects on others.
    fn finish(&mut self, name: u64, is_handed: bool) -> Outcome<()> {
        self.send(name, is_handed)?;
        if self.connections.get(&name).map_or(false, |it| it.connection.is_closed) {
            self.close(name, Closing::ByHost)?;
        }
        self.apply_effects()
    }

    /// Sends a connection's answers, and takes PDUs that had to wait for that. The journal is synced and the kept run is
    /// written first, so that they have everything that a host was answered. If that takes a while, the connection waits
    /// for it.
    fn send(&mut self, name: u64, is_handed: bool) -> Outcome<()> {
        let Server { target, connections, waiting, stalled, is_alone, .. } = self;
        let served = match connections.get_mut(&name) {
            Some(served) => served,
            None => return Ok(()),
        };
        let mut is_handed = is_handed;
        loop {
            let handed = if is_handed { Handed::default() } else { target.hand_over(*is_alone)? };
            if !target.has(handed)? {
                if served.waits_for.replace(handed).is_none() {
                    waiting.push_back(name);
                }
                return Ok(());
            }
            target.check_time()?;
            served.connection.send(target);
            if !served.connection.has_more(target) {
                if served.connection.waits_for_disk && !stalled.contains(&name) {
                    stalled.push(name);
                }
                return served.wait_by(&self.poll, name);
            }
            served.connection.take_all(target)?;
            is_handed = false;
        }
    }

    /// Closes a connection, for this reason unless it ends for another: its queue ends.
    fn close(&mut self, name: u64, closing: Closing) -> Outcome<()> {
        if let Some(Served { mut connection, .. }) = self.connections.remove(&name) {
            let _ = self.poll.remove(&connection.socket);
            self.target.lose(&mut connection.queue, connection.closing.unwrap_or(closing))?;
        }
        Ok(())
    }

    /// Does what connections are to do because of others, and because of the disk.
    fn apply_effects(&mut self) -> Outcome<()> {
        let (mut answered, mut is_handed): (Vec<u64>, bool) = (Vec::new(), false);
        loop {
            if let Some((name, entry, answer)) = self.next_answer()? {
                is_handed = false;
                if self.answer(name, &entry, answer)? && !answered.contains(&name) {
                    answered.push(name);
                }
            } else if let Some(name) = answered.pop() {
                self.send(name, false)?;
            } else if is_handed {
                return Ok(());
            } else {
                // What is written at once has answers then.
                self.target.hand_over(self.is_alone)?;
                is_handed = true;
            }
        }
    }

    /// Answers a command of a connection, if it is still there; whether the answer must be sent yet.
    fn answer(&mut self, name: u64, entry: &SubmissionEntry, answer: Answer) -> Outcome<bool> {
        let served = match self.connections.get_mut(&name) {
            Some(served) => served,
            None => return Ok(false),
        };
        served.connection.answer(&mut self.target, entry, answer)?;
        let is_full = served.connection.is_full();
        if is_full {
            // The processor still has long answers in its cache.
            self.send(name, false)?;
        }
        Ok(!is_full)
    }

    /// The next answer that is due. Connections that must be closed before it are closed.
    fn next_answer(&mut self) -> Outcome<Option<(u64, SubmissionEntry, Answer)>> {
        while let Some(effect) = self.target.effects.pop_front() {
            match effect {
                Effect::Close(name) => self.close(name, Closing::Association)?,
                Effect::Answer(name, entry, answer) => return Ok(Some((name, entry, answer))),
            }
        }
        self.target.next_answer()
    }

    fn close_late(&mut self, now: Instant) -> Outcome<()> {
        self.target.expire(now)?;
        self.apply_effects()?;
        let late: Vec<u64> =
            self.connections.iter().filter(|(_, it)| it.connection.is_late(now)).map(|(name, _)| *name).collect();
        late.into_iter().try_for_each(|name| self.close(name, Closing::Late))?;
        self.consoles.retain(|_, it| !it.console.is_late(now));
        Ok(())
    }

    fn accept_consoles(&mut self) -> Outcome<()> {
        while let Some(control) = &mut self.control {
            let (stream, _) = match control.next(&self.poll, UnixListener::accept)? {
                Some(accepted) => accepted,
                None => break,
            };
            let name = self.next;
            self.next += 1;
            let is_set = stream.set_nonblocking(true).and_then(|()| self.poll.add(&stream, name, TO_READ));
            if is_set.is_ok() && self.consoles.len() < MOST_CONSOLES {
                self.consoles.insert(name, Asking { console: Console::new(stream), interest: TO_READ });
            }
        }
        Ok(())
    }

    fn serve_console(&mut self, name: u64) -> Outcome<()> {
        let mut has_more = false;
        if let Some(asking) = self.consoles.get_mut(&name) {
            has_more = asking.console.serve(&mut self.target)?;
            let wanted = asking.console.wants();
            if has_more && wanted != asking.interest {
                self.poll.change(&asking.console.stream, name, wanted).map_err(Fault::System)?;
                asking.interest = wanted;
            }
        }
        if !has_more {
            self.consoles.remove(&name);
        }
        self.apply_effects()
    }
}
