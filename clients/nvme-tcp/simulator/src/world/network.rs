//! The network: connections whose bytes arrive later and in pieces, and which can be cut.

use super::Key;
use crate::chance::Random;
use std::cmp::Reverse;
use std::collections::{BTreeMap, BinaryHeap, VecDeque};
use std::net::SocketAddr;

#[derive(Debug)]
enum Segment {
    Bytes(Vec<u8>),
    End,
    Reset,
}

/// One side of a connection.
#[derive(Debug)]
pub struct Side {
    pub process: usize,
    pub peer: i32,
    /// The addresses of this side and of the other.
    pub local: SocketAddr,
    pub remote: SocketAddr,
    /// What has arrived, and what is on the way to this side.
    come: VecDeque<u8>,
    coming: VecDeque<(u64, Segment)>,
    coming_bytes: usize,
    /// The other side has ended, or is gone.
    pub has_ended: bool,
    pub is_reset: bool,
    /// This side has sent its end, or was dropped.
    has_sent_end: bool,
    is_closed: bool,
    pub is_waiting: bool,
    /// The poll that watches it.
    pub poll: Option<i32>,
    /// Between threads of one process: nothing is late.
    is_local: bool,
    /// Nothing that it sends arrives any more, without a sign of it.
    is_lost: bool,
}

#[derive(Debug)]
pub struct Listening {
    pub process: usize,
    pub address: Option<SocketAddr>,
    pub path: Option<String>,
    pub waiting: VecDeque<i32>,
    pub poll: Option<i32>,
}

/// What a poll watches: the descriptor, its name, and whether reads and writes are awaited.
#[derive(Debug, Default)]
pub struct Poll {
    pub watched: BTreeMap<i32, (u64, bool, bool)>,
}

#[derive(Default)]
pub struct Network {
    next: i32,
    pub sides: BTreeMap<i32, Side>,
    pub listening: BTreeMap<i32, Listening>,
    pub polls: BTreeMap<i32, Poll>,
    arrivals: BinaryHeap<Reverse<(u64, i32)>>,
    next_port: u16,
    /// How long a segment takes, in nanoseconds.
    pub slow: (u64, u64),
    /// The most bytes that are on the way or wait to be read, in each direction.
    pub window: usize,
}

impl Network {
    pub fn descriptor(&mut self) -> i32 {
        self.next += 1;
        self.next + 2
    }

    pub fn port(&mut self) -> u16 {
        self.next_port = self.next_port % 20_000 + 1;
        30_000 + self.next_port
    }

    fn side(&mut self, process: usize, peer: i32, local: SocketAddr, remote: SocketAddr, is_local: bool) -> Side {
        Side {
            process,
            peer,
            local,
            remote,
            come: VecDeque::new(),
            coming: VecDeque::new(),
            coming_bytes: 0,
            has_ended: false,
            is_reset: false,
            has_sent_end: false,
            is_closed: false,
            is_waiting: true,
            poll: None,
            is_local,
            is_lost: false,
        }
    }

    /// A pair of sides, of these processes, with these addresses.
    pub fn pair(&mut self, processes: [usize; 2], places: [SocketAddr; 2], is_local: bool) -> [i32; 2] {
        let names = [self.descriptor(), self.descriptor()];
        for it in 0..2 {
            let side = self.side(processes[it], names[1 - it], places[it], places[1 - it], is_local);
            self.sides.insert(names[it], side);
        }
        names
    }

    /// The keys of those that wait for a descriptor, or for a poll that watches it.
    pub fn keys(&self, name: i32) -> Vec<Key> {
        let poll = self.sides.get(&name).and_then(|it| it.poll);
        let poll = poll.or_else(|| self.listening.get(&name).and_then(|it| it.poll));
        std::iter::once(Key::Descriptor(name)).chain(poll.map(Key::Descriptor)).collect()
    }

    /// When the next segment arrives.
    pub fn next(&self) -> Option<u64> {
        self.arrivals.peek().map(|Reverse((at, _))| *at)
    }

    /// Delivers a segment that is due: what to wake.
    pub fn deliver(&mut self, now: u64) -> Option<Vec<Key>> {
        let Reverse((at, name)) = *self.arrivals.peek()?;
        if at > now {
            return None;
        }
        self.arrivals.pop();
        let side = match self.sides.get_mut(&name) {
            Some(side) => side,
            None => return Some(Vec::new()),
        };
        let peer = side.peer;
        match side.coming.pop_front() {
            Some((_, Segment::Bytes(bytes))) => {
                side.coming_bytes -= bytes.len();
                if !side.is_reset {
                    side.come.extend(bytes);
                }
            }
            Some((_, Segment::End)) => side.has_ended = true,
            Some((_, Segment::Reset)) => {
                side.is_reset = true;
                side.come.clear();
            }
            None => (),
        }
        let mut keys = self.keys(name);
        keys.extend(self.keys(peer));
        Some(keys)
    }

    fn send(&mut self, from: i32, segment: Segment, now: u64, random: &mut Random) {
        let (slow, peer, is_lost) = match self.sides.get(&from) {
            Some(side) => (if side.is_local { (100, 2_000) } else { self.slow }, side.peer, side.is_lost),
            None => return,
        };
        if is_lost {
            return;
        }
        if let Some(side) = self.sides.get_mut(&peer) {
            let last = side.coming.back().map_or(0, |(at, _)| *at);
            let at = last.max(now + random.within(slow.0, slow.1));
            if let Segment::Bytes(bytes) = &segment {
                side.coming_bytes += bytes.len();
            }
            side.coming.push_back((at, segment));
            self.arrivals.push(Reverse((at, peer)));
        }
    }

    /// How many bytes a side can send now.
    pub fn room(&self, name: i32) -> usize {
        let side = match self.sides.get(&name) {
            Some(side) => side,
            None => return 0,
        };
        match self.sides.get(&side.peer) {
            Some(peer) => self.window.saturating_sub(peer.come.len() + peer.coming_bytes),
            None => self.window,
        }
    }

    pub fn write(&mut self, name: i32, bytes: &[u8], now: u64, random: &mut Random) {
        let mut rest = bytes;
        while !rest.is_empty() {
            let count = if rest.len() > 8 && random.once_in(8) { 1 + random.index(rest.len()) } else { rest.len() };
            self.send(name, Segment::Bytes(rest[..count].to_vec()), now, random);
            rest = &rest[count..];
        }
    }

    /// Takes bytes that have come.
    pub fn read(&mut self, name: i32, room: &mut [u8], count: usize) {
        if let Some(side) = self.sides.get_mut(&name) {
            let (first, second) = side.come.as_slices();
            let split = first.len().min(count);
            room[..split].copy_from_slice(&first[..split]);
            room[split..count].copy_from_slice(&second[..count - split]);
            side.come.drain(..count);
        }
    }

    pub fn come(&self, name: i32) -> usize {
        self.sides.get(&name).map_or(0, |it| it.come.len())
    }

    /// A side sends nothing more.
    pub fn end(&mut self, name: i32, now: u64, random: &mut Random) {
        if self.sides.get_mut(&name).map_or(false, |it| !std::mem::replace(&mut it.has_sent_end, true)) {
            self.send(name, Segment::End, now, random);
        }
    }

    /// A side is dropped. With bytes that nobody has read the other side is reset, as TCP does.
    pub fn close(&mut self, name: i32, now: u64, random: &mut Random) {
        let unread = match self.sides.get_mut(&name) {
            Some(side) if !side.is_closed => {
                side.is_closed = true;
                !side.come.is_empty() || !side.coming.is_empty()
            }
            _ => return,
        };
        if unread {
            self.send(name, Segment::Reset, now, random);
        }
        self.end(name, now, random);
        self.drop_closed(name);
    }

    /// Forgets a connection of which both sides are closed.
    fn drop_closed(&mut self, name: i32) {
        let peer = self.sides.get(&name).map_or(0, |it| it.peer);
        let watching = self.sides.get_mut(&name).and_then(|it| it.poll.take());
        if let Some(poll) = watching.and_then(|it| self.polls.get_mut(&it)) {
            poll.watched.remove(&name);
        }
        if self.sides.get(&peer).map_or(true, |it| it.is_closed) {
            self.sides.remove(&name);
            self.sides.remove(&peer);
        }
    }

    /// Cuts a connection: both sides are reset. What was on the way is lost.
    pub fn cut(&mut self, name: i32, now: u64, random: &mut Random) {
        let peer = self.sides.get(&name).map_or(0, |it| it.peer);
        for (from, to) in [(name, peer), (peer, name)] {
            if let Some(side) = self.sides.get_mut(&to) {
                let keep = random.index(side.coming.len() + 1);
                for (_, segment) in side.coming.iter_mut().skip(keep) {
                    if let Segment::Bytes(bytes) = segment {
                        side.coming_bytes -= bytes.len();
                        bytes.clear();
                    }
                }
            }
            self.send(from, Segment::Reset, now, random);
        }
    }

    /// The sockets of a process that is gone. If its machine is gone too, the others notice nothing until `silent` is
    /// over.
    pub fn drop_all(&mut self, process: usize, now: u64, silent: u64, random: &mut Random) {
        let names: Vec<i32> =
            self.sides.iter().filter(|(_, it)| it.process == process).map(|(name, _)| *name).collect();
        for name in names {
            if self.sides.get(&name).map_or(true, |it| it.is_closed) {
                continue;
            }
            let later = now + if silent == 0 { 0 } else { random.within(0, silent) };
            self.send(name, Segment::Reset, later, random);
            if let Some(side) = self.sides.get_mut(&name) {
                (side.is_closed, side.is_lost) = (true, true);
            }
            self.drop_closed(name);
        }
        self.listening.retain(|_, it| it.process != process);
    }

    /// Whether a descriptor can be read, can be written, and is over.
    pub fn readiness(&self, name: i32) -> (bool, bool, bool) {
        if let Some(it) = self.listening.get(&name) {
            return (!it.waiting.is_empty(), false, false);
        }
        match self.sides.get(&name) {
            Some(it) => {
                let reads = !it.come.is_empty() || it.has_ended || it.is_reset;
                (reads, self.room(name) != 0 || it.is_reset, it.is_reset || it.has_ended && it.has_sent_end)
            }
            None => (false, false, false),
        }
    }
}
