//! Which command a path sends next.

use super::checker::{bytes_of, check, Act, KEY};
use super::queue::Command;
use super::{below, once_in, Path, READ};

/// Opcodes.
const FLUSH: u8 = 0x00;
pub const WRITE: u8 = 0x01;
pub const COMPARE: u8 = 0x05;
pub const WRITE_ZEROES: u8 = 0x08;
pub const DATASET_MANAGEMENT: u8 = 0x09;
pub const REGISTER: u8 = 0x0d;
const REPORT: u8 = 0x0e;
pub const ACQUIRE: u8 = 0x11;
pub const RELEASE: u8 = 0x15;
/// Force Unit Access.
const FORCED: u32 = 1 << 30;
/// CPTPL: reservations persist through power loss, or do not. IEKEY.
const PERSISTS: u32 = 3 << 30;
const IS_LOST: u32 = 2 << 30;
const ANY_KEY: u32 = 1 << 3;
/// The blocks of long zeroes.
const LONG_ZEROES: (usize, usize) = (2_000, 2_600);
/// Out of this number of commands one has data that change on the way, if they have a digest and the host breaks rules.
const SPOILED: u64 = 60;

fn key_of(host: usize) -> u64 {
    KEY + host as u64
}

/// Whether a command has Force Unit Access.
pub fn is_forced(command: &Command) -> bool {
    matches!(command.opcode, WRITE | WRITE_ZEROES) && command.words.get(11).map_or(false, |it| it & 0x40 != 0)
}

/// A Reservation Report with 128-bit identifiers.
fn report() -> (Command, Act) {
    let words = [&1023u32.to_le_bytes()[..], &1u32.to_le_bytes()].concat();
    (Command { opcode: REPORT, nsid: 1, words, length: 4096, ..Command::default() }, Act::Report)
}

/// Zeroes that are long enough to wait for their turn.
fn zero_many(area: Area) -> (Command, Act) {
    let (place, count) = area.extent_of(LONG_ZEROES.0 + below(LONG_ZEROES.1 - LONG_ZEROES.0));
    let words = [&(place as u64).to_le_bytes()[..], &(count as u32 - 1).to_le_bytes()].concat();
    let command = Command { opcode: WRITE_ZEROES, nsid: area.nsid, words, ..Command::default() };
    (command, Act::Write { slba: area.base + place, values: vec![0; count] })
}

/// A namespace, and its blocks among those that are served.
#[derive(Clone, Copy, Debug)]
pub struct Area {
    pub nsid: u32,
    pub base: usize,
    pub blocks: usize,
}

impl Area {
    fn extent_of(&self, count: usize) -> (usize, usize) {
        let slba = below(self.blocks - count + 1);
        (if below(2) == 0 { slba % 32.min(self.blocks - count + 1) } else { slba }, count)
    }
}

impl Path {
    /// The namespaces that are attached to its controller.
    pub fn areas(&self) -> impl Iterator<Item = Area> {
        let first = Area { nsid: 1, base: 0, blocks: self.blocks };
        let second = Area { nsid: 2, base: self.blocks, blocks: self.second };
        [first, second].into_iter().filter(|it| it.blocks != 0)
    }

    fn area(&self) -> Area {
        let count = self.areas().count();
        let wanted = usize::from(count > 1 && below(3) == 0);
        self.areas().nth(wanted).unwrap_or(Area { nsid: 1, base: 0, blocks: self.blocks })
    }

    /// Blocks of a command: few regions are used more than others.
    pub fn extent(&self, area: Area) -> (usize, usize) {
        let count = if below(4) < self.long { 1 + below(self.longest) } else { 1 + below(self.longest.min(8)) };
        area.extent_of(count.min(area.blocks))
    }

    pub fn choose(&self) -> (Command, Act) {
        if (below(1000) as u64) < self.reserves {
            return self.choose_reserve();
        }
        let area = self.area();
        let (place, count) = self.extent(area);
        let slba = area.base + place;
        let forced = if once_in(self.forces) { FORCED } else { 0 };
        let words = [&(place as u64).to_le_bytes()[..], &((count as u32 - 1) | forced).to_le_bytes()].concat();
        let command = |opcode| Command { opcode, nsid: area.nsid, words: words.clone(), ..Command::default() };
        let bytes = |values: &[u64]| values.iter().flat_map(|it| bytes_of(*it)).collect::<Vec<u8>>();
        match self.kind() {
            Some(0) => {
                let values = check(|it| it.values(count));
                let is_spoiled = self.lies && self.digests.data && once_in(SPOILED);
                (Command { data: bytes(&values), is_spoiled, ..command(WRITE) }, Act::Write { slba, values })
            }
            Some(1) => (Command { length: count * 512, ..command(READ) }, Act::Read { slba, count }),
            Some(2) => {
                let values: Vec<u64> = (slba..slba + count).map(|it| check(|check| check.newest(it))).collect();
                (Command { data: bytes(&values), ..command(COMPARE) }, Act::Compare { slba, values })
            }
            Some(3) if area.blocks > LONG_ZEROES.1 && below(2) == 0 => zero_many(area),
            Some(3) => (command(WRITE_ZEROES), Act::Write { slba, values: vec![0; count] }),
            Some(_) => {
                let range = [&[0; 4][..], &(count as u32).to_le_bytes(), &(place as u64).to_le_bytes()].concat();
                let words = vec![0, 0, 0, 0, 4, 0, 0, 0];
                let command = Command { words, data: range, ..command(DATASET_MANAGEMENT) };
                (command, Act::Write { slba, values: vec![0; count] })
            }
            None => {
                (Command { words: Vec::new(), ..command(FLUSH) }, Act::Flush { slba: area.base, count: area.blocks })
            }
        }
    }

    /// Which of the kinds of its mix the next command has.
    fn kind(&self) -> Option<usize> {
        let mut rest = below(100);
        self.mix.iter().position(|share| {
            let is_it = rest < *share;
            rest = rest.saturating_sub(*share);
            is_it
        })
    }

    /// What a path that has connected looks at first: what was promised is there, before anything replaces it.
    pub fn first(&self) -> Vec<(Command, Act)> {
        let count = 32.min(self.blocks);
        let words = [&0u64.to_le_bytes()[..], &(count as u32 - 1).to_le_bytes()].concat();
        let read = Command { opcode: READ, nsid: 1, words, length: count * 512, ..Command::default() };
        let mut list = vec![(read, Act::Read { slba: 0, count })];
        if self.reserves != 0 {
            list.push(report());
        }
        list
    }

    fn choose_reserve(&self) -> (Command, Act) {
        let (key, other) = (key_of(self.host), below(self.hosts));
        // Types 1 and 2 let the holder alone write, the others all registrants.
        let kind = self.habits.reservation;
        let is_exclusive = kind <= 2;
        let (opcode, word, keys, act) = match below(14) {
            0..=3 => {
                let persists = if self.persists { PERSISTS } else { IS_LOST };
                (REGISTER, persists | ANY_KEY, vec![0, key], Act::Register)
            }
            4..=5 => (ACQUIRE, kind << 8, vec![key, 0], Act::Reserve { takes: is_exclusive, from: None }),
            // It takes the reservation only if the other has it.
            6..=7 => {
                let takes = is_exclusive && check(|it| it.holder()) == Some(other) && other != self.host;
                (ACQUIRE, 1 | kind << 8, vec![key, key_of(other)], Act::Reserve { takes, from: Some(other) })
            }
            8 => (RELEASE, kind << 8, vec![key], Act::Reserve { takes: false, from: None }),
            9..=10 => (REGISTER, 1, vec![key, 0], Act::Unregister),
            _ => return report(),
        };
        // Register again replaces the key by itself, which changes nothing of the reservation.
        let data = keys.iter().flat_map(|it: &u64| it.to_le_bytes()).collect();
        let words = word.to_le_bytes().to_vec();
        (Command { opcode, nsid: 1, words, data, ..Command::default() }, act)
    }
}
