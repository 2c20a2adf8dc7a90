//! What hosts and targets said to each other, for the timeline: each command with its times and status, read from the
//! bytes that the sockets of hosts send and receive; and each process with its begin and end.

use std::collections::BTreeMap;

/// Types of PDUs.
const CAPSULE: u8 = 4;
const RESPONSE: u8 = 5;
/// Opcodes.
pub const FABRICS: u8 = 0x7f;
const CONNECT: u8 = 1;
const DATASET_MANAGEMENT: u8 = 0x09;
/// The header of a PDU, and the most bytes of one.
const HEADER: usize = 8;
const MOST: usize = 1 << 22;
/// The length of a capsule without data, and of a response.
const CAPSULE_HEADER: usize = 72;
const RESPONSE_LENGTH: usize = 24;

/// A command that a host has sent.
#[derive(Clone, Debug)]
pub struct Told {
    pub cntlid: u16,
    pub qid: u16,
    pub opcode: u8,
    /// The type of a Fabrics command.
    pub form: u8,
    pub slba: u64,
    pub count: u64,
    /// The first word of its data, if they are in its capsule.
    pub value: Option<u64>,
    pub sent: u64,
    /// When its answer had come, or its connection had ended.
    pub end: Option<u64>,
    pub status: Option<u16>,
}

/// A process of a machine.
#[derive(Clone, Debug)]
pub struct Lived {
    pub process: usize,
    pub machine: usize,
    pub begin: u64,
    pub end: Option<u64>,
}

/// A connection of a host.
#[derive(Default)]
struct Stream {
    going: Vec<u8>,
    coming: Vec<u8>,
    cntlid: u16,
    qid: u16,
    /// The commands without an answer.
    open: BTreeMap<u16, usize>,
}

#[derive(Default)]
pub struct Tap {
    streams: BTreeMap<i32, Stream>,
    pub told: Vec<Told>,
    pub lived: Vec<Lived>,
    /// Events that are no command's.
    pub notes: Vec<(u64, String)>,
}

fn u16_at(bytes: &[u8], at: usize) -> u16 {
    u16::from_le_bytes([bytes[at], bytes[at + 1]])
}

fn u64_at(bytes: &[u8], at: usize) -> u64 {
    let mut word = [0; 8];
    word.copy_from_slice(&bytes[at..at + 8]);
    u64::from_le_bytes(word)
}

/// Takes a whole PDU off the front, if there is one. What is no PDU is dropped.
fn unit(bytes: &mut Vec<u8>) -> Option<Vec<u8>> {
    if bytes.len() < HEADER {
        return None;
    }
    let length = u64_at(bytes, 0) as usize >> 32;
    if !(HEADER..=MOST).contains(&length) {
        bytes.clear();
        return None;
    }
    if bytes.len() < length {
        return None;
    }
    let rest = bytes.split_off(length);
    Some(std::mem::replace(bytes, rest))
}

impl Stream {
    fn sent(&mut self, unit: &[u8], now: u64, told: &mut Vec<Told>) {
        if unit[0] != CAPSULE || unit.len() < CAPSULE_HEADER {
            return;
        }
        // The data begin where the header has it: after a digest, if there is one.
        let (entry, place) = (&unit[HEADER..CAPSULE_HEADER], usize::from(unit[3]).max(CAPSULE_HEADER));
        let data = unit.get(place..).unwrap_or(&[]);
        let (opcode, form) = (entry[0], entry[4]);
        if opcode == FABRICS && form == CONNECT && data.len() >= 18 {
            (self.cntlid, self.qid) = (u16_at(data, 16), u16_at(entry, 42));
        }
        let (mut slba, mut count) = (u64_at(entry, 40), u64::from(u16_at(entry, 48)) + 1);
        if opcode == DATASET_MANAGEMENT && data.len() >= 16 {
            (count, slba) = (u64_at(data, 0) >> 32, u64_at(data, 8));
        }
        let value = if data.len() >= 8 { Some(u64_at(data, 0)) } else { None };
        self.open.insert(u16_at(entry, 2), told.len());
        let (cntlid, qid) = (self.cntlid, self.qid);
        told.push(Told { cntlid, qid, opcode, form, slba, count, value, sent: now, end: None, status: None });
    }

    fn received(&mut self, unit: &[u8], now: u64, told: &mut [Told]) {
        if unit[0] == RESPONSE && unit.len() >= RESPONSE_LENGTH {
            if let Some(at) = self.open.remove(&u16_at(unit, 20)) {
                (told[at].end, told[at].status) = (Some(now), Some(u16_at(unit, 22) >> 1 & 0x7ff));
            }
        }
    }
}

impl Tap {
    /// A host has sent these bytes by a socket.
    pub fn send(&mut self, socket: i32, bytes: &[u8], now: u64) {
        let stream = self.streams.entry(socket).or_default();
        stream.going.extend(bytes);
        while let Some(unit) = unit(&mut stream.going) {
            stream.sent(&unit, now, &mut self.told);
        }
    }

    /// A host has received these.
    pub fn receive(&mut self, socket: i32, bytes: &[u8], now: u64) {
        let stream = self.streams.entry(socket).or_default();
        stream.coming.extend(bytes);
        while let Some(unit) = unit(&mut stream.coming) {
            stream.received(&unit, now, &mut self.told);
        }
    }

    /// A socket of a host is dropped.
    pub fn close(&mut self, socket: i32, now: u64) {
        let stream = self.streams.remove(&socket).unwrap_or_default();
        stream.open.values().for_each(|at| self.told[*at].end = Some(now));
    }

    pub fn note(&mut self, now: u64, text: &str) {
        if !text.starts_with("path ") {
            self.notes.push((now, text.to_owned()));
        }
    }

    pub fn begin(&mut self, process: usize, machine: usize, now: u64) {
        self.lived.push(Lived { process, machine, begin: now, end: None });
    }

    pub fn end(&mut self, process: usize, now: u64) {
        let it = self.lived.iter_mut().find(|it| it.process == process && it.end.is_none());
        it.into_iter().for_each(|it| it.end = Some(now));
    }
}

#[cfg(test)]
mod tests {
    use super::*;

    #[test]
    fn a_command_is_followed_through_pieces() {
        let mut capsule = vec![0; CAPSULE_HEADER];
        (capsule[0], capsule[4], capsule[8], capsule[10]) = (CAPSULE, 72, 2, 5);
        (capsule[48], capsule[56]) = (9, 3);
        let mut response = [0; RESPONSE_LENGTH];
        (response[0], response[4], response[20]) = (RESPONSE, 24, 5);
        response[22..24].copy_from_slice(&(0x83u16 << 1).to_le_bytes());
        let mut tap = Tap::default();
        capsule.chunks(7).for_each(|it| tap.send(1, it, 10));
        response.chunks(5).for_each(|it| tap.receive(1, it, 20));
        let it = &tap.told[0];
        assert_eq!((it.opcode, it.slba, it.count, it.sent, it.end, it.status), (2, 9, 4, 10, Some(20), Some(0x83)));
        let mut connect = [&capsule[..], &[0; 4 + 1024]].concat();
        connect[3..7].copy_from_slice(&[76, 0x4c, 4, 0]);
        (connect[8], connect[12], connect[50], connect[76 + 16]) = (FABRICS, CONNECT, 1, 6);
        tap.send(3, &connect, 25);
        assert_eq!((tap.told[1].cntlid, tap.told[1].qid), (6, 1), "its data are after a digest");
        tap.send(2, &[0xff; 99], 30);
        tap.send(2, &capsule, 30);
        tap.close(2, 40);
        assert_eq!((tap.told.len(), tap.told[2].end, tap.told[2].status), (3, Some(40), None));
    }
}
