//! A queue of a host: a connection that sends command capsules and receives their completions.

use super::pdu::{
    self, data_of, pdu, u16_at, u32_at, Digests, CAPSULE, CONTROLLER_DATA, HOST_DATA, IC_REQUEST, IC_RESPONSE, LAST,
    READY_TO_TRANSFER, RESPONSE, TERMINATION,
};
use super::process_at;
use crate::shadow::net::TcpStream;
use crate::world::{self, with, Key, SECOND};
use std::collections::{BTreeMap, BTreeSet};
use std::io::{self, ErrorKind, Read, Write};
use std::net::{Shutdown, SocketAddr};

/// The most bytes of a write that go into its capsule.
const MOST_IN_CAPSULE: usize = 8192;
/// How long the target may take for an answer, or to end the connection.
pub const PATIENCE: u64 = 60 * SECOND;

/// Why a queue is of no use any more.
#[derive(Debug)]
pub enum Lost {
    /// The connection has ended.
    Ended,
    /// The target has refused a Connect.
    Refused,
    /// Neither an answer nor an end has come in time.
    Silent,
    /// The target broke the transport's rules.
    Broken(String),
}

impl From<io::Error> for Lost {
    fn from(_: io::Error) -> Lost {
        Lost::Ended
    }
}

#[derive(Clone, Debug)]
pub struct Completion {
    pub cid: u16,
    /// Status Code Type and Status Code.
    pub status: u16,
    pub value: u64,
    pub data: Vec<u8>,
}

/// A command: opcode, namespace, double words 10 to 15, and its data or the bytes that it wants.
#[derive(Clone, Debug, Default)]
pub struct Command {
    pub opcode: u8,
    pub form: u8,
    pub nsid: u32,
    pub words: Vec<u8>,
    pub data: Vec<u8>,
    pub length: usize,
    pub in_capsule: bool,
    /// Whether some of its data change on the way, so that their digest is wrong.
    pub is_spoiled: bool,
    /// An identifier that is in use, and a pointer that does not fit its data.
    pub cid: Option<u16>,
    pub pointer: Option<Pointer>,
    /// What is wrong with the PDUs of its data, if they are.
    pub breach: Breach,
}

/// A rule of H2CData that a host breaks.
#[derive(Clone, Copy, Debug, Default, PartialEq, Eq)]
pub enum Breach {
    #[default]
    None,
    Command,
    Tag,
    Offset,
    TooMany,
    EarlyLast,
    NoLast,
    /// None is sent.
    Silence,
}

/// PSDT, and a descriptor of an SGL.
#[derive(Clone, Copy, Debug)]
pub struct Pointer {
    pub psdt: u8,
    pub address: u64,
    pub length: u32,
    pub kind: u8,
}

pub struct Queue {
    stream: TcpStream,
    come: Vec<u8>,
    data: BTreeMap<u16, Vec<u8>>,
    /// Data that the target asks for, and whether some change on the way.
    going: BTreeMap<u16, (Vec<u8>, bool, Breach)>,
    next: u16,
    digests: Digests,
    /// Asynchronous Event Requests that have no answer, and the answers of others.
    pub requests: BTreeSet<u16>,
    pub events: Vec<Completion>,
    /// The Fatal Error Status with which the target has ended the connection.
    pub terminated: Option<u16>,
    /// Whether completions have SQHD: there is flow control of the submission queue.
    pub has_flow: bool,
    /// The target, and whether it had no random number for the last authentication.
    process: usize,
    pub lacks_number: bool,
}

/// H2CData.
fn host_data(
    (cid, tag): (u16, u16),
    at: usize,
    piece: &[u8],
    is_last: bool,
    breach: Breach,
    digests: Digests,
) -> Vec<u8> {
    let is = |other| breach == other;
    let (cid, tag) = (cid ^ u16::from(is(Breach::Command)) << 14, tag + u16::from(is(Breach::Tag)));
    let offset = at as u32 + if is(Breach::Offset) { 4 } else { 0 };
    let data = if is(Breach::TooMany) { [piece, &[0; 131_072][..piece.len()]].concat() } else { piece.to_vec() };
    let mut header = [cid.to_le_bytes(), tag.to_le_bytes()].concat();
    header.extend(offset.to_le_bytes());
    header.extend((data.len() as u32).to_le_bytes());
    header.extend([0; 4]);
    let has_last = (is_last || is(Breach::EarlyLast)) && !is(Breach::NoLast);
    pdu(HOST_DATA, if has_last { LAST } else { 0 }, &header, &data, digests)
}

impl Queue {
    /// Connects, and exchanges ICReq and ICResp.
    pub fn open(address: SocketAddr, digests: Digests) -> Result<Queue, Lost> {
        let mut queue = Queue::begin(address)?;
        queue.agree(digests)?;
        Ok(queue)
    }

    /// Exchanges ICReq and ICResp.
    pub fn agree(&mut self, digests: Digests) -> Result<(), Lost> {
        let mut request = vec![0; 120];
        request[3] = digests.field();
        self.send_bytes(&pdu(IC_REQUEST, 0, &request, &[], Digests::default()))?;
        let unit = self.unit(with(|it| it.now) + PATIENCE)?;
        if unit[0] != IC_RESPONSE || unit[11] != digests.field() {
            return Err(Lost::Broken(format!("ICReq is answered by a PDU of type {}, DGST {}", unit[0], unit[11])));
        }
        self.digests = digests;
        Ok(())
    }

    /// Connects, and sends nothing.
    pub fn begin(address: SocketAddr) -> Result<Queue, Lost> {
        let stream = TcpStream::connect(address)?;
        stream.set_nonblocking(true)?;
        Ok(Queue {
            stream,
            come: Vec::new(),
            data: BTreeMap::new(),
            going: BTreeMap::new(),
            next: 0,
            digests: Digests::default(),
            requests: BTreeSet::new(),
            events: Vec::new(),
            terminated: None,
            has_flow: true,
            process: process_at(address),
            lacks_number: false,
        })
    }

    /// The target has refused to begin an authentication that was asked for at a time: it may have had no random number
    /// since. Each that it lacked excuses one queue.
    pub fn look_for_failed_number(&mut self, begun: u64) {
        let process = self.process;
        self.lacks_number = with(|it| {
            let found = it.failed_numbers.iter().position(|(by, at)| *by == process && *at >= begun);
            found.map(|at| it.failed_numbers.remove(at)).is_some()
        });
    }

    pub fn name(&self) -> i32 {
        use std::os::unix::io::AsRawFd;
        self.stream.as_raw_fd()
    }

    /// Sends bytes, and takes what comes meanwhile: a target whose answers have no room takes no commands either.
    pub fn send_bytes(&mut self, bytes: &[u8]) -> Result<(), Lost> {
        let (mut rest, mut end) = (bytes, with(|it| it.now) + PATIENCE);
        while !rest.is_empty() {
            match self.stream.write(rest) {
                Ok(count) => {
                    rest = &rest[count..];
                    end = with(|it| it.now) + PATIENCE;
                }
                Err(error) if error.kind() == ErrorKind::WouldBlock => self.take_bytes(end)?,
                Err(error) => return Err(error.into()),
            }
        }
        Ok(())
    }

    /// Takes what has come. If nothing has, it waits until something has, or there is room for what is sent.
    fn take_bytes(&mut self, end: u64) -> Result<(), Lost> {
        if !self.stream.has_come() {
            let is_late = world::wait(Key::Descriptor(self.name()), Some(end));
            return if is_late { Err(Lost::Silent) } else { Ok(()) };
        }
        let mut room = [0; 65536];
        match self.stream.read(&mut room) {
            Ok(0) => return Err(Lost::Ended),
            Ok(count) => self.come.extend(&room[..count]),
            Err(error) if error.kind() == ErrorKind::WouldBlock => (),
            Err(error) => return Err(error.into()),
        }
        Ok(())
    }

    /// The next PDU, if it comes by this time.
    fn unit(&mut self, end: u64) -> Result<Vec<u8>, Lost> {
        loop {
            let length = if self.come.len() >= 8 { u32_at(&self.come, 4) as usize } else { 8 };
            if self.come.len() >= 8 && !(8..=1 << 21).contains(&length) {
                return Err(Lost::Broken(format!("a PDU of {length} bytes")));
            }
            if self.come.len() >= 8 && self.come.len() >= length {
                let rest = self.come.split_off(length);
                let unit = std::mem::replace(&mut self.come, rest);
                if unit[0] == TERMINATION {
                    self.terminated = unit.get(8..10).map(|it| u16_at(it, 0));
                    return Err(Lost::Ended);
                }
                return Ok(unit);
            }
            self.take_bytes(end)?;
        }
    }

    /// Sends nothing more.
    pub fn leave(&mut self) {
        let _ = self.stream.shutdown(Shutdown::Write);
    }

    /// Reads what has come, and forgets it.
    pub fn skip(&mut self) {
        let mut room = [0; 65536];
        while self.stream.has_come() && self.stream.read(&mut room).map_or(false, |count| count != 0) {}
    }

    /// Sends a command; its identifier.
    pub fn send(&mut self, command: &Command) -> Result<u16, Lost> {
        let cid = command.cid.unwrap_or(self.next);
        self.next = (self.next + u16::from(command.cid.is_none())) % 0x8000;
        let Command { opcode, form, nsid, words, data, length, in_capsule, is_spoiled, pointer, .. } = command;
        let is_inside = !data.is_empty() && (*in_capsule || data.len() <= MOST_IN_CAPSULE);
        let mut entry = [0; 64];
        (entry[0], entry[1]) = (*opcode, 0x40);
        entry[2..4].copy_from_slice(&cid.to_le_bytes());
        entry[4..8].copy_from_slice(&nsid.to_le_bytes());
        if *opcode == 0x7f {
            entry[4] = *form;
        }
        entry[32..36].copy_from_slice(&(data.len().max(*length) as u32).to_le_bytes());
        entry[39] = if is_inside { 0x01 } else { 0x5a };
        if let Some(it) = pointer {
            (entry[1], entry[39]) = (it.psdt, it.kind);
            entry[24..32].copy_from_slice(&it.address.to_le_bytes());
            entry[32..36].copy_from_slice(&it.length.to_le_bytes());
        }
        entry[40..40 + words.len()].copy_from_slice(words);
        if !data.is_empty() && !is_inside {
            self.going.insert(cid, (data.clone(), *is_spoiled, command.breach));
        }
        let mut unit = pdu(CAPSULE, 0, &entry, if is_inside { data } else { &[] }, self.digests);
        if is_inside && *is_spoiled {
            pdu::spoil(&mut unit);
        }
        self.send_bytes(&unit)?;
        Ok(cid)
    }

    /// The next completion. Requested data are sent meanwhile.
    pub fn receive(&mut self) -> Result<Completion, Lost> {
        self.receive_until(with(|it| it.now) + PATIENCE)
    }

    /// The next completion, if it comes by this time.
    pub fn receive_until(&mut self, end: u64) -> Result<Completion, Lost> {
        loop {
            let unit = self.unit(end)?;
            if unit.len() < 24 {
                return Err(Lost::Broken(format!("a PDU of type {} has {} bytes", unit[0], unit.len())));
            }
            let part = data_of(&unit, self.digests).map_err(Lost::Broken)?;
            match unit[0] {
                RESPONSE => {
                    let cid = u16_at(&unit, 20);
                    let value = u64::from(u32_at(&unit, 8)) | u64::from(u32_at(&unit, 12)) << 32;
                    let data = self.data.remove(&cid).unwrap_or_default();
                    if !self.has_flow && u16_at(&unit, 16) != 0xffff {
                        return Err(Lost::Broken("a completion has SQHD without flow control".to_owned()));
                    }
                    return Ok(Completion { cid, status: u16_at(&unit, 22) >> 1 & 0x7ff, value, data });
                }
                CONTROLLER_DATA => {
                    let (cid, count) = (u16_at(&unit, 8), u32_at(&unit, 16) as usize);
                    let data = self.data.entry(cid).or_default();
                    if u32_at(&unit, 12) as usize != data.len() || part.len() != count {
                        return Err(Lost::Broken("C2HData has a wrong offset or length".to_owned()));
                    }
                    data.extend(part);
                }
                READY_TO_TRANSFER => self.send_data(&unit)?,
                kind => return Err(Lost::Broken(format!("a PDU of type {kind}"))),
            }
        }
    }

    fn send_data(&mut self, unit: &[u8]) -> Result<(), Lost> {
        let (cid, tag) = (u16_at(unit, 8), u16_at(unit, 10));
        let (start, count) = (u32_at(unit, 12) as usize, u32_at(unit, 16) as usize);
        let (data, is_spoiled, breach) = self.going.get(&cid).cloned().unwrap_or_default();
        if breach == Breach::Silence {
            return Ok(());
        }
        if start + count > data.len() {
            return Err(Lost::Broken("R2T for data that there are not".to_owned()));
        }
        let part = with(|it| 512 * it.random.within(4, 64)) as usize;
        let spoiled = if is_spoiled { with(|it| it.random.index((count + part - 1) / part)) } else { usize::MAX };
        for at in (start..start + count).step_by(part) {
            let piece = &data[at..(at + part).min(start + count)];
            let is_last = at + piece.len() == start + count;
            let mut unit = host_data((cid, tag), at, piece, is_last, breach, self.digests);
            if (at - start) / part == spoiled {
                pdu::spoil(&mut unit);
            }
            self.send_bytes(&unit)?;
        }
        if start + count == data.len() {
            self.going.remove(&cid);
        }
        Ok(())
    }

    pub fn call(&mut self, command: &Command) -> Result<Completion, Lost> {
        let cid = self.send(command)?;
        loop {
            let completion = self.receive()?;
            if completion.cid == cid {
                return Ok(completion);
            }
            if !self.requests.remove(&completion.cid) {
                return Err(Lost::Broken(format!("command {cid} is answered by {}", completion.cid)));
            }
            self.events.push(completion);
        }
    }
}
