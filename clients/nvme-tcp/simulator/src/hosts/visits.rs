//! Visits: connections that become no path. They ask a discovery controller, are refused, or break a rule of the
//! transport.

use super::admin::{described, one_of, words, SUCCESS};
use super::checker::check;
use super::fabrics::Connect;
use super::logs::page_command;
use super::pdu::{u16_at, u32_at};
use super::queue::{Command, Lost, Queue};
use super::{below, Path, CC, CSTS, ENABLE, KEEP_ALIVE};
use crate::world::{self, with, MILLISECOND, SECOND};
use std::net::SocketAddr;

const DISCOVERY: &str = "nqn.2014-08.org.nvmexpress.discovery";
/// The discovery log page.
const LOG_PAGE: u8 = 0x70;
/// CC with a normal shutdown.
const SHUTDOWN: u64 = 1 << 14;
/// Properties.
const CAP: u32 = 0x00;
const VS: u32 = 0x08;
/// Statuses.
const INVALID_OPCODE: u16 = 0x01;
const INVALID_FIELD: u16 = 0x02;
const SEQUENCE: u16 = 0x0c;
const INVALID_PAGE: u16 = 0x109;
const FORMAT: u16 = 0x180;
const BUSY: u16 = 0x181;
const PARAMETERS: u16 = 0x182;
const HOST: u16 = 0x184;
/// A host that no controller has, and one that may only come from elsewhere.
const UNKNOWN_HOST: u128 = 0xdead;
pub const HOST_OF_ELSEWHERE: u128 = 0xee;

/// Judges an answer.
fn expect(queue: &mut Queue, command: &Command, wanted: u16) -> Result<Vec<u8>, Lost> {
    let completion = queue.call(command)?;
    if completion.status == wanted {
        return Ok(completion.data);
    }
    Err(Lost::Broken(format!("{} has status {:x}, not {wanted:x}", described(command), completion.status)))
}

fn broken<T>(text: &str) -> Result<T, Lost> {
    Err(Lost::Broken(text.to_owned()))
}

impl Path {
    /// A visit of one kind.
    pub fn visit(&self, address: SocketAddr) {
        if let Some(choice) = self.choice.filter(|_| below(4) != 0) {
            return self.pretend(address, choice).unwrap_or_else(|lost| self.lose(&lost));
        }
        let result = match below(8) {
            0..=1 => self.discover(address),
            2..=3 => self.be_refused(address),
            4..=6 => self.break_rules(address),
            _ => self.crowd(address),
        };
        result.unwrap_or_else(|lost| self.lose(&lost));
    }

    /// Asks a discovery controller where the subsystem is.
    fn discover(&self, address: SocketAddr) -> Result<(), Lost> {
        let mut queue = Queue::open(address, self.digests)?;
        let begun = with(|it| it.now);
        let connect = Connect {
            // If hosts have to authenticate themselves, their names alone are asked for here.
            host: if self.choice.is_some() { self.host_id() } else { UNKNOWN_HOST },
            cntlid: 0xffff,
            subsystem: DISCOVERY.to_owned(),
            ..self.connect_of(0, one_of(&[0, 120_000]))
        };
        let connected = queue.connect(&connect)?;
        if connected.status == HOST && check(|it| it.keys.has_changed(self.host, begun)) {
            return Ok(());
        }
        if connected.status != SUCCESS {
            return broken(&format!("Connect to discovery has status {:x}", connected.status));
        }
        let identify = Command { opcode: 0x06, words: words(&[1]), length: 4096, ..Command::default() };
        expect(&mut queue, &identify, SEQUENCE)?;
        queue.set_property(CC, ENABLE)?;
        let values = [CAP, VS, CC, CSTS].map(|it| queue.property(it).map(|it| it.value));
        let [cap, version, configuration, state] = values;
        if cap? & 0xffff != 63 || version? != 0x2_0000 || configuration? != ENABLE || state? != 1 {
            return broken("a property of a discovery controller is wrong");
        }
        let data = expect(&mut queue, &identify, SUCCESS)?;
        if u64::from(u16_at(&data, 78)) != connected.value & 0xffff || data[111] != 2 {
            return broken("Identify of a discovery controller is wrong");
        }
        self.read_entries(&mut queue, address)?;
        self.use_discovery(&mut queue, &identify)
    }

    /// The discovery log page, in parts: one entry, the subsystem.
    fn read_entries(&self, queue: &mut Queue, address: SocketAddr) -> Result<(), Lost> {
        let (mut page, part) = (Vec::new(), one_of(&[256, 1024, 2048]));
        for at in (0..2048).step_by(part) {
            page.extend(expect(queue, &page_command(LOG_PAGE, part, at as u64, false), SUCCESS)?);
        }
        let text = |at: usize, end: u8| {
            let bytes = page[1024 + at..].iter().take_while(|it| **it != end).copied();
            String::from_utf8_lossy(&bytes.collect::<Vec<_>>()).into_owned()
        };
        let told = format!("{}:{}", text(512, b' '), text(32, b' '));
        let expected = self.advertised.map_or_else(|| address.to_string(), str::to_owned);
        let is_right = u32_at(&page, 0) == 1 && u32_at(&page, 8) == 1 && page[1024] == 3;
        if !is_right || text(256, 0) != self.name || told != expected {
            return broken(&format!("discovery returns {} at {told}, not {expected}", text(256, 0)));
        }
        Ok(())
    }

    /// Commands that a discovery controller has not, and its shutdown.
    fn use_discovery(&self, queue: &mut Queue, identify: &Command) -> Result<(), Lost> {
        expect(queue, &Command { opcode: KEEP_ALIVE, ..Command::default() }, SUCCESS)?;
        expect(queue, &Command { words: words(&[0]), ..identify.clone() }, INVALID_FIELD)?;
        expect(queue, &Command { opcode: 0x09, data: vec![7; 64], ..Command::default() }, INVALID_OPCODE)?;
        expect(queue, &page_command(0x02, 64, 0, false), INVALID_PAGE)?;
        expect(queue, &page_command(LOG_PAGE, 64, 4096, false), INVALID_FIELD)?;
        expect(queue, &Command { opcode: one_of(&[0x08, 0x09, 0x0a, 0x0c]), ..Command::default() }, INVALID_OPCODE)?;
        if below(8) == 0 {
            world::pause(with(|it| it.random.below(130 * SECOND)));
        }
        queue.set_property(CC, ENABLE | SHUTDOWN)?;
        let state = queue.property(CSTS)?.value;
        if state & 0xc != 8 {
            return broken(&format!("CSTS of a discovery controller that was shut down is {state:#x}"));
        }
        Ok(())
    }

    /// A Connect that is refused.
    fn be_refused(&self, address: SocketAddr) -> Result<(), Lost> {
        let mut queue = Queue::open(address, self.digests)?;
        if below(4) == 0 {
            let early = [Command { opcode: KEEP_ALIVE, ..Command::default() }, page_command(0x02, 64, 0, true)];
            expect(&mut queue, &early[below(2)], SEQUENCE)?;
        }
        let good = self.connect_of(0, 0);
        let long = "n".repeat(256);
        let (connect, wanted) = match below(15) {
            0 => (Connect { host: one_of(&[UNKNOWN_HOST, 0]), ..good }, HOST),
            1 => (Connect { host: HOST_OF_ELSEWHERE, cntlid: 0xffff, ..good }, HOST),
            2 => (Connect { subsystem: format!("{}x", self.name), ..good }, PARAMETERS),
            3 => (Connect { subsystem: one_of(&["", &long[..]]).to_owned(), ..good }, PARAMETERS),
            4 => (Connect { host_name: long, ..good }, PARAMETERS),
            5 => (Connect { cntlid: one_of(&[0, 77, 0xfff0]), ..good }, PARAMETERS),
            6 => (Connect { size: one_of(&[0, 64, 65_534, 65_535]), ..good }, PARAMETERS),
            7 => (Connect { format: 1, ..good }, FORMAT),
            8 => (Connect { in_capsule: false, length: 8196, ..good }, SEQUENCE),
            9 => (Connect { length: one_of(&[0, 16, 512, 1020]), ..good }, 0),
            10 => (Connect { qid: one_of(&[5, 0xffff]), ..good }, 0),
            11 => (Connect { qid: 2, cntlid: 77, ..good }, 0),
            12 => (Connect { qid: 1, subsystem: DISCOVERY.to_owned(), ..good }, 0),
            13 => return self.take_another(&mut queue),
            _ => (Connect { attributes: 0xff, format: 7, ..good }, 0),
        };
        let (begun, given) = (with(|it| it.now), queue.connect(&connect)?.status);
        if given == HOST && check(|it| it.keys.has_changed(self.host, begun)) {
            return Ok(());
        }
        if given == SUCCESS || wanted != 0 && given != wanted {
            return broken(&format!("{connect:?} has status {given:x}, not {wanted:x}"));
        }
        Ok(())
    }

    /// Connects to the neighbour of its controller, which may be of another host, or in use.
    fn take_another(&self, queue: &mut Queue) -> Result<(), Lost> {
        let (cntlid, begun) = (one_of(&[0xffff, ((self.cntlid - 1) ^ 1) + 1]), with(|it| it.now));
        let given = queue.connect(&Connect { cntlid, ..self.connect_of(0, 0) })?.status;
        let has_no_line = given == HOST && check(|it| it.keys.has_changed(self.host, begun));
        if has_no_line || [SUCCESS, PARAMETERS, BUSY].contains(&given) {
            return Ok(());
        }
        broken(&format!("Connect to controller {cntlid} has status {given:x}"))
    }

    /// More connections than a target keeps that are no queue: it closes the oldest, and serves the newest.
    fn crowd(&self, address: SocketAddr) -> Result<(), Lost> {
        if below(4) != 0 {
            return self.stay_silent(address);
        }
        check(|it| it.crowds += 1);
        let guests: Result<Vec<Queue>, Lost> = (0..52).map(|_| Queue::begin(address)).collect();
        let result = guests.and_then(|_guests| self.discover(address));
        check(|it| (it.crowds, it.crowded) = (it.crowds - 1, with(|it| it.now)));
        result
    }

    /// A connection that sends part of a PDU, or nothing, is closed within seconds.
    fn stay_silent(&self, address: SocketAddr) -> Result<(), Lost> {
        let mut queue = if below(2) == 0 { Queue::open(address, self.digests)? } else { Queue::begin(address)? };
        queue.send_bytes(&[4, 0, 72, 0, 72, 0, 0, 0, 1, 2][..below(11)])?;
        let begun = with(|it| it.now);
        queue.wait_for_end()?;
        with(|it| it.note(&format!("a silent connection has ended after {} ms", (it.now - begun) / MILLISECOND)));
        Ok(())
    }
}
