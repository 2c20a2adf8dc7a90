//! A server that answers the same bytes as the target, keeps blocks in memory, and judges no command. The difference to
//! the target is the cost of the subsystem. It trusts what `load` sends. `asks_nobody ADDRESS [nothing]`; with that word
//! it keeps no blocks, reads are of zeros, and writes are dropped.
#![deny(unsafe_code)]

#[allow(dead_code)]
#[path = "../src"]
mod sources {
    pub mod bytes;
    pub mod digest;
    pub mod numbers;
    #[allow(unsafe_code)]
    pub mod system;
    pub mod transport {
        pub mod output;
        pub mod pdu;
    }
}

use sources::bytes::{first, put, u16_at, u32_at, u64_at};
use sources::system::{Interest, Poll};
use sources::transport::output::Output;
use sources::transport::pdu;
use sources::transport::pdu::{Agreed, HostData, Kind, Layout};
use sources::{bytes, digest, numbers, transport};
use std::collections::HashMap;
use std::convert::Infallible;
use std::io::{Read, Result, Write};
use std::net::{TcpListener, TcpStream};

const PLAIN: Agreed = Agreed { header_digests: false, data_digests: false, alignment: 0 };
const BYTES: usize = 32768 * 512;

/// The bytes of the blocks, or none, if nothing is kept.
struct Blocks(Vec<u8>);

impl Blocks {
    /// Puts data at a place.
    fn write(&mut self, place: usize, data: &[u8]) {
        if let Some(blocks) = self.0.get_mut(place..place + data.len()) {
            blocks.copy_from_slice(data);
        }
    }

    /// The bytes of a place.
    fn read(&self, place: usize, room: &mut [u8]) {
        match self.0.get(place..place + room.len()) {
            Some(blocks) => room.copy_from_slice(blocks),
            None => room.fill(0),
        }
    }
}

struct Connection {
    socket: TcpStream,
    input: Vec<u8>,
    end: usize,
    output: Output,
    /// The places of the data that commands were asked for, by their identifiers.
    asked: HashMap<u16, usize>,
}

impl Connection {
    fn new(socket: TcpStream) -> Connection {
        Connection { socket, input: vec![0; 256 << 10], end: 0, output: Output::default(), asked: HashMap::new() }
    }

    /// Serves what has come; whether the host is still there.
    fn serve(&mut self, blocks: &mut Blocks) -> bool {
        match self.socket.read(&mut self.input[self.end..]) {
            Ok(0) | Err(_) => return false,
            Ok(count) => self.end += count,
        }
        let mut at = 0;
        while self.end - at >= pdu::COMMON {
            let layout = match PLAIN.layout(first(&self.input[at..self.end])) {
                Ok(layout) => layout,
                Err(_) => return false,
            };
            if self.end - at < layout.length {
                break;
            }
            answer(&mut self.output, blocks, &mut self.asked, &layout, &self.input[at..at + layout.length]);
            at += layout.length;
        }
        self.input.copy_within(at..self.end, 0);
        self.end -= at;
        let sent = self.socket.write_all(self.output.waiting());
        self.output.sent(self.output.len());
        sent.is_ok()
    }
}

fn answer(out: &mut Output, blocks: &mut Blocks, asked: &mut HashMap<u16, usize>, layout: &Layout, unit: &[u8]) {
    let data = pdu::data_in(layout, unit);
    if layout.kind == Kind::IcReq {
        return pdu::ic_response(out, PLAIN);
    }
    if layout.kind == Kind::H2cData {
        if let Ok(HostData { cid, offset, .. }) = HostData::of(first(unit), data.len() as u32) {
            blocks.write(asked[&cid] + offset as usize, data);
            if layout.is_last {
                complete(out, cid);
            }
        }
        return;
    }
    let (opcode, cid, length) = (unit[8], u16_at(unit, 10), u32_at(unit, 40) as usize);
    // What Connect has there is no block, and is not looked at.
    let place = (u64_at(unit, 48) as usize).wrapping_mul(512) % BYTES;
    match opcode {
        0x01 if layout.data_length == 0 => {
            asked.insert(cid, place);
            return pdu::ready_to_transfer(out, PLAIN, cid, 0, u32_at(unit, 40));
        }
        0x01 => blocks.write(place, data),
        0x02 => {
            let _ = pdu::controller_data::<Infallible>(out, PLAIN, cid, length, |room| {
                blocks.read(place, room);
                Ok(())
            });
        }
        _ => (),
    }
    complete(out, cid);
}

fn complete(out: &mut Output, cid: u16) {
    let mut entry = [0; 16];
    entry[0] = 1;
    put(&mut entry, 12, &cid.to_le_bytes());
    pdu::response(out, PLAIN, &entry);
}

fn main() -> Result<()> {
    let words: Vec<String> = std::env::args().collect();
    let mut blocks = Blocks(vec![0; if words.len() > 2 { 0 } else { BYTES }]);
    let listener = TcpListener::bind(&words[1])?;
    println!("asks nobody at {}", listener.local_addr()?);
    let (mut poll, to_read) = (Poll::new()?, Interest { read: true, write: false });
    poll.add(&listener, 0, to_read)?;
    let (mut connections, mut ready, mut next) = (HashMap::new(), Vec::new(), 1);
    loop {
        poll.wait(1000, &mut ready)?;
        for it in &ready {
            if it.name == 0 {
                let (socket, _) = listener.accept()?;
                socket.set_nodelay(true)?;
                poll.add(&socket, next, to_read)?;
                connections.insert(next, Connection::new(socket));
                next += 1;
            } else if !connections.get_mut(&it.name).map_or(false, |it: &mut Connection| it.serve(&mut blocks)) {
                connections.remove(&it.name);
            }
        }
    }
}
