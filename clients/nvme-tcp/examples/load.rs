//! Reads or writes of a target, as many as it answers: `load ADDRESS CONNECTIONS DEPTH BYTES read|write SECONDS [BLOCKS
//! [HOST]]`, at random places of the namespace's BLOCKS, as the host with the identifier HOST. It prints how many
//! commands a second were answered, the microseconds of each, and the 99th percentile of their latency.
#![deny(unsafe_code)]

use std::io::{Read, Result, Write};
use std::net::TcpStream;
use std::thread;
use std::time::{Duration, Instant};

const NAME: &[u8] = b"nqn.2024-01.example:suvmileh";
/// The most bytes of a write that go into its capsule.
const IN_CAPSULE: usize = 8192;
/// Unless the command line has others.
const BLOCKS: u64 = 32768;
const HOST: u64 = 0xa1;

/// A queue of a host.
struct Queue {
    socket: TcpStream,
    input: Vec<u8>,
    begin: usize,
    end: usize,
}

impl Queue {
    fn connect(address: &str, qid: u16, cntlid: u16, host: u64) -> Result<(Queue, u16)> {
        let socket = TcpStream::connect(address)?;
        socket.set_nodelay(true)?;
        let mut queue = Queue { socket, input: vec![0; 1 << 20], begin: 0, end: 0 };
        let mut request = vec![0; 128];
        request[2] = 128;
        request[4] = 128;
        queue.socket.write_all(&request)?;
        queue.unit()?;
        let mut data = vec![0; 1024];
        data[..8].copy_from_slice(&host.to_le_bytes());
        data[16..18].copy_from_slice(&cntlid.to_le_bytes());
        data[256..256 + NAME.len()].copy_from_slice(NAME);
        data[512..520].copy_from_slice(b"nqn.load");
        let mut entry = entry(0x7f, 0, 1, 1024, 0x01);
        entry[42..44].copy_from_slice(&qid.to_le_bytes());
        entry[44..46].copy_from_slice(&63u16.to_le_bytes());
        queue.socket.write_all(&capsule(&entry, &data))?;
        let value = queue.completion()?.1;
        Ok((queue, value as u16))
    }

    /// Sets CC.
    fn enable(&mut self) -> Result<()> {
        let mut entry = entry(0x7f, 1, 0, 0, 0x5a);
        entry[44..48].copy_from_slice(&0x14u32.to_le_bytes());
        entry[48..52].copy_from_slice(&0x0046_0001u32.to_le_bytes());
        self.socket.write_all(&capsule(&entry, &[]))?;
        self.completion().map(|_| ())
    }

    /// The next PDU: its type, and where it is.
    fn unit(&mut self) -> Result<(u8, usize)> {
        loop {
            let there = self.end - self.begin;
            if there >= 8 {
                let at = self.begin;
                let size = u32::from_le_bytes([
                    self.input[at + 4],
                    self.input[at + 5],
                    self.input[at + 6],
                    self.input[at + 7],
                ]);
                if there >= size as usize {
                    self.begin += size as usize;
                    return Ok((self.input[at], at));
                }
            }
            if self.begin > 0 {
                self.input.copy_within(self.begin..self.end, 0);
                self.end -= self.begin;
                self.begin = 0;
            }
            let count = self.socket.read(&mut self.input[self.end..])?;
            assert!(count > 0, "the target has closed");
            self.end += count;
        }
    }

    /// The next completion: its command, and double word 0. R2T is answered by the data of a write.
    fn completion(&mut self) -> Result<(u16, u32)> {
        loop {
            let (kind, at) = self.unit()?;
            let word = |place: usize| {
                u32::from_le_bytes([
                    self.input[at + place],
                    self.input[at + place + 1],
                    self.input[at + place + 2],
                    self.input[at + place + 3],
                ])
            };
            match kind {
                5 => {
                    assert!(word(20) >> 17 == 0, "status {:#x}", word(20) >> 17);
                    return Ok((word(20) as u16, word(8)));
                }
                9 => {
                    let (head, length) = (word(8), word(16));
                    let mut unit = vec![6, 4, 24, 24];
                    for value in [24 + length, head, 0, length, 0] {
                        unit.extend(value.to_le_bytes());
                    }
                    unit.resize(24 + length as usize, 0x5a);
                    self.socket.write_all(&unit)?;
                }
                7 => (),
                _ => panic!("a PDU of type {kind}"),
            }
        }
    }
}

fn entry(opcode: u8, cid: u16, nsid: u32, length: u32, kind: u8) -> [u8; 64] {
    let mut entry = [0; 64];
    entry[0] = opcode;
    entry[1] = 0x40;
    entry[2..4].copy_from_slice(&cid.to_le_bytes());
    entry[4..8].copy_from_slice(&nsid.to_le_bytes());
    entry[32..36].copy_from_slice(&length.to_le_bytes());
    entry[39] = kind;
    entry
}

fn capsule(entry: &[u8; 64], data: &[u8]) -> Vec<u8> {
    let mut unit = vec![4, 0, 72, if data.is_empty() { 0 } else { 72 }];
    unit.extend((72 + data.len() as u32).to_le_bytes());
    unit.extend(entry);
    unit.extend(data);
    unit
}

/// What each queue does.
#[derive(Clone, Copy)]
struct Load {
    depth: u16,
    bytes: usize,
    writes: bool,
    last: Instant,
    /// Blocks of the namespace.
    most: u64,
}

/// The commands of a queue until time is over: the microseconds that each took.
fn work(queue: &mut Queue, load: Load) -> Result<Vec<u32>> {
    let Load { depth, bytes, writes, last, most } = load;
    let data = vec![0x5a; if writes && bytes <= IN_CAPSULE { bytes } else { 0 }];
    let kind = if data.is_empty() { 0x5a } else { 0x01 };
    let blocks = bytes as u64 / 512;
    // Each queue has places of its own.
    let mut place = queue.socket.local_addr()?.port().into();
    let mut next = |cid: u16| {
        place = u64::wrapping_mul(place, 6_364_136_223_846_793_005).wrapping_add(1_442_695_040_888_963_407);
        let mut entry = entry(if writes { 1 } else { 2 }, cid, 1, bytes as u32, kind);
        entry[40..48].copy_from_slice(&((place >> 16) % (most / blocks) * blocks).to_le_bytes());
        entry[48..50].copy_from_slice(&(blocks as u16 - 1).to_le_bytes());
        capsule(&entry, &data)
    };
    let first: Vec<u8> = (0..depth).flat_map(&mut next).collect();
    queue.socket.write_all(&first)?;
    let (mut going, mut waiting, mut taken) = (depth, Vec::new(), Vec::new());
    let mut begun = vec![Instant::now(); depth.into()];
    while going > 0 {
        let (cid, _) = queue.completion()?;
        let now = Instant::now();
        taken.push((now - begun[usize::from(cid)]).as_micros() as u32);
        if now < last {
            waiting.extend(next(cid));
            begun[usize::from(cid)] = now;
        } else {
            going -= 1;
        }
        let is_last = queue.end - queue.begin < 24;
        if is_last && !waiting.is_empty() {
            queue.socket.write_all(&waiting)?;
            waiting.clear();
        }
    }
    Ok(taken)
}

fn main() -> Result<()> {
    let words: Vec<String> = std::env::args().collect();
    let number = |at: usize| words[at].parse::<u64>().expect("a number");
    let or = |at: usize, other: u64| if at < words.len() { number(at) } else { other };
    let (address, connections, depth, host) = (&words[1], number(2), number(3) as u16, or(8, HOST));
    let (mut admin, cntlid) = Queue::connect(address, 0, 0xffff, host)?;
    admin.enable()?;
    let mut queues = Vec::new();
    for qid in 1..=connections as u16 {
        queues.push(Queue::connect(address, qid, cntlid, host)?.0);
    }
    let begun = Instant::now();
    let last = begun + Duration::from_secs_f64(words[6].parse().expect("seconds"));
    let load = Load { depth, bytes: number(4) as usize, writes: words[5] == "write", last, most: or(7, BLOCKS) };
    let mut taken: Vec<u32> = thread::scope(|scope| {
        let threads: Vec<_> = queues.iter_mut().map(|queue| scope.spawn(move || work(queue, load))).collect();
        threads.into_iter().flat_map(|it| it.join().expect("a thread").expect("an answer")).collect()
    });
    let (took, done) = (begun.elapsed().as_secs_f64(), taken.len());
    taken.sort_unstable();
    let each = took * 1e6 / done as f64;
    println!("{:.0} a second, {each:.1} us each, 99 percent within {} us", done as f64 / took, taken[done * 99 / 100]);
    Ok(())
}
