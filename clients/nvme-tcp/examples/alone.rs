//! The subsystem without a network: all events of a command of the target. The target takes this time, and that of its
//! own work around it, longer than a server that judges no command. `alone BYTES read|write SECONDS`.
#![deny(unsafe_code)]

#[allow(dead_code)]
#[path = "../src"]
mod sources {
    pub mod bytes;
}

use nvmesim::buffers::{self, DataBuffer};
use nvmesim::{Attachment, Config, Controller, Executed, Fetched, Namespace, Refusal, Subsystem};
use sources::bytes::put;
use std::time::{Duration, Instant};

const BLOCKS: u64 = 32768;
const ENTRIES: u64 = 64;
const DOORBELLS: u64 = 0x1000;

/// A queue whose commands are executed one after the other.
struct Queue<'a> {
    subsystem: Subsystem<'a>,
    qid: u16,
    tail: u64,
}

impl Queue<'_> {
    /// A command with its data, event by event; those that come from it are put into `read`.
    fn run(&mut self, entry: &[u8; 64], data: &[u8], read: &mut [u8]) -> Result<(), Refusal> {
        let (qid, subsystem) = (self.qid, &mut self.subsystem);
        let doorbell = DOORBELLS + 8 * u64::from(qid);
        subsystem.store(1, buffers::submission_queue(qid) + 64 * self.tail, entry)?;
        self.tail = (self.tail + 1) % ENTRIES;
        if !data.is_empty() {
            subsystem.store(1, DataBuffer::AT_ONCE.start(data.len()), data)?;
        }
        subsystem.write32(1, doorbell, self.tail as u32)?;
        assert_eq!(subsystem.fetch(1, qid)?, Fetched::Took);
        match subsystem.execute(1, 0)? {
            Executed::Posted(it) => assert!(it.is_success(), "{}", it.name()),
            other => panic!("{other:?}"),
        }
        subsystem.write32(1, doorbell + 4, self.tail as u32)?;
        if !read.is_empty() {
            subsystem.load(1, DataBuffer::AT_ONCE.start(read.len()), read)?;
        }
        Ok(())
    }
}

fn entry(opcode: u8, nsid: u32, pointers: (u64, u64), words: &[u32]) -> [u8; 64] {
    let mut entry = [0; 64];
    entry[0] = opcode;
    put(&mut entry, 4, &nsid.to_le_bytes());
    put(&mut entry, 24, &pointers.0.to_le_bytes());
    put(&mut entry, 32, &pointers.1.to_le_bytes());
    for (at, word) in words.iter().enumerate() {
        put(&mut entry, 40 + 4 * at, &word.to_le_bytes());
    }
    entry
}

/// A subsystem with one controller that runs, and an I/O queue.
fn opened(bytes: &mut [u8]) -> Result<Queue<'_>, Box<dyn std::error::Error>> {
    let config = Config {
        controllers: vec![Controller::new(1, 0xa1)],
        namespaces: vec![Namespace { blocks: BLOCKS, nsid: 1, shared: true }],
        attached: vec![Attachment { nsid: 1, cntlid: 1 }],
    };
    let mut subsystem = Subsystem::open_lent(&config, bytes)?;
    let (submission, completion) = (buffers::submission_queue(0) as u32, buffers::completion_queue(0) as u32);
    let last = ENTRIES as u32 - 1;
    for (offset, value) in [(0x24, last << 16 | last), (0x28, submission), (0x30, completion), (0x14, 0x0046_0001)] {
        subsystem.write32(1, offset, value)?;
    }
    let (list, pages) = buffers::prp_list();
    subsystem.store(1, list, &pages)?;
    let mut admin = Queue { subsystem, qid: 0, tail: 0 };
    let size = last << 16 | 1;
    admin.run(&entry(0x05, 0, (buffers::completion_queue(1), 0), &[size, 1]), &[], &mut [])?;
    admin.run(&entry(0x01, 0, (buffers::submission_queue(1), 0), &[size, 1 << 16 | 1]), &[], &mut [])?;
    Ok(Queue { subsystem: admin.subsystem, qid: 1, tail: 0 })
}

fn main() -> Result<(), Box<dyn std::error::Error>> {
    let words: Vec<String> = std::env::args().collect();
    let (length, writes, seconds) = (words[1].parse::<usize>()?, words[2] == "write", words[3].parse()?);
    let mut bytes = vec![0; BLOCKS as usize * 512];
    let mut queue = opened(&mut bytes)?;
    let data = vec![0x5a; if writes { length } else { 0 }];
    let mut read = vec![0; length - data.len()];
    let (blocks, mut place, mut done) = (length as u64 / 512, 1u64, 0u64);
    let (begun, last) = (Instant::now(), Duration::from_secs(seconds));
    while begun.elapsed() < last {
        for _ in 0..64 {
            place = place.wrapping_mul(6_364_136_223_846_793_005).wrapping_add(1_442_695_040_888_963_407);
            let slba = (place >> 33) % (BLOCKS / blocks) * blocks;
            let words = [slba as u32, 0, blocks as u32 - 1];
            let opcode = if writes { 1 } else { 2 };
            let mut entry = entry(opcode, 1, (0, 0), &words);
            DataBuffer::AT_ONCE.place(&mut entry, false, length);
            queue.run(&entry, &data, &mut read)?;
            done += 1;
        }
    }
    println!("{:.2} us each", begun.elapsed().as_secs_f64() * 1e6 / done as f64);
    Ok(())
}
