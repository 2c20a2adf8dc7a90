//! Two hosts share a namespace. Host a1h reserves it, and from then on a write of host b2h is fenced.

use nvmesim::{Attachment, Completion, Config, Controller, Executed, Namespace, Refusal, Subsystem};

type Outcome<T> = Result<T, Box<dyn std::error::Error>>;

// The layout of each host's memory: queues of the admin and of one I/O pair, and a page of data.
const SQ: [u64; 2] = [0x0000, 0x2000];
const CQ: [u64; 2] = [0x1000, 0x3000];
const DATA: u64 = 0x10000;
const ENTRIES: u32 = 16;

const CREATE_SQ: u8 = 0x01;
const CREATE_CQ: u8 = 0x05;
const WRITE: u8 = 0x01;
const READ: u8 = 0x02;
const RESERVATION_REGISTER: u8 = 0x0d;
const RESERVATION_ACQUIRE: u8 = 0x11;

/// A host by its controller, and the tails of its submission queues.
struct Host {
    cntlid: u16,
    tails: [u32; 2],
}

impl Host {
    /// Enables the controller, and creates a pair of I/O queues.
    fn up(subsystem: &mut Subsystem<'_>, cntlid: u16) -> Outcome<Host> {
        let mut host = Host { cntlid, tails: [0, 0] };
        let last = ENTRIES - 1;
        for (offset, value) in
            [(0x24, last << 16 | last), (0x28, SQ[0] as u32), (0x30, CQ[0] as u32), (0x14, 4 << 20 | 6 << 16 | 1)]
        {
            subsystem.write32(cntlid, offset, value)?;
        }
        host.submit(subsystem, 0, entry(CREATE_CQ, 0, CQ[1], [last << 16 | 1, 1]))?;
        host.submit(subsystem, 0, entry(CREATE_SQ, 0, SQ[1], [last << 16 | 1, 1 << 16 | 1]))?;
        Ok(host)
    }

    /// Submits a command to queue 0 or 1, fetches and executes it, and takes its completion.
    fn submit(&mut self, subsystem: &mut Subsystem<'_>, qid: u16, entry: [u8; 64]) -> Outcome<Completion> {
        let tail = &mut self.tails[usize::from(qid)];
        let at = SQ[usize::from(qid)] + 64 * u64::from(*tail);
        *tail = (*tail + 1) % ENTRIES;
        let doorbell = 0x1000 + 8 * u64::from(qid);
        subsystem.store(self.cntlid, at, &entry)?;
        subsystem.write32(self.cntlid, doorbell, *tail)?;
        subsystem.fetch(self.cntlid, qid)?;
        let executed = subsystem.execute(self.cntlid, 0)?;
        subsystem.write32(self.cntlid, doorbell + 4, *tail)?;
        match executed {
            Executed::Posted(completion) => Ok(completion),
            other => Err(format!("{other:?}").into()),
        }
    }

    fn store(&self, subsystem: &mut Subsystem<'_>, bytes: &[u8]) -> Result<(), Refusal> {
        subsystem.store(self.cntlid, DATA, bytes)
    }
}

/// A submission queue entry with these fields and 0 elsewhere.
fn entry(opcode: u8, nsid: u32, prp1: u64, [dw10, dw11]: [u32; 2]) -> [u8; 64] {
    let mut bytes = [0; 64];
    bytes[0] = opcode;
    bytes[4..8].copy_from_slice(&nsid.to_le_bytes());
    bytes[24..32].copy_from_slice(&prp1.to_le_bytes());
    bytes[40..44].copy_from_slice(&dw10.to_le_bytes());
    bytes[44..48].copy_from_slice(&dw11.to_le_bytes());
    bytes
}

fn tell(what: &str, completion: Completion) {
    print!("{what}: status {:x}:{:02x}", completion.sct, completion.sc);
    match completion.denied_by {
        Some(rule) => println!(", denied by rule {rule}"),
        None => println!(),
    }
}

fn main() -> Outcome<()> {
    let config = Config {
        controllers: vec![Controller::new(1, 0xa1), Controller::new(2, 0xb2)],
        namespaces: vec![Namespace { blocks: 64, nsid: 1, shared: true }],
        attached: vec![Attachment { nsid: 1, cntlid: 1 }, Attachment { nsid: 1, cntlid: 2 }],
    };
    let mut subsystem = Subsystem::open(&config, &[0; 64 * 512])?;
    let it = &mut subsystem;
    let (mut a, mut b) = (Host::up(it, 1)?, Host::up(it, 2)?);

    let key = 0x11u64.to_le_bytes();
    a.store(it, &[[0; 8], key].concat())?;
    tell("a1h registers", a.submit(it, 1, entry(RESERVATION_REGISTER, 1, DATA, [0, 0]))?);
    a.store(it, &[key, [0; 8]].concat())?;
    tell("a1h acquires Write Exclusive", a.submit(it, 1, entry(RESERVATION_ACQUIRE, 1, DATA, [1 << 8, 0]))?);

    b.store(it, &[0xb2; 512])?;
    tell("b2h writes", b.submit(it, 1, entry(WRITE, 1, DATA, [0, 0]))?);
    a.store(it, &[0xa1; 512])?;
    tell("a1h writes", a.submit(it, 1, entry(WRITE, 1, DATA, [0, 0]))?);

    tell("b2h reads", b.submit(it, 1, entry(READ, 1, DATA, [0, 0]))?);
    let mut block = [0; 512];
    it.load(2, DATA, &mut block)?;
    println!("b2h has read {}", if block == [0xa1; 512] { "what a1h wrote" } else { "something else" });
    Ok(())
}
