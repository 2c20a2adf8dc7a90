//! A controller in memory: Identify, the creation of one queue pair, the Host Identifier, events, Abort of one that is
//! awaited, and commands on one namespace, with the reservations of one host, as the standard asks.

use nvmehost::{Device, WINDOW};

/// The blocks of namespace 1.
pub const BLOCKS: u64 = 2048;
const CC: usize = 0x14;
const CSTS: usize = 0x1c;
const DOORBELLS: usize = 0x1000;
const REGISTERS: usize = 0x2000;
/// The entries of a submission queue and of a completion queue.
const ENTRIES: usize = 8;
const COMPLETIONS: usize = 32;
const PAGE: usize = 4096;

const SUCCESS: u32 = 0;
const INVALID_FIELD: u32 = 2;
const OUT_OF_RANGE: u32 = 0x80;
const COMPARE_FAILURE: u32 = 0x285;
const ABORT_REQUESTED: u32 = 7;
const CONFLICT: u32 = 0x83;

/// The controller, and what differs from a good one.
pub struct Controller {
    memory: Vec<u8>,
    registers: Vec<u8>,
    blocks: Vec<u8>,
    head: [usize; 2],
    tail: [usize; 2],
    phase: [bool; 2],
    host: Option<[u8; 16]>,
    /// The registered key, the type of the reservation, and whether both outlast power.
    key: Option<u64>,
    rtype: u8,
    ptpls: bool,
    /// The identifier of the request that awaits an event.
    awaiting: Option<u32>,
    /// The Asynchronous Event Configuration.
    #[allow(dead_code)]
    pub events: u32,
    /// It fetches no command.
    pub is_silent: bool,
    /// Its registers read as ones.
    pub is_removed: bool,
    /// LBADS: the block size as a power of two.
    pub lbads: u8,
}

impl Controller {
    pub fn new() -> Controller {
        let mut registers = vec![0; REGISTERS];
        // MQES 2047, TO 500 ms, the NVM command set
        registers[..8].copy_from_slice(&0x0000_0020_0101_07ff_u64.to_le_bytes());
        Controller {
            memory: vec![0; WINDOW],
            registers,
            blocks: vec![0; 512 * BLOCKS as usize],
            head: [0; 2],
            tail: [0; 2],
            phase: [true; 2],
            host: None,
            key: None,
            rtype: 0,
            ptpls: false,
            awaiting: None,
            events: 0,
            is_silent: false,
            is_removed: false,
            lbads: 9,
        }
    }

    fn word(bytes: &[u8], at: usize) -> u32 {
        u32::from_le_bytes([bytes[at], bytes[at + 1], bytes[at + 2], bytes[at + 3]])
    }

    fn qword(bytes: &[u8], at: usize) -> u64 {
        u64::from(Self::word(bytes, at)) | u64::from(Self::word(bytes, at + 4)) << 32
    }

    fn set_register(&mut self, at: usize, value: u32) {
        self.registers[at..at + 4].copy_from_slice(&value.to_le_bytes());
    }

    /// CSTS follows CC, and all commands before the tails are executed.
    fn turn(&mut self) {
        let enabled = Self::word(&self.registers, CC) & 1;
        let shutdown = if Self::word(&self.registers, CC) >> 14 & 3 == 1 { 8 } else { 0 };
        if Self::word(&self.registers, CSTS) & 1 != enabled {
            (self.head, self.tail, self.phase) = ([0; 2], [0; 2], [true; 2]);
            (self.host, self.awaiting) = (None, None);
            (0..2).for_each(|queue| self.set_register(DOORBELLS + 8 * queue, 0));
        }
        self.set_register(CSTS, enabled | shutdown);
        for queue in 0..2 {
            while enabled == 1
                && !self.is_silent
                && self.head[queue] != Self::word(&self.registers, DOORBELLS + 8 * queue) as usize
            {
                self.execute(queue);
            }
        }
    }

    fn execute(&mut self, queue: usize) {
        let at = 2 * PAGE * queue + 64 * self.head[queue];
        let entry = self.memory[at..at + 64].to_vec();
        self.head[queue] = (self.head[queue] + 1) % ENTRIES;
        let cid = u32::from(entry[2]) | u32::from(entry[3]) << 8;
        if (queue, entry[0]) == (0, 0x0c) {
            self.awaiting = Some(cid);
            return;
        }
        let mut dw0 = 0;
        let status = match (queue, entry[0]) {
            (0, 8) => {
                dw0 = self.abort(Self::word(&entry, 40));
                SUCCESS
            }
            (0, _) => self.admin(&entry),
            (_, 0x0d | 0x0e | 0x11 | 0x15) => self.on_reservation(&entry),
            _ => self.on_blocks(&entry),
        };
        self.post(queue, cid, status, dw0);
    }

    fn post(&mut self, queue: usize, cid: u32, status: u32, dw0: u32) {
        let head = self.head[queue] as u32 | (queue as u32) << 16;
        let to = PAGE + 2 * PAGE * queue + 16 * self.tail[queue];
        for (i, word) in [dw0, 0, head, cid | u32::from(self.phase[queue]) << 16 | status << 17].iter().enumerate() {
            self.memory[to + 4 * i..to + 4 * i + 4].copy_from_slice(&word.to_le_bytes());
        }
        self.tail[queue] = (self.tail[queue] + 1) % COMPLETIONS;
        self.phase[queue] ^= self.tail[queue] == 0;
    }

    /// There is an event, with this double word 0 of the answer.
    #[allow(dead_code)]
    pub fn raise(&mut self, dw0: u32) {
        let cid = self.awaiting.take().unwrap();
        self.post(0, cid, SUCCESS, dw0);
    }

    /// Double word 0 of the answer to an Abort, after the answer to what it aborts.
    fn abort(&mut self, cdw10: u32) -> u32 {
        match self.awaiting {
            Some(cid) if cdw10 == cid << 16 => {
                self.awaiting = None;
                self.post(0, cid, ABORT_REQUESTED, 0);
                0
            }
            _ => 1,
        }
    }

    fn admin(&mut self, entry: &[u8]) -> u32 {
        let (mut bytes, to) = (vec![0; PAGE], Self::qword(entry, 24) as usize);
        match entry[0] {
            9 => match (Self::word(entry, 40), Self::word(entry, 44)) {
                (0x81, 1) => self.host = self.memory[to..to + 16].try_into().ok(),
                (0x0b, events) => self.events = events,
                _ => return INVALID_FIELD,
            },
            // The log page has its own identifier in each byte.
            2 => {
                let length = 4 * (Self::word(entry, 40) as usize / 0x10000 + 1);
                self.memory[to..to + length].fill(entry[40]);
            }
            6 => {
                if Self::word(entry, 40) == 1 {
                    (bytes[77], bytes[111], bytes[512], bytes[513], bytes[516], bytes[520]) =
                        (5, 1, 0x66, 0x44, 1, 0x29);
                } else if Self::word(entry, 4) == 1 {
                    bytes[..8].copy_from_slice(&BLOCKS.to_le_bytes());
                    bytes[130] = self.lbads;
                }
                self.memory[to..to + PAGE].copy_from_slice(&bytes);
            }
            _ => {}
        }
        SUCCESS
    }

    /// Register, Acquire and Release by the current key; Preempt is like Acquire.
    fn on_reservation(&mut self, entry: &[u8]) -> u32 {
        let to = Self::qword(entry, 24) as usize;
        let (cdw10, keys) = (Self::word(entry, 40), [Self::qword(&self.memory, to), Self::qword(&self.memory, to + 8)]);
        let (action, is_current) = (cdw10 & 7, cdw10 & 8 != 0 || self.key == Some(keys[0]));
        if entry[0] == 0x0d && cdw10 >> 30 != 0 {
            self.ptpls = cdw10 >> 30 == 3;
        }
        match entry[0] {
            0x0e => {
                let mut bytes = [0; 128];
                (bytes[4], bytes[5], bytes[9]) = (self.rtype, u8::from(self.key.is_some()), u8::from(self.ptpls));
                bytes[72..80].copy_from_slice(&self.key.unwrap_or_default().to_le_bytes());
                bytes[80..96].copy_from_slice(&self.host.unwrap_or_default());
                self.memory[to..to + 128].copy_from_slice(&bytes);
            }
            0x0d if action == 0 && self.key.is_none() => self.key = Some(keys[1]),
            _ if !is_current || (entry[0] == 0x0d && action == 0) => return CONFLICT,
            0x0d => self.key = (action == 2).then_some(keys[1]),
            0x11 => self.rtype = entry[41],
            _ => {
                self.rtype = 0;
                self.key = self.key.filter(|_| action == 0);
            }
        }
        SUCCESS
    }

    /// The places of a transfer's bytes, page by page.
    fn places(&self, entry: &[u8], length: usize) -> Vec<usize> {
        let (first, second) = (Self::qword(entry, 24) as usize, Self::qword(entry, 32) as usize);
        let pages = (length + PAGE - 1) / PAGE;
        let later = (1..pages).map(|it| match pages {
            2 => second,
            _ => Self::qword(&self.memory, second + 8 * (it - 1)) as usize,
        });
        std::iter::once(first).chain(later).flat_map(|it| it..it + PAGE).take(length).collect()
    }

    fn on_blocks(&mut self, entry: &[u8]) -> u32 {
        let (first, count) = (Self::qword(entry, 40), u64::from(Self::word(entry, 48) & 0xffff) + 1);
        match entry[0] {
            _ if Self::word(entry, 4) != 1 => return INVALID_FIELD,
            0 => return SUCCESS,
            _ if first + count > BLOCKS => return OUT_OF_RANGE,
            _ => {}
        }
        let (from, length) = (512 * first as usize, 512 * count as usize);
        let places = self.places(entry, length);
        let of_host: Vec<u8> = places.iter().map(|it| self.memory[*it]).collect();
        let block = &mut self.blocks[from..from + length];
        match entry[0] {
            1 => block.copy_from_slice(&of_host),
            8 => block.fill(0),
            5 if block != &of_host[..] => return COMPARE_FAILURE,
            2 => places.iter().zip(block).for_each(|(place, byte)| self.memory[*place] = *byte),
            _ => {}
        }
        SUCCESS
    }
}

impl Device for Controller {
    fn store(&mut self, address: u64, bytes: &[u8]) {
        self.memory[address as usize..address as usize + bytes.len()].copy_from_slice(bytes);
    }

    fn load(&mut self, address: u64, bytes: &mut [u8]) {
        bytes.copy_from_slice(&self.memory[address as usize..address as usize + bytes.len()]);
    }

    fn write32(&mut self, offset: u64, value: u32) {
        self.set_register(offset as usize, value);
    }

    fn read32(&mut self, offset: u64) -> u32 {
        if self.is_removed {
            return u32::MAX;
        }
        Self::word(&self.registers, offset as usize)
    }

    fn registers(&self) -> u64 {
        REGISTERS as u64
    }

    fn wait(&mut self) {
        self.turn();
    }
}
