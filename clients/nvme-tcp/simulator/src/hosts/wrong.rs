//! Commands of I/O that are refused, and some that do nothing.

use super::admin::{one_of, words, INVALID_FIELD, INVALID_NAMESPACE, INVALID_OPCODE, SGL_LENGTH, SGL_OFFSET, SGL_TYPE};
use super::checker::{bytes_of, Act};
use super::choice::{Area, ACQUIRE, COMPARE, DATASET_MANAGEMENT, REGISTER, RELEASE, WRITE, WRITE_ZEROES};
use super::queue::{Breach, Command, Pointer};
use super::{below, Path, READ};

const DATA_TRANSFER: u16 = 0x04;
const OUT_OF_RANGE: u16 = 0x80;
const SIZE_LIMIT: u16 = 0x183;
const SEQUENCE: u16 = 0x0c;
const QUEUE_TYPE: u16 = 0x185;
/// Attribute Deallocate.
pub const DEALLOCATE: u32 = 1 << 2;
/// All blocks that ranges may have.
const MOST_BLOCKS: usize = 65_536;

pub fn range(slba: u64, count: u32) -> Vec<u8> {
    [&[0; 4][..], &count.to_le_bytes(), &slba.to_le_bytes()].concat()
}

/// Dataset Management of ranges.
pub fn deallocation(ranges: &[Vec<u8>], attributes: u32) -> Command {
    let list = words(&[ranges.len() as u32 - 1, attributes]);
    Command { opcode: DATASET_MANAGEMENT, nsid: 1, words: list, data: ranges.concat(), ..Command::default() }
}

fn pointer(psdt: u8, address: u64, length: u32, kind: u8) -> Option<Pointer> {
    Some(Pointer { psdt, address, length, kind })
}

impl Path {
    /// A command on blocks.
    fn on_blocks(&self, opcode: u8, slba: u64, count: usize) -> Command {
        let list = [&slba.to_le_bytes()[..], &(count as u32 - 1).to_le_bytes()].concat();
        Command { opcode, nsid: 1, words: list, ..Command::default() }
    }

    pub fn choose_wrong(&self) -> (Command, Act) {
        let (command, wanted) = match below(6) {
            0 => self.choose_beyond(),
            1 => self.choose_pointer(),
            2 => self.choose_ranges(),
            3 => self.choose_reservation(),
            4 if self.lies => return self.choose_breach(),
            5 => return self.choose_many_ranges(),
            _ => self.choose_unknown(),
        };
        (command, Act::Wrong { wanted })
    }

    /// Blocks that there are not.
    fn choose_beyond(&self) -> (Command, Vec<u16>) {
        let count = 1 + below(8);
        let slba = one_of(&[self.blocks as u64, (self.blocks + 1 - count) as u64, u64::MAX, 1 << 63]);
        let data = vec![7; 512 * count];
        let command = match below(4) {
            0 => Command { length: 512 * count, ..self.on_blocks(READ, slba, count) },
            1 => Command { data, ..self.on_blocks(WRITE, slba, count) },
            2 => Command { data, ..self.on_blocks(COMPARE, slba, count) },
            _ => self.on_blocks(WRITE_ZEROES, slba, count),
        };
        // One block before the end there is none beyond it.
        let is_beyond = slba.checked_add(count as u64).map_or(true, |end| end > self.blocks as u64);
        if is_beyond {
            (command, vec![OUT_OF_RANGE])
        } else {
            (Command { nsid: 9, ..command }, vec![INVALID_NAMESPACE])
        }
    }

    /// Pointers that do not fit, and data that are too few.
    fn choose_pointer(&self) -> (Command, Vec<u16>) {
        let read = |length| Command { length, ..self.on_blocks(READ, 0, 1) };
        let write = |count: usize| Command { data: vec![7; 512 * count], ..self.on_blocks(WRITE, u64::MAX, count) };
        match below(8) {
            0 => (Command { pointer: pointer(0x00, 0, 512, 0x5a), ..read(512) }, vec![INVALID_FIELD]),
            1 => (Command { pointer: pointer(0x40, 0, 512, one_of(&[0x00, 0x01, 0x40])), ..read(512) }, vec![SGL_TYPE]),
            2 => (Command { pointer: pointer(0x40, 0, 131_073, 0x5a), ..read(512) }, vec![SGL_LENGTH]),
            3 => (Command { pointer: pointer(0x40, 600, 512, 0x01), ..write(1) }, vec![SGL_OFFSET]),
            4 => (Command { pointer: pointer(0x40, 4, 512, 0x01), ..write(1) }, vec![SGL_LENGTH]),
            5 => (Command { data: vec![7; 512], ..self.on_blocks(COMPARE, 0, 2) }, vec![DATA_TRANSFER, INVALID_FIELD]),
            6 => (read(0), vec![DATA_TRANSFER, INVALID_FIELD]),
            _ => (Command { nsid: one_of(&[0, 9, u32::MAX]), ..read(512) }, vec![INVALID_NAMESPACE]),
        }
    }

    /// Ranges that are refused, or that have nothing to deallocate.
    fn choose_ranges(&self) -> (Command, Vec<u16>) {
        let whole = range(0, self.blocks as u32);
        match below(5) {
            0 => (deallocation(&[whole], 0), vec![0]),
            1 => (deallocation(&[range(u64::MAX, 0)], DEALLOCATE), vec![0]),
            2 => (deallocation(&[range(0, 1), range(self.blocks as u64, 1)], DEALLOCATE), vec![OUT_OF_RANGE]),
            3 if self.blocks > MOST_BLOCKS / 256 => (deallocation(&vec![whole; 256], DEALLOCATE), vec![SIZE_LIMIT]),
            _ => {
                let short = words(&[3, DEALLOCATE]);
                (Command { words: short, ..deallocation(&[whole], DEALLOCATE) }, vec![DATA_TRANSFER])
            }
        }
    }

    /// Adjacent ranges, and one without blocks.
    fn choose_many_ranges(&self) -> (Command, Act) {
        let (slba, count) = self.extent(Area { nsid: 1, base: 0, blocks: self.blocks });
        let first = below(count + 1);
        let ranges =
            [range(slba as u64, first as u32), range(0, 0), range((slba + first) as u64, (count - first) as u32)];
        (deallocation(&ranges, DEALLOCATE), Act::Write { slba, values: vec![0; count] })
    }

    /// Actions and types that there are not, and keys that are cut.
    fn choose_reservation(&self) -> (Command, Vec<u16>) {
        let opcode = one_of(&[REGISTER, ACQUIRE, RELEASE]);
        let size = if opcode == RELEASE { 8 } else { 16 };
        let (word, count) = one_of(&[(7, size), (0, 4)]);
        let command = Command { opcode, nsid: 1, words: words(&[word]), data: vec![0xee; count], ..Command::default() };
        (command, vec![INVALID_FIELD, DATA_TRANSFER])
    }

    /// Opcodes that there are not, and commands of Fabrics on a queue of I/O.
    fn choose_unknown(&self) -> (Command, Vec<u16>) {
        if below(2) == 0 {
            let opcode = one_of(&[0x04, 0x0c, 0x10, 0x18, 0x7e, 0x80, 0xfc]);
            return (Command { opcode, nsid: 1, ..Command::default() }, vec![INVALID_OPCODE]);
        }
        let form = one_of(&[0x00, 0x01, 0x04, 0x05, 0x06, 0x55]);
        let list = words(&[0, 0x1c, 0, 0]);
        let mut wanted = vec![INVALID_OPCODE, INVALID_FIELD, SEQUENCE, QUEUE_TYPE];
        // A message of authentication without its length.
        wanted.extend(self.choice.map(|_| SGL_LENGTH));
        (Command { opcode: 0x7f, form, words: list, ..Command::default() }, wanted)
    }

    /// A Compare beyond the end, whose data never come.
    pub fn unanswered(&self) -> (Command, Act) {
        let command = Command {
            breach: Breach::Silence,
            data: vec![7; 20_480],
            ..self.on_blocks(COMPARE, self.blocks as u64, 40)
        };
        (command, Act::Wrong { wanted: vec![OUT_OF_RANGE] })
    }

    /// A Compare beyond the end, whose data break a rule of the transport. The connection ends.
    fn choose_breach(&self) -> (Command, Act) {
        let breach = one_of(&[Breach::Command, Breach::Tag, Breach::Offset, Breach::TooMany, Breach::EarlyLast]);
        let breach = if below(6) == 0 { Breach::NoLast } else { breach };
        let data: Vec<u8> = (1..=40).flat_map(bytes_of).collect();
        let command = Command { data, breach, ..self.on_blocks(COMPARE, self.blocks as u64, 40) };
        (command, Act::Wrong { wanted: vec![OUT_OF_RANGE] })
    }
}
