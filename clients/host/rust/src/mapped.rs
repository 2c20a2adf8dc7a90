//! A device whose memory and registers are mapped into this process, as VFIO maps them.

use crate::driver::WINDOW;
use crate::numbers::{to_u64, to_usize};
use crate::port::Device;
use crate::raw::Mapping;

/// A device at addresses of this process. An access outside of it panics.
#[derive(Debug)]
pub struct Mapped {
    mapping: Mapping,
    registers: u64,
}

impl Mapped {
    pub(crate) fn of(mapping: Mapping, registers: u64) -> Mapped {
        Mapped { mapping, registers }
    }

    /// The index of a part of the memory or the registers, which has to be whole words in it.
    fn part(at: u64, length: usize, limit: u64) -> usize {
        let is_inside = limit.checked_sub(to_u64(length)).map_or(false, |last| at <= last);
        assert!(is_inside && at % 4 == 0 && length % 4 == 0, "{length} bytes at {at:#x} are outside, or no words");
        to_usize(at)
    }
}

impl Device for Mapped {
    fn store(&mut self, address: u64, bytes: &[u8]) {
        self.mapping.store(Self::part(address, bytes.len(), to_u64(WINDOW)), bytes);
    }

    fn load(&mut self, address: u64, bytes: &mut [u8]) {
        self.mapping.load(Self::part(address, bytes.len(), to_u64(WINDOW)), bytes);
    }

    fn write32(&mut self, offset: u64, value: u32) {
        self.mapping.write32(Self::part(offset, 4, self.registers), value);
    }

    fn read32(&mut self, offset: u64) -> u32 {
        self.mapping.read32(Self::part(offset, 4, self.registers))
    }

    fn registers(&self) -> u64 {
        self.registers
    }
}
