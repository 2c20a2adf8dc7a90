//! Commands of Fabrics.

use super::queue::{Command, Completion, Lost, Queue};
use super::Path;

/// What a Connect says.
#[derive(Clone, Debug)]
pub struct Connect {
    pub host: u128,
    pub cntlid: u16,
    pub qid: u16,
    /// The number of entries of the queue, less one.
    pub size: u16,
    pub keep_alive_ms: u32,
    pub format: u16,
    /// Bit 2: no flow control of the submission queue.
    pub attributes: u8,
    pub subsystem: String,
    pub host_name: String,
    /// How many bytes of data it has, and whether they are in its capsule.
    pub length: usize,
    pub in_capsule: bool,
}

/// CATTR: no flow control.
pub const NO_FLOW: u8 = 1 << 2;

/// HOSTNQN of a host. Some have what a log must write in another way.
pub fn host_name(host: usize) -> String {
    let quote = if host % 4 == 3 { "\"\\" } else { "" };
    format!("nqn.2024-01.example:{quote}{:x}", Path::id_of(host))
}

impl Path {
    /// The Connect of a queue.
    pub fn connect_of(&self, qid: u16, keep_alive_ms: u32) -> Connect {
        Connect {
            host: self.host_id(),
            cntlid: self.cntlid,
            qid,
            size: 31,
            keep_alive_ms,
            format: 0,
            attributes: if self.habits.has_flow { 0 } else { NO_FLOW },
            subsystem: self.name.to_owned(),
            host_name: host_name(self.host),
            length: 1024,
            in_capsule: true,
        }
    }
}

/// ATTRIB of a property: CAP, ASQ and ACQ have eight bytes.
fn size_of_property(offset: u32) -> Vec<u8> {
    vec![u8::from(matches!(offset, 0x00 | 0x28 | 0x30)), 0, 0, 0]
}

impl Queue {
    /// Connect.
    pub fn connect(&mut self, it: &Connect) -> Result<Completion, Lost> {
        let mut data = it.host.to_le_bytes().to_vec();
        data.extend(it.cntlid.to_le_bytes());
        data.resize(256, 0);
        data.extend(it.subsystem.as_bytes());
        data.resize(512, 0);
        data.extend(it.host_name.as_bytes());
        data.resize(768, 0);
        data.resize(it.length, 0);
        let mut words = [it.format, it.qid, it.size, it.attributes.into()].map(u16::to_le_bytes).concat();
        words.extend(it.keep_alive_ms.to_le_bytes());
        let command = Command { opcode: 0x7f, form: 1, words, data, in_capsule: it.in_capsule, ..Command::default() };
        let completion = self.call(&command)?;
        self.has_flow = completion.status != 0 || it.attributes & NO_FLOW == 0;
        Ok(completion)
    }

    pub fn set_property(&mut self, offset: u32, value: u64) -> Result<Completion, Lost> {
        let mut words = size_of_property(offset);
        words.extend(offset.to_le_bytes());
        words.extend(value.to_le_bytes());
        self.call(&Command { opcode: 0x7f, form: 0, words, ..Command::default() })
    }

    pub fn disconnect(&mut self) -> Result<u16, Lost> {
        self.send(&Command { opcode: 0x7f, form: 8, ..Command::default() })
    }

    pub fn property(&mut self, offset: u32) -> Result<Completion, Lost> {
        let mut words = size_of_property(offset);
        words.extend(offset.to_le_bytes());
        self.call(&Command { opcode: 0x7f, form: 4, words, ..Command::default() })
    }
}
