//! Identify, with every structure that there is and some that there are not, and what they say.

use super::admin::{described, one_of, words, DATA_TRANSFER, INVALID_FIELD, INVALID_NAMESPACE, SUCCESS};
use super::checker::check;
use super::pdu::{u16_at, u32_at};
use super::queue::{Command, Lost};
use super::{below, Session};

const IDENTIFY: u8 = 0x06;
/// The size of a structure.
const BYTES: usize = 4096;
/// Values of CNS.
const NAMESPACE: u32 = 0x00;
const CONTROLLER: u32 = 0x01;
const NAMESPACES: u32 = 0x02;
const DESCRIPTORS: u32 = 0x03;
const NVM_CONTROLLER: u32 = 0x06;
const NVM_NAMESPACES: u32 = 0x07;
const ALLOCATED_NAMESPACES: u32 = 0x10;
const ALLOCATED_NAMESPACE: u32 = 0x11;
const ATTACHED_CONTROLLERS: u32 = 0x12;
const CONTROLLERS: u32 = 0x13;
const KNOWN: [u32; 12] = [
    NAMESPACE,
    CONTROLLER,
    NAMESPACES,
    DESCRIPTORS,
    0x05,
    NVM_CONTROLLER,
    NVM_NAMESPACES,
    0x08,
    ALLOCATED_NAMESPACES,
    ALLOCATED_NAMESPACE,
    ATTACHED_CONTROLLERS,
    CONTROLLERS,
];
/// The highest namespace identifier.
const MOST_NAMESPACES: u32 = 8;

/// What a command asks for.
struct Asked {
    cns: u32,
    nsid: u32,
    /// The first controller of a list, and the command set.
    from: u32,
    set: u32,
    length: usize,
}

impl Session<'_> {
    /// Identify with a structure chosen at random.
    pub fn identify(&mut self) -> Result<(), Lost> {
        let cns = if below(12) == 0 { one_of(&[0x04, 0x09, 0x14, 0x20, 0xff]) } else { one_of(&KNOWN) };
        let asked = Asked {
            cns,
            nsid: if below(2) == 0 { 1 } else { one_of(&[0, 2, MOST_NAMESPACES, 9, u32::MAX - 1, u32::MAX]) },
            from: one_of(&[0, 1, 2, 50]),
            set: u32::from(below(8) == 0),
            length: if below(8) == 0 { one_of(&[0, 512, 4092]) } else { BYTES },
        };
        let command = Command {
            opcode: IDENTIFY,
            nsid: asked.nsid,
            words: words(&[asked.cns | asked.from << 16, asked.set << 24]),
            length: asked.length,
            ..Command::default()
        };
        let completion = self.expect(&command, &self.wanted(&asked))?;
        if completion.status != SUCCESS {
            return Ok(());
        }
        if completion.data.len() != asked.length {
            self.complain(&format!("{} has {} bytes", described(&command), completion.data.len()));
        } else if let Some(text) = self.fault_of(&asked, &completion.data) {
            self.complain(&format!("{}: {text}", described(&command)));
        }
        Ok(())
    }

    /// The statuses that a command may have: a namespace may be detached.
    fn wanted(&self, asked: &Asked) -> Vec<u16> {
        if !KNOWN.contains(&asked.cns) || asked.set != 0 && matches!(asked.cns, 0x05..=0x07) {
            return vec![INVALID_FIELD, DATA_TRANSFER];
        }
        let may_be = (1..=MOST_NAMESPACES).contains(&asked.nsid);
        let is_there = match asked.cns {
            CONTROLLER | NVM_CONTROLLER | CONTROLLERS => vec![SUCCESS],
            NAMESPACES | NVM_NAMESPACES | ALLOCATED_NAMESPACES if asked.nsid >= u32::MAX - 1 => vec![INVALID_NAMESPACE],
            NAMESPACES | NVM_NAMESPACES | ALLOCATED_NAMESPACES => vec![SUCCESS],
            NAMESPACE | ALLOCATED_NAMESPACE | ATTACHED_CONTROLLERS if may_be => vec![SUCCESS],
            _ if asked.nsid == 1 => vec![SUCCESS, INVALID_NAMESPACE],
            _ if asked.nsid == 2 && self.path.second != 0 => vec![SUCCESS],
            _ => vec![INVALID_NAMESPACE],
        };
        match asked.length {
            BYTES => is_there,
            _ => is_there.into_iter().filter(|it| *it != SUCCESS).chain([DATA_TRANSFER]).collect(),
        }
    }

    /// What is wrong with a structure.
    fn fault_of(&self, asked: &Asked, data: &[u8]) -> Option<String> {
        let size = || u64::from(u32_at(data, 0)) | u64::from(u32_at(data, 4)) << 32;
        let is_wrong = match asked.cns {
            CONTROLLER => return self.controller_fault(data),
            // Zeros if it is detached.
            NAMESPACE if asked.nsid == 1 => size() != 0 && size() != self.path.blocks as u64,
            ALLOCATED_NAMESPACE if asked.nsid == 1 => size() != self.path.blocks as u64,
            NAMESPACE if asked.nsid == 2 => size() != self.path.second as u64,
            ALLOCATED_NAMESPACE if asked.nsid == 2 && self.path.second != 0 => size() != self.path.second as u64,
            DESCRIPTORS => {
                let name = if asked.nsid == 1 { "the UUID" } else { "the UUID of another namespace" };
                data[..2] != [3, 16] || !check(|it| it.is_same(name, &data[4..20]))
            }
            NVM_CONTROLLER => data[1] != 13 || u32_at(data, 4) != 65_536,
            NAMESPACES | NVM_NAMESPACES | ALLOCATED_NAMESPACES => !is_rising(&numbers(data), asked.nsid),
            ATTACHED_CONTROLLERS | CONTROLLERS => {
                let count = usize::from(u16_at(data, 0));
                let list: Vec<u32> = (1..=count).map(|it| u32::from(u16_at(data, 2 * it))).collect();
                let has_own = list.contains(&self.path.cntlid.into());
                !is_rising(&list, asked.from.saturating_sub(1))
                    || asked.cns == CONTROLLERS && has_own != (u32::from(self.path.cntlid) >= asked.from)
            }
            _ => false,
        };
        is_wrong.then(|| format!("it begins with {:x?}", &data[..32]))
    }

    fn controller_fault(&self, data: &[u8]) -> Option<String> {
        let name = data[768..1024].split(|it| *it == 0).next().unwrap_or(&[]);
        let caches = data[525] & 1 != 0;
        if u16_at(data, 78) != self.path.cntlid || name != self.path.name.as_bytes() {
            return Some(format!("CNTLID is {}, SUBNQN {}", u16_at(data, 78), String::from_utf8_lossy(name)));
        }
        if caches == check(|it| it.writes_through) {
            return Some(format!("VWC is {caches}"));
        }
        let is_same = check(|it| it.is_same("the serial number", &data[4..24]));
        (!is_same).then(|| "another serial number than before".to_owned())
    }
}

/// The numbers of a list that ends with 0.
fn numbers(data: &[u8]) -> Vec<u32> {
    data.chunks_exact(4).map(|it| u32_at(it, 0)).take_while(|it| *it != 0).collect()
}

/// Whether numbers rise, all above one.
fn is_rising(list: &[u32], above: u32) -> bool {
    let all: Vec<u32> = std::iter::once(above).chain(list.iter().copied()).collect();
    all.windows(2).all(|it| it[0] < it[1])
}
