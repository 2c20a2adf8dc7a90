//! The answer to a command.

use crate::nvme::status::{Status, SUCCESS};
use crate::target::controller::Completed;

/// The data of an answer.
#[derive(Clone, Debug, PartialEq, Eq)]
pub enum Payload {
    None,
    /// These bytes.
    Bytes(Vec<u8>),
    /// Bytes in the memory of a controller's host.
    Memory {
        cntlid: u16,
        address: u64,
        length: usize,
    },
}

/// The fields of a completion that depend on the command, and the data to send before it.
#[derive(Clone, Debug, PartialEq, Eq)]
pub struct Answer {
    pub status: Status,
    pub dw0: u32,
    pub dw1: u32,
    pub data: Payload,
}

impl Answer {
    /// A status without data.
    pub fn of(status: Status) -> Answer {
        Answer { status, dw0: 0, dw1: 0, data: Payload::None }
    }

    /// Data, cut or extended with zeros to the length that the host has asked for.
    pub fn with(mut bytes: Vec<u8>, length: usize) -> Answer {
        bytes.resize(length, 0);
        Answer { data: if length == 0 { Payload::None } else { Payload::Bytes(bytes) }, ..Answer::of(SUCCESS) }
    }

    /// The answer of the subsystem. A failed command has no data.
    pub fn completed(completed: Completed, cntlid: u16, length: usize) -> Answer {
        let data = if completed.status == SUCCESS && length != 0 {
            Payload::Memory { cntlid, address: completed.data, length }
        } else {
            Payload::None
        };
        Answer { status: completed.status, dw0: completed.dw0, dw1: 0, data }
    }
}
