//! The statuses of completions.

use nvmesim::responses::status_field;
use std::fmt;

/// A Status Code Type and a Status Code.
#[derive(Clone, Copy, Debug, PartialEq, Eq, PartialOrd, Ord)]
pub struct Status {
    pub sct: u8,
    pub sc: u8,
}

/// Status Code Types.
const GENERIC: u8 = 0;
const SPECIFIC: u8 = 1;
const MEDIA: u8 = 2;
const PATH: u8 = 3;

pub const SUCCESS: Status = Status { sct: GENERIC, sc: 0x00 };
pub const INVALID_OPCODE: Status = Status { sct: GENERIC, sc: 0x01 };
pub const INVALID_FIELD: Status = Status { sct: GENERIC, sc: 0x02 };
pub const DATA_TRANSFER: Status = Status { sct: GENERIC, sc: 0x04 };
pub const INVALID_NAMESPACE: Status = Status { sct: GENERIC, sc: 0x0b };
pub const COMMAND_SEQUENCE: Status = Status { sct: GENERIC, sc: 0x0c };
pub const SGL_LENGTH: Status = Status { sct: GENERIC, sc: 0x0f };
pub const ABORTED_BY_PREEMPTION: Status = Status { sct: GENERIC, sc: 0x1b };
pub const TRANSIENT_TRANSPORT: Status = Status { sct: GENERIC, sc: 0x22 };
pub const OUT_OF_RANGE: Status = Status { sct: GENERIC, sc: 0x80 };
pub const RESERVATION_CONFLICT: Status = Status { sct: GENERIC, sc: 0x83 };
pub const EVENT_LIMIT: Status = Status { sct: SPECIFIC, sc: 0x05 };
pub const INVALID_LOG_PAGE: Status = Status { sct: SPECIFIC, sc: 0x09 };
pub const FEATURE_NOT_SAVEABLE: Status = Status { sct: SPECIFIC, sc: 0x0d };
pub const FEATURE_NOT_CHANGEABLE: Status = Status { sct: SPECIFIC, sc: 0x0e };
pub const FEATURE_OF_NO_NAMESPACE: Status = Status { sct: SPECIFIC, sc: 0x0f };
pub const CONTROLLER_BUSY: Status = Status { sct: SPECIFIC, sc: 0x81 };
pub const CONNECT_PARAMETERS: Status = Status { sct: SPECIFIC, sc: 0x82 };
pub const SIZE_LIMIT: Status = Status { sct: SPECIFIC, sc: 0x83 };
pub const CONNECT_HOST: Status = Status { sct: SPECIFIC, sc: 0x84 };
pub const AUTHENTICATION_REQUIRED: Status = Status { sct: SPECIFIC, sc: 0x91 };
pub const WRITE_FAULT: Status = Status { sct: MEDIA, sc: 0x80 };
pub const READ_ERROR: Status = Status { sct: MEDIA, sc: 0x81 };
pub const INACCESSIBLE: Status = Status { sct: PATH, sc: 0x02 };

impl fmt::Display for Status {
    /// Its type in one hexadecimal digit, and its code in two.
    fn fmt(&self, f: &mut fmt::Formatter<'_>) -> fmt::Result {
        write!(f, "{:x}:{:02x}", self.sct, self.sc)
    }
}

impl Status {
    /// The field of a completion queue entry, its phase tag 0. All statuses have Do Not Retry unless the same command may
    /// succeed later: Linux repeats a command without it five times, and a write that a preemption has aborted would then
    /// be executed once its host has registered again.
    pub fn field(self) -> u16 {
        status_field(self.sct, self.sc)
    }
}

#[cfg(test)]
mod tests {
    use super::*;

    #[test]
    fn do_not_retry() {
        assert_eq!(SUCCESS.field(), 0);
        assert_eq!(Status { sct: 0, sc: 0x83 }.field(), 0x8106);
        assert_eq!(Status { sct: 2, sc: 0x85 }.field(), 0x850a);
        assert_eq!(TRANSIENT_TRANSPORT.field(), 0x0044);
        assert_eq!(CONTROLLER_BUSY.field(), 0x0302);
        assert_eq!(INACCESSIBLE.field(), 0x0604);
    }
}
