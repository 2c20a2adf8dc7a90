//! Why a call did nothing, or a device is not used.

use std::error::Error;
use std::fmt;

/// The status of a completion: its type and code.
#[derive(Clone, Copy, Debug, PartialEq, Eq)]
pub struct Status {
    /// The status code type, 0 to 7.
    pub sct: u8,
    /// The status code.
    pub sc: u8,
}

impl Status {
    /// Successful Completion.
    pub const SUCCESS: Status = Status { sct: 0, sc: 0 };
    /// Command Abort Requested.
    pub const ABORT_REQUESTED: Status = Status { sct: 0, sc: 7 };
    /// Reservation Conflict.
    pub const RESERVATION_CONFLICT: Status = Status { sct: 0, sc: 0x83 };
    /// Compare Failure.
    pub const COMPARE_FAILURE: Status = Status { sct: 2, sc: 0x85 };
}

impl fmt::Display for Status {
    fn fmt(&self, f: &mut fmt::Formatter<'_>) -> fmt::Result {
        write!(f, "{:x}:{:02x}", self.sct, self.sc)
    }
}

macro_rules! faults {
    ($($name:ident $code:literal $text:literal)*) => {
        /// Why a call did nothing, or a device is not used. `nvmehost.h` describes each.
        #[derive(Clone, Copy, Debug, PartialEq, Eq)]
        #[non_exhaustive]
        pub enum Fault {
            $(#[doc = $text] $name,)*
            /// the controller answered a request or one of the driver's own commands with this status
            Answered(Status),
            /// the controller sent no answer in time
            NoAnswerInTime,
            /// a result that this crate does not know
            Unknown(u32),
        }

        impl Fault {
            /// The fault with this number in `nvmehost.h`.
            pub(crate) fn from_code(code: u32) -> Fault {
                match code {
                    $($code => Fault::$name,)*
                    _ => Fault::Unknown(code),
                }
            }
        }

        impl fmt::Display for Fault {
            fn fmt(&self, f: &mut fmt::Formatter<'_>) -> fmt::Result {
                match self {
                    $(Fault::$name => f.write_str($text),)*
                    Fault::Answered(status) => write!(f, "the controller answered status {status}"),
                    Fault::NoAnswerInTime => f.write_str("the controller sent no answer in time"),
                    Fault::Unknown(code) => write!(f, "an unknown result, {code}"),
                }
            }
        }
    };
}

faults! {
    Closed 16 "no driver is open"
    AlreadyOpen 17 "a driver is open already"
    NoMemory 18 "no memory"
    ActionsPending 19 "actions of an earlier call are pending"
    NotJudged 20 "the capabilities were not judged"
    NotDisabled 21 "the controller was not seen disabled"
    AlreadyUp 22 "the driver is up, or has failed"
    NotReady 23 "the controller is not ready"
    NoAnswer 24 "the controller did not answer one of the driver's own commands"
    NotUp 26 "the driver is not up"
    BadRequest 27 "no command can express the request"
    NoSlot 28 "all slots wait"
    RingFull 29 "the queue is full"
    NoTicket 30 "no ticket is left"
    UnknownCommand 31 "a completion answers no request"
    Outside 32 "a buffer is too short, or bytes are outside the window or the registers"
    NotAwaited 33 "nothing is awaited"
    NotWaiting 34 "no request with this ticket waits"
    Removed 48 "the device was removed (its registers read as ones)"
    Fatal 49 "the controller has failed (CSTS.CFS)"
    TimedOut 50 "the controller did not change its status in time (CAP.TO)"
    QueuesTooShort 51 "its queues are too short (CAP.MQES)"
    NoNvmCommands 52 "it does not have the NVM command set (CAP.CSS)"
    PageSize 53 "its memory pages are larger than 4 KiB (CAP.MPSMIN)"
    NotIo 54 "it is no I/O controller (CNTRLTYPE)"
    EntrySize 55 "its queue entries have other sizes (SQES, CQES)"
    NotThere 56 "there is no such namespace, or it is not attached (NSZE)"
    BlockSize 57 "its blocks do not have 512 bytes (LBADS)"
    Metadata 58 "its blocks have metadata (MS, DPS)"
    ControllerNotAsked 59 "the controller was not asked"
    NamespaceNotAsked 60 "the namespace was not asked"
    NotSupported 61 "the controller does not support the command (ONCS)"
    TooLong 62 "the request is longer than MDTS allows"
    PastTheEnd 63 "blocks after the last one of the namespace (NSZE)"
    NsidTooHigh 64 "namespaces above 64 are not supported"
    Expired 65 "the time of a request is over: reset the controller first"
    NoHostIdentifier 66 "the controller does not have the identifier of this host"
}

impl Error for Fault {}
