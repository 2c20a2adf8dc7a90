//! Numbers of the NVMe standard and limits of the subsystem: opcodes, features, sizes, and queues. Only this file
//! defines them.

pub mod entry;
pub mod names;
pub mod status;

/// The size of a block, and of a submission queue entry.
pub const BLOCK: u64 = 512;
pub const ENTRY: usize = 64;

/// The size of a page of a host's memory, CC.MPS 0.
pub const MEMORY_PAGE: usize = 4096;

/// The highest namespace identifier, and the most blocks of a namespace.
pub const MOST_NAMESPACES: u32 = 8;
pub const MOST_BLOCKS: u64 = 65_536;

/// The highest queue identifier of a controller, and its number of queue pairs, including the admin queues.
pub const MOST_QUEUE: u16 = 4;
#[allow(clippy::as_conversions)] // `usize::from` is not `const`.
pub const QUEUES: usize = MOST_QUEUE as usize + 1;
/// The most entries of a queue: a page of submission queue entries. CAP.MQES is one less.
pub const MOST_ENTRIES: u16 = 64;

/// Opcodes of admin commands.
pub const DELETE_SUBMISSION_QUEUE: u8 = 0x00;
pub const CREATE_SUBMISSION_QUEUE: u8 = 0x01;
pub const GET_LOG_PAGE: u8 = 0x02;
pub const DELETE_COMPLETION_QUEUE: u8 = 0x04;
pub const CREATE_COMPLETION_QUEUE: u8 = 0x05;
pub const IDENTIFY: u8 = 0x06;
pub const ABORT: u8 = 0x08;
pub const SET_FEATURES: u8 = 0x09;
pub const GET_FEATURES: u8 = 0x0a;
pub const ASYNCHRONOUS_EVENT_REQUEST: u8 = 0x0c;
pub const NAMESPACE_ATTACHMENT: u8 = 0x15;
pub const KEEP_ALIVE: u8 = 0x18;

/// Feature identifiers.
pub const ARBITRATION: u8 = 0x01;
pub const POWER_MANAGEMENT: u8 = 0x02;
pub const TEMPERATURE_THRESHOLD: u8 = 0x04;
pub const ERROR_RECOVERY: u8 = 0x05;
pub const VOLATILE_WRITE_CACHE: u8 = 0x06;
pub const NUMBER_OF_QUEUES: u8 = 0x07;
pub const WRITE_ATOMICITY: u8 = 0x0a;
pub const EVENT_CONFIGURATION: u8 = 0x0b;
pub const KEEP_ALIVE_TIMER: u8 = 0x0f;
pub const HOST_IDENTIFIER: u8 = 0x81;
pub const RESERVATION_NOTIFICATION: u8 = 0x82;
pub const WRITE_PROTECTION: u8 = 0x84;

/// Log page identifiers.
pub const SUPPORTED_LOG_PAGES: u8 = 0x00;
pub const ERROR_INFORMATION: u8 = 0x01;
pub const HEALTH_INFORMATION: u8 = 0x02;
pub const FIRMWARE_SLOTS: u8 = 0x03;
pub const CHANGED_NAMESPACES: u8 = 0x04;
pub const COMMAND_EFFECTS: u8 = 0x05;
pub const NAMESPACE_ACCESS: u8 = 0x0c;
pub const FEATURE_EFFECTS: u8 = 0x12;
pub const RESERVATION_NOTICES: u8 = 0x80;

/// The namespace identifier for all namespaces.
pub const ALL_NAMESPACES: u32 = 0xffff_ffff;

/// Opcodes of I/O commands.
pub const FLUSH: u8 = 0x00;
pub const WRITE: u8 = 0x01;
pub const READ: u8 = 0x02;
pub const COMPARE: u8 = 0x05;
pub const WRITE_ZEROES: u8 = 0x08;
pub const DATASET_MANAGEMENT: u8 = 0x09;
pub const RESERVATION_REGISTER: u8 = 0x0d;
pub const RESERVATION_REPORT: u8 = 0x0e;
pub const RESERVATION_ACQUIRE: u8 = 0x11;
pub const RESERVATION_RELEASE: u8 = 0x15;

/// The opcode of all Fabrics commands, and the Fabrics Command Type of one, the fifth byte of its entry.
pub const FABRICS: u8 = 0x7f;
pub const AUTHENTICATION_RECEIVE: u8 = 0x06;
