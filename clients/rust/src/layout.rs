//! The structs of `nvmesim.h`, `nvmesim_texts.h` and `nvmetcp.h`, with their layout in memory.

use crate::pdu::Agreed;
use crate::{Attachment, Controller, Namespace};
use std::marker::PhantomData;
use std::os::raw::c_void;

#[repr(C)]
pub struct Sim {
    pub subsystem: *mut c_void,
    pub is_open: bool,
}

#[repr(C)]
pub struct Bytes {
    pub at: *mut u8,
    pub count: usize,
}

/// The bytes of a room, as a call borrows them.
#[repr(C)]
pub struct Lent<'r> {
    at: *mut u8,
    count: usize,
    life: PhantomData<&'r mut [u8]>,
}

impl<'r> Lent<'r> {
    pub fn of(bytes: &'r mut [u8]) -> Self {
        Lent { at: bytes.as_mut_ptr(), count: bytes.len(), life: PhantomData }
    }
}

#[repr(C)]
pub struct Disk {
    pub blocks: u64,
}

#[repr(C)]
pub struct ExecutedOver {
    pub at_hand: u64,
    pub answer: Answer,
}

#[repr(C)]
pub struct Placed {
    pub entry_at: u64,
    pub index: usize,
    pub tail: u32,
    pub what: u32,
}

#[repr(C)]
pub struct Completed {
    pub answer: Answer,
    pub head: u32,
    pub cqid: u16,
}

#[repr(C)]
pub struct CompletedOver {
    pub at_hand: u64,
    pub completed: Completed,
}

#[repr(C)]
#[derive(Default)]
pub struct Answer {
    pub value: u32,
    pub what: u32,
    pub sct: u8,
    pub sc: u8,
    pub rule: u8,
}

#[repr(C)]
pub struct Queue {
    pub base: u64,
    pub what: u32,
    pub size: u16,
    pub head: u16,
    pub tail: u16,
    pub cqid: u16,
    pub phase: bool,
}

#[repr(C)]
pub struct Command {
    pub count: usize,
    pub what: u32,
    pub qid: u16,
    pub marked: bool,
    pub entry: [u8; 64],
}

#[repr(C)]
pub struct Needed {
    pub first: u64,
    pub blocks: u32,
    pub what: u32,
    pub kind: u32,
}

#[repr(C)]
pub struct Hold {
    pub host_low: u64,
    pub host_high: u64,
    pub registrants: usize,
    pub what: u32,
    pub generation: u32,
    pub protection: u32,
    pub rtype: u8,
    pub ptpl: bool,
}

#[repr(C)]
pub struct Registered {
    pub host_low: u64,
    pub host_high: u64,
    pub key: u64,
    pub what: u32,
}

#[repr(C)]
#[derive(Clone, Copy)]
pub struct HostView {
    pub what: u32,
    pub rtype: u8,
    pub is_registrant: bool,
}

#[repr(C)]
pub struct Change {
    pub nsid: u32,
    pub action: u32,
    pub issuer: u16,
}

#[repr(C)]
#[derive(Clone, Copy)]
pub struct Notice {
    pub count: u64,
    pub nsid: u32,
    pub kind: u8,
}

#[repr(C)]
#[derive(Clone)]
pub struct Notices {
    pub count: u64,
    pub places: [Notice; 64],
    pub masks: [u32; 8],
    pub kept: u32,
}

#[repr(C)]
#[derive(Clone, Copy, Default)]
pub struct Event {
    pub at: u64,
    pub kind: u32,
    pub value: u32,
    pub cntlid: u16,
    pub qid: u16,
}

#[repr(C)]
pub struct Written {
    pub length: usize,
    pub what: u32,
}

#[repr(C)]
pub struct Read {
    pub controllers: usize,
    pub namespaces: usize,
    pub attached: usize,
    pub line: usize,
    pub column: usize,
    pub length: usize,
    pub what: u32,
}

#[repr(C)]
pub struct PduFields {
    pub what: u32,
    pub field: u32,
    pub offset: u32,
    pub status: u16,
    pub cid: u16,
    pub tag: u16,
    pub agreed: Agreed,
}

#[repr(C)]
pub struct PduLayout {
    pub what: u32,
    pub field: u32,
    pub length: u32,
    pub data_offset: u32,
    pub data_length: u32,
    pub status: u16,
    pub kind: u8,
    pub header: u8,
    pub is_last: bool,
    pub header_digest: bool,
    pub data_digest: bool,
}

#[repr(C)]
#[derive(Clone)]
pub struct Connection {
    pub count: usize,
    pub length: u32,
    pub data_offset: u32,
    pub data_length: u32,
    pub kind: u8,
    pub header: u8,
    pub stage: u8,
    pub is_last: bool,
    pub header_digest: bool,
    pub data_digest: bool,
    pub is_open: bool,
    pub agreed: Agreed,
    pub kept: [u8; 128],
}

impl Connection {
    /// Zeros: nothing has come.
    pub const NONE: Connection = Connection {
        count: 0,
        length: 0,
        data_offset: 0,
        data_length: 0,
        kind: 0,
        header: 0,
        stage: 0,
        is_last: false,
        header_digest: false,
        data_digest: false,
        is_open: false,
        agreed: Agreed { header_digests: false, data_digests: false, alignment: 0 },
        kept: [0; 128],
    };
}

#[repr(C)]
pub struct Taken {
    pub count: usize,
    pub data_begin: usize,
    pub data_end: usize,
    pub data_offset: usize,
    pub what: u32,
    pub field: u32,
    pub status: u16,
}

#[repr(C)]
pub struct Verdict {
    pub layout: PduLayout,
    pub is_sound: bool,
}

#[repr(C)]
pub struct Fabrics {
    pub controllers: *mut c_void,
    pub is_open: bool,
}

#[repr(C)]
pub struct HostId {
    pub low: u64,
    pub high: u64,
}

#[repr(C)]
#[derive(Clone, Copy)]
pub struct Request {
    pub host_low: u64,
    pub host_high: u64,
    pub host_nqn: [u8; 256],
    pub cntlid: u16,
    pub qid: u16,
    pub entries: u16,
}

impl Request {
    /// Zeros.
    pub const NONE: Request = Request { host_low: 0, host_high: 0, host_nqn: [0; 256], cntlid: 0, qid: 0, entries: 0 };
}

#[repr(C)]
#[derive(Clone)]
pub struct Session {
    pub connection: u64,
    pub request: Request,
    pub kind: u32,
    pub index: u16,
    pub qid: u16,
}

#[repr(C)]
pub struct Judged {
    pub authenticating: [u32; 16],
    pub subsystem: u32,
    pub is_whole: bool,
    pub is_known: bool,
    pub is_allowed: bool,
    pub is_enabled: bool,
    pub created_sct: u8,
    pub created_sc: u8,
}

#[repr(C)]
pub struct FabricsAnswer {
    pub what: u32,
    pub dw0: u32,
    pub sct: u8,
    pub sc: u8,
}

#[repr(C)]
pub struct Admitted {
    pub request: Request,
    pub answer: FabricsAnswer,
    pub place: u32,
    pub index: u16,
}

#[repr(C)]
pub struct Executed {
    pub answer: FabricsAnswer,
    pub command: u32,
}

#[repr(C)]
pub struct LiveSession {
    pub what: u32,
    pub kind: u32,
    pub index: u16,
    pub qid: u16,
}

#[repr(C)]
pub struct QueueConnection {
    pub connection: u64,
    pub what: u32,
}

#[repr(C)]
pub struct Transfers {
    pub commands: *mut c_void,
    pub is_open: bool,
}

#[repr(C)]
pub struct NextRequest {
    pub what: u32,
    pub length: u32,
    pub cid: u16,
    pub tag: u16,
}

#[repr(C)]
pub struct PartTaken {
    pub what: u32,
    pub field: u32,
    pub begin: u32,
    pub length: u32,
    pub status: u16,
    pub is_complete: bool,
    pub is_sound: bool,
    pub entry: [u8; 64],
}

#[repr(C)]
pub struct CapsuleTaken {
    pub what: u32,
    pub field: u32,
    pub outcome: u32,
    pub begin: u32,
    pub length: u32,
    pub fatal: u16,
    pub sct: u8,
    pub sc: u8,
}

#[repr(C)]
pub struct DestinationSeen {
    pub kind: u32,
    pub index: u16,
    pub qid: u16,
    pub sct: u8,
    pub sc: u8,
}

/// A configuration, as the calls take it.
pub type Parts<'p> = (&'p [Controller], &'p [Namespace], &'p [Attachment]);

/// The origin of the subsystem's blocks.
pub enum Blocks<'b, 'a> {
    Copied(&'b [u8]),
    Lent(&'a mut [u8]),
    Brought(Disk),
}
