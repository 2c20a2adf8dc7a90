//! The calls of libnvmesim, and all that is unsafe.
//!
//! Keeps what the header asks of its caller: a [`Handle`] begins closed, is neither copied nor shared, and is closed
//! when it is dropped; references and slices are never null, and have as many values as they say.

use crate::foreign::*;
use crate::layout::{
    Admitted, Answer, Blocks, Bytes, CapsuleTaken, Change, Command, Completed, CompletedOver, Connection,
    DestinationSeen, Event, Executed, ExecutedOver, Fabrics, FabricsAnswer, Hold, HostId, HostView, Judged, Lent,
    LiveSession, Needed, NextRequest, Notices, PartTaken, Parts, PduFields, PduLayout, Placed, Queue, QueueConnection,
    Read, Registered, Request, Session, Sim, Taken, Transfers, Verdict, Written,
};
use crate::responses::{Raw, Reply};
use crate::{capsules::Capsule, pdu::Agreed, transfers::Part, Attachment, Controller, Namespace};
#[cfg(target_arch = "x86_64")]
use std::arch::x86_64::{_mm_prefetch, _MM_HINT_T0};
use std::marker::PhantomData;
use std::{ptr, slice};

/// Declares the calls that take a struct and then numbers and references, and makes each a method.
macro_rules! plain_calls {
    ($of:ty, $at:ident: $sim:ty; $($name:ident = $call:ident($($word:ident: $kind:ty),*) -> $result:ty;)+) => {
        extern "C" {
            $(fn $call(sim: *mut $sim $(, $word: $kind)*) -> $result;)+
        }

        impl $of {
            $(#[inline]
            pub fn $name(&mut self $(, $word: $kind)*) -> $result {
                unsafe { $call(&mut self.$at $(, $word)*) }
            })+
        }
    };
}

plain_calls! {
    Handle<'_>, sim: Sim;
    write32 = nvmesim_write32(cntlid: u16, offset: u64, value: u32) -> Answer;
    read32 = nvmesim_read32(cntlid: u16, offset: u64) -> Answer;
    fetch = nvmesim_fetch(cntlid: u16, qid: u16) -> Answer;
    execute = nvmesim_execute(cntlid: u16, i: usize) -> Answer;
    execute_over = nvmesim_execute_over(room: Lent<'_>, cntlid: u16, i: usize, first: u64, blocks: u64, flushes: bool) -> ExecutedOver;
    complete = nvmesim_complete(cntlid: u16, i: usize, completion: &mut [u8; 16]) -> Completed;
    complete_over = nvmesim_complete_over(room: Lent<'_>, cntlid: u16, i: usize, first: u64, blocks: u64, flushes: bool, completion: &mut [u8; 16]) -> CompletedOver;
    submit = nvmesim_submit(cntlid: u16, qid: u16, entry: &[u8; 64], completion: &mut [u8; 16]) -> Answer;
    power_cycle = nvmesim_power_cycle() -> Answer;
    submission_queue = nvmesim_submission_queue(cntlid: u16, qid: u16) -> Queue;
    completion_queue = nvmesim_completion_queue(cntlid: u16, qid: u16) -> Queue;
    fetched = nvmesim_fetched(cntlid: u16, i: usize) -> Command;
    needs = nvmesim_needs(cntlid: u16, i: usize) -> Needed;
    is_attached = nvmesim_is_attached(cntlid: u16, nsid: u32) -> Answer;
    reservation = nvmesim_reservation(nsid: u32) -> Hold;
    registrant = nvmesim_registrant(nsid: u32, i: usize) -> Registered;
    view = nvmesim_view(nsid: u32, cntlid: u16) -> HostView;
}

/// A subsystem that is open.
pub struct Handle<'a> {
    sim: Sim,
    /// Address and length of its borrowed bytes.
    lent: (*const u8, usize),
    life: PhantomData<&'a mut [u8]>,
}

impl<'a> Handle<'a> {
    /// Opens a subsystem for a version of the header, with a limit of a namespace's blocks: what the call answered, and
    /// the handle.
    pub fn open((version, most): (u32, u64), (cs, ns, at): Parts<'_>, blocks: Blocks<'_, 'a>) -> (u32, Self) {
        let sim = Sim { subsystem: ptr::null_mut(), is_open: false };
        let mut handle = Handle { sim, lent: (ptr::null(), 0), life: PhantomData };
        let it = &mut handle.sim;
        let (c, n, a) = ((cs.as_ptr(), cs.len()), (ns.as_ptr(), ns.len()), (at.as_ptr(), at.len()));
        let answer = match blocks {
            Blocks::Copied(bytes) => unsafe {
                nvmesim_open(it, version, most, c.0, c.1, n.0, n.1, a.0, a.1, bytes.as_ptr(), bytes.len())
            },
            Blocks::Lent(bytes) => {
                let bytes = Bytes { at: bytes.as_mut_ptr(), count: bytes.len() };
                handle.lent = (bytes.at, bytes.count);
                unsafe { nvmesim_open_lent(it, version, most, c.0, c.1, n.0, n.1, a.0, a.1, bytes) }
            }
            Blocks::Brought(disk) => unsafe {
                nvmesim_open_brought(it, version, most, c.0, c.1, n.0, n.1, a.0, a.1, disk)
            },
        };
        (answer, handle)
    }

    pub fn store(&mut self, cntlid: u16, address: u64, bytes: &[u8]) -> Answer {
        unsafe { nvmesim_store(&mut self.sim, cntlid, address, bytes.as_ptr(), bytes.len()) }
    }

    #[inline]
    pub fn place(&mut self, cntlid: u16, qid: u16, entry: &[u8; 64], data_at: u64, data: &[u8]) -> Placed {
        unsafe { nvmesim_place(&mut self.sim, cntlid, qid, entry.as_ptr(), data_at, data.as_ptr(), data.len()) }
    }

    pub fn load(&mut self, cntlid: u16, address: u64, bytes: &mut [u8]) -> u32 {
        unsafe { nvmesim_load(&mut self.sim, cntlid, address, bytes.as_mut_ptr(), bytes.len()) }
    }

    pub fn read_blocks(&mut self, nsid: u32, slba: u64, bytes: &mut [u8]) -> u32 {
        unsafe { nvmesim_read_blocks(&mut self.sim, nsid, slba, bytes.as_mut_ptr(), bytes.len()) }
    }

    pub fn look(&mut self, number: u64, line: &[u8], answer: &mut [u8]) -> Written {
        let (line, answer) = ((line.as_ptr(), line.len()), (answer.as_mut_ptr(), answer.len()));
        unsafe { nvmesim_look(&mut self.sim, number, line.0, line.1, answer.0, answer.1) }
    }

    pub fn notify(&mut self, notices: &mut Notices, cntlid: u16, change: &Change, before: &HostView) -> u32 {
        unsafe { nvmesim_notify(&mut self.sim, notices, cntlid, change, before) }
    }

    /// The borrowed bytes of a range, as the calls so far have left them; `None` if some of it is not borrowed.
    pub fn bytes(&mut self, place: usize, count: usize) -> Option<&[u8]> {
        let end = place.checked_add(count).filter(|end| *end <= self.lent.1)?;
        Some(unsafe { slice::from_raw_parts(self.lent.0.add(place), end - place) })
    }

    /// Prefetches borrowed bytes, if the processor can. That is no access, and may be done at any address.
    #[cfg_attr(not(target_arch = "x86_64"), allow(unused_variables))]
    pub fn prefetch(&self, place: usize, count: usize) {
        let (at, end) = (self.lent.0, place.saturating_add(count).min(self.lent.1));
        #[cfg(target_arch = "x86_64")]
        for line in (place..end).step_by(64) {
            unsafe { _mm_prefetch::<_MM_HINT_T0>(at.wrapping_add(line).cast()) };
        }
    }
}

// SAFETY: the header lets a struct go from one thread to another. It is not `Sync`, since one call comes at a time.
unsafe impl Send for Handle<'_> {}

impl Drop for Handle<'_> {
    fn drop(&mut self) {
        unsafe { nvmesim_close(&mut self.sim) }
    }
}

/// The length of the name of a status, which is written as far as it fits.
pub fn status_name(sct: u8, sc: u8, bytes: &mut [u8]) -> usize {
    unsafe { nvmesim_status_name(sct, sc, bytes.as_mut_ptr(), bytes.len()) }
}

impl Notices {
    pub fn mask(&self, nsid: u32) -> u32 {
        unsafe { nvmesim_notice_mask(self, nsid) }
    }

    pub fn set_mask(&mut self, nsid: u32, dw11: u32) -> u32 {
        unsafe { nvmesim_set_notice_mask(self, nsid, dw11) }
    }

    pub fn available(&self) -> u32 {
        unsafe { nvmesim_count_notices(self) }
    }

    pub fn page(&self) -> [u8; 64] {
        let mut page = [0; 64];
        unsafe { nvmesim_notice_page(self, page.as_mut_ptr()) };
        page
    }

    pub fn take(&mut self) {
        unsafe { nvmesim_take_notice(self) }
    }
}

/// Room for the parts of a configuration.
pub type Room<'r> = (&'r mut [Controller], &'r mut [Namespace], &'r mut [Attachment]);

/// Reads a configuration into its parts, or the reason why it is refused. The two numbers are the limit of a namespace's
/// blocks and the blocks of the medium.
pub fn read_configuration(text: &[u8], (most, blocks): (u64, u64), (cs, ns, at): Room<'_>, reason: &mut [u8]) -> Read {
    let (c, n, a) = ((cs.as_mut_ptr(), cs.len()), (ns.as_mut_ptr(), ns.len()), (at.as_mut_ptr(), at.len()));
    let (text, reason) = ((text.as_ptr(), text.len()), (reason.as_mut_ptr(), reason.len()));
    unsafe {
        nvmesim_read_configuration(text.0, text.1, most, blocks, c.0, c.1, n.0, n.1, a.0, a.1, reason.0, reason.1)
    }
}

/// The lines that describe a configuration.
pub fn configuration_lines((cs, ns, at): Parts<'_>, lines: &mut [u8]) -> Written {
    let (c, n, a) = ((cs.as_ptr(), cs.len()), (ns.as_ptr(), ns.len()), (at.as_ptr(), at.len()));
    unsafe { nvmesim_configuration_lines(c.0, c.1, n.0, n.1, a.0, a.1, lines.as_mut_ptr(), lines.len()) }
}

/// The line of an event, with the bytes of a store.
pub fn event_line(event: &Event, bytes: &[u8], line: &mut [u8]) -> Written {
    unsafe { nvmesim_event_line(event, bytes.as_ptr(), bytes.len(), line.as_mut_ptr(), line.len()) }
}

/// The line of an event's result.
pub fn answer_line(event: &Event, answer: &Answer, line: &mut [u8]) -> Written {
    unsafe { nvmesim_answer_line(event, answer, line.as_mut_ptr(), line.len()) }
}

/// Takes bytes of a connection.
#[inline]
pub fn connection_take(connection: &mut Connection, bytes: &[u8]) -> Taken {
    unsafe { nvmesim_connection_take(connection, bytes.as_ptr(), bytes.len()) }
}

/// Declares the calls of a controller's end of connections that take numbers and references, and makes each a function.
macro_rules! pdu_calls {
    ($($name:ident = $call:ident($($word:ident: $kind:ty),+) -> $result:ty;)+) => {
        extern "C" {
            $(fn $call($($word: $kind),+) -> $result;)+
        }

        $(#[inline]
        pub fn $name($($word: $kind),+) -> $result {
            unsafe { $call($($word),+) }
        })+
    };
}

pdu_calls! {
    pdu_layout_of = nvmesim_pdu_layout_of(agreed: &Agreed, head: &[u8; 8]) -> PduLayout;
    pdu_ic_request = nvmesim_pdu_ic_request(request: &[u8; 128]) -> PduFields;
    pdu_host_data = nvmesim_pdu_host_data(header: &[u8; 24], length: u32) -> PduFields;
    pdu_host_termination = nvmesim_pdu_host_termination(header: &[u8; 24]) -> PduFields;
    pdu_ic_response = nvmesim_pdu_ic_response(agreed: &Agreed, header: &mut [u8; 128]) -> ();
    pdu_response = nvmesim_pdu_response(agreed: &Agreed, entry: &[u8; 16], header: &mut [u8; 24]) -> PduLayout;
    pdu_ready = nvmesim_pdu_ready(agreed: &Agreed, cid: u16, tag: u16, n: u32, header: &mut [u8; 24]) -> PduLayout;
    pdu_data = nvmesim_pdu_data(agreed: &Agreed, cid: u16, n: u32, header: &mut [u8; 24]) -> PduLayout;
    pdu_termination = nvmesim_pdu_termination(status: u16, field: u32, n: u32, header: &mut [u8; 24]) -> PduLayout;
    connection_judge = nvmesim_connection_judge(at: &mut Connection, header: bool, bytes: bool) -> Verdict;
    connection_refuse = nvmesim_connection_refuse(at: &mut Connection, status: u16, field: u32) -> Verdict;
    connection_layout = nvmesim_connection_layout(at: &Connection) -> PduLayout;
    connection_wanted = nvmesim_connection_wanted(at: &Connection) -> usize;
    responses_accept = nvmesim_responses_accept(at: &mut Raw, cid: u16) -> u32;
    responses_respond = nvmesim_responses_respond(at: &mut Raw, reply: &Reply, entry: &mut [u8; 16]) -> u32;
    responses_forget = nvmesim_responses_forget(at: &mut Raw, cid: u16) -> u32;
    responses_connected = nvmesim_responses_connected(at: &mut Raw, sqsize: u16, disabled: bool) -> ();
    responses_end = nvmesim_responses_end(at: &mut Raw) -> ();
    responses_stop = nvmesim_responses_stop(at: &mut Raw) -> ();
    responses_status = nvmesim_responses_status(sct: u8, sc: u8) -> u16;
    buffers_start = nvmesim_buffers_start(buffer: u32, length: u64) -> u64;
    buffers_place = nvmesim_buffers_place(entry: &mut [u8; 64], is_admin: bool, buffer: u32, length: u64) -> ();
    buffers_is_filled = nvmesim_buffers_is_filled(entry: &[u8; 64], is_admin: bool, length: u64) -> bool;
    buffers_list = nvmesim_buffers_list(list: &mut [u8; 248]) -> u64;
    buffers_submission_queue = nvmesim_buffers_submission_queue(qid: u16) -> u64;
    buffers_completion_queue = nvmesim_buffers_completion_queue(qid: u16) -> u64;
    journal_lasts = nvmesim_journal_lasts(entry: &[u8; 64], is_admin: bool) -> bool;
    journal_kept_length = nvmesim_journal_kept_length(head: &[u8; 2], is_admin: bool) -> u32;
    capsules_destination = nvmesim_capsules_destination(at: &LiveSession, entry: &[u8; 64], has: bool) -> DestinationSeen;
}

/// Associations that are open.
pub struct Associations {
    fabrics: Fabrics,
}

impl Associations {
    /// Opens associations for these hosts: what the call answered, and they.
    pub fn open(hosts: &[HostId], has_keys: bool) -> (u32, Self) {
        let mut it = Associations { fabrics: Fabrics { controllers: ptr::null_mut(), is_open: false } };
        let answer = unsafe { nvmesim_fabrics_open(&mut it.fabrics, hosts.as_ptr(), hosts.len(), has_keys) };
        (answer, it)
    }
}

// SAFETY: as a handle.
unsafe impl Send for Associations {}

impl Drop for Associations {
    fn drop(&mut self) {
        unsafe { nvmesim_fabrics_close(&mut self.fabrics) }
    }
}

plain_calls! {
    Associations, fabrics: Fabrics;
    live = nvmesim_fabrics_live(session: &Session) -> LiveSession;
    connection = nvmesim_fabrics_connection(index: u16, qid: u16) -> QueueConnection;
    admitted = nvmesim_fabrics_admitted(session: &Session, entry: &[u8; 64], data: &[u8; 1024], judged: &Judged) -> Admitted;
    admits = nvmesim_fabrics_admits(index: u16, request: &Request, is_enabled: bool) -> FabricsAnswer;
    connect = nvmesim_fabrics_connect(session: &mut Session, entry: &[u8; 64], data: &[u8; 1024], it: &Judged) -> FabricsAnswer;
    authenticate = nvmesim_fabrics_authenticate(session: &mut Session, is_enabled: bool, sct: u8, sc: u8) -> FabricsAnswer;
    execute = nvmesim_fabrics_execute(session: &mut Session, entry: &[u8; 64]) -> Executed;
    end_session = nvmesim_fabrics_end_session(session: &mut Session) -> u32;
    end_association = nvmesim_fabrics_end_association(index: u16) -> u32;
}

/// The commands of a connection, which are open.
pub struct Commands {
    transfers: Transfers,
}

impl Commands {
    /// Opens a connection without commands: what the call answered, and they.
    pub fn open() -> (u32, Self) {
        let mut it = Commands { transfers: Transfers { commands: ptr::null_mut(), is_open: false } };
        (unsafe { nvmesim_transfers_open(&mut it.transfers) }, it)
    }

    #[inline]
    pub fn store(&mut self, part: &Part, bytes: &[u8], room: &mut [u8]) -> PartTaken {
        let (b, r) = ((bytes.as_ptr(), bytes.len()), (room.as_mut_ptr(), room.len()));
        unsafe { nvmesim_transfers_store(&mut self.transfers, part, b.0, b.1, r.0, r.1) }
    }

    #[inline]
    pub fn take_capsule(&mut self, responses: &mut Raw, session: &Session, capsule: &Capsule) -> CapsuleTaken {
        unsafe { nvmesim_capsules_take(responses, &mut self.transfers, session, capsule) }
    }
}

// SAFETY: as a handle.
unsafe impl Send for Commands {}

impl Drop for Commands {
    fn drop(&mut self) {
        unsafe { nvmesim_transfers_close(&mut self.transfers) }
    }
}

plain_calls! {
    Commands, transfers: Transfers;
    count = nvmesim_transfers_count() -> usize;
    has = nvmesim_transfers_has(cid: u16) -> bool;
    begin = nvmesim_transfers_begin(entry: &[u8; 64], length: u32) -> u32;
    next_request = nvmesim_transfers_next_request() -> NextRequest;
    take = nvmesim_transfers_take(part: &Part) -> PartTaken;
    end = nvmesim_transfers_end() -> u32;
}
