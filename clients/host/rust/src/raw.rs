//! The calls of libnvmehost, and the memory that a device reaches. All unsafe code of this crate is here.
//!
//! Keeps what the header asks of its caller: a [`Handle`] begins closed, is neither copied nor shared, and is closed
//! when it is dropped; references and slices are never null, and have as many values as they say.

use crate::mapped::Mapped;
use std::ffi::c_void;
use std::ptr;
use std::sync::atomic::{fence, Ordering};

/// The actions that a call records at most.
pub const ACTIONS: usize = 32;

#[repr(C)]
#[derive(Clone, Copy, Debug, Default)]
pub struct Action {
    pub at: u64,
    pub len: u64,
    pub value: u32,
    pub kind: u32,
}

#[repr(C)]
#[derive(Clone, Copy, Debug, Default)]
pub struct Outcome {
    pub ticket: u64,
    pub len: u64,
    pub dw0: u32,
    pub code: u32,
    pub sct: u8,
    pub sc: u8,
}

#[repr(C)]
#[derive(Clone, Copy, Debug, Default)]
pub struct Placed {
    pub ticket: u64,
    pub code: u32,
}

#[repr(C)]
#[derive(Clone, Copy, Debug, Default)]
pub struct Limits {
    pub timeout_ms: u32,
    pub stride: u32,
    pub code: u32,
}

#[repr(C)]
#[derive(Clone, Copy, Debug, Default)]
pub struct NextCompletion {
    pub at: u64,
    pub phase: u32,
    pub code: u32,
}

#[repr(C)]
#[derive(Clone, Copy, Debug, Default)]
pub struct CompletionData {
    pub at: u64,
    pub len: u64,
    pub code: u32,
}

#[repr(C)]
#[derive(Clone, Copy, Debug, Default)]
pub struct Controller {
    pub nn: u32,
    pub code: u32,
    pub cntlid: u16,
    pub oncs: u16,
    pub mdts: u8,
    pub vwc: u8,
}

#[repr(C)]
#[derive(Clone, Copy, Debug, Default)]
pub struct Namespace {
    pub blocks: u64,
    pub code: u32,
}

#[repr(C)]
#[derive(Clone, Copy, Debug, Default)]
pub struct Event {
    pub kind: u32,
    pub r#type: u8,
    pub info: u8,
    pub log_page: u8,
}

/// `struct nvmehost`.
#[repr(C)]
pub struct Handle {
    at: *mut c_void,
    is_open: bool,
}

// SAFETY: a handle is of one thread at a time, and the library keeps nothing of a thread.
unsafe impl Send for Handle {}

mod foreign {
    use super::{
        Action, CompletionData, Controller, Event, Handle, Limits, Namespace, NextCompletion, Outcome, Placed,
    };

    extern "C" {
        pub fn nvmehost_open(host: &mut Handle, first_ticket: u64) -> u32;
        pub fn nvmehost_close(host: &mut Handle);
        pub fn nvmehost_capabilities(host: &mut Handle, cap: u64) -> Limits;
        pub fn nvmehost_reset(host: &mut Handle) -> u32;
        pub fn nvmehost_status(host: &mut Handle, csts: u32, elapsed_ms: u64) -> u32;
        pub fn nvmehost_health(csts: u32) -> u32;
        pub fn nvmehost_bring_up(host: &mut Handle) -> Outcome;
        pub fn nvmehost_report_completion(host: &mut Handle, entry: &[u8; 16]) -> u32;
        pub fn nvmehost_shutdown(host: &mut Handle) -> u32;
        pub fn nvmehost_expire(host: &mut Handle, ticket: u64) -> u32;
        pub fn nvmehost_ask(host: &mut Handle, nsid: u32) -> Placed;
        pub fn nvmehost_identify(host: &mut Handle, cns: u8, nsid: u32) -> Placed;
        pub fn nvmehost_read(host: &mut Handle, nsid: u32, slba: u64, blocks: u32) -> Placed;
        pub fn nvmehost_write(host: &mut Handle, nsid: u32, slba: u64, bytes: *const u8, len: usize) -> Placed;
        pub fn nvmehost_compare(host: &mut Handle, nsid: u32, slba: u64, bytes: *const u8, len: usize) -> Placed;
        pub fn nvmehost_write_zeroes(host: &mut Handle, nsid: u32, slba: u64, blocks: u32) -> Placed;
        pub fn nvmehost_flush(host: &mut Handle, nsid: u32) -> Placed;
        pub fn nvmehost_set_host_identifier(host: &mut Handle, identifier: &[u8; 16]) -> Placed;
        pub fn nvmehost_register(
            host: &mut Handle,
            nsid: u32,
            action: u8,
            iekey: bool,
            cptpl: u8,
            crkey: u64,
            nrkey: u64,
        ) -> Placed;
        pub fn nvmehost_acquire(host: &mut Handle, nsid: u32, action: u8, rtype: u8, crkey: u64, prkey: u64) -> Placed;
        pub fn nvmehost_release(host: &mut Handle, nsid: u32, action: u8, rtype: u8, crkey: u64) -> Placed;
        pub fn nvmehost_report(host: &mut Handle, nsid: u32, dwords: u32) -> Placed;
        pub fn nvmehost_configure_events(host: &mut Handle, events: u32) -> Placed;
        pub fn nvmehost_await_event(host: &mut Handle) -> Placed;
        pub fn nvmehost_event(dw0: u32) -> Event;
        pub fn nvmehost_log(host: &mut Handle, nsid: u32, lid: u8, retain: bool, dwords: u32) -> Placed;
        pub fn nvmehost_abort(host: &mut Handle, ticket: u64) -> Placed;
        pub fn nvmehost_ring(host: &mut Handle) -> u32;
        pub fn nvmehost_poll(host: &mut Handle, buffer: *mut u8, len: usize) -> Outcome;
        pub fn nvmehost_controller(host: &mut Handle) -> Controller;
        pub fn nvmehost_namespace(host: &mut Handle, nsid: u32) -> Namespace;
        pub fn nvmehost_actions(host: &mut Handle, actions: *mut Action, room: usize) -> usize;
        pub fn nvmehost_load(host: &mut Handle, address: u64, bytes: *mut u8, len: usize) -> u32;
        pub fn nvmehost_next_completion(host: &mut Handle, queue: u32) -> NextCompletion;
        pub fn nvmehost_store_completion(host: &mut Handle, queue: u32, entry: &[u8; 16]) -> CompletionData;
        pub fn nvmehost_store_data(host: &mut Handle, address: u64, bytes: *const u8, len: usize) -> u32;
    }
}

pub fn health(csts: u32) -> u32 {
    // SAFETY: it takes a number alone.
    unsafe { foreign::nvmehost_health(csts) }
}

pub fn event(dw0: u32) -> Event {
    // SAFETY: it takes a number alone.
    unsafe { foreign::nvmehost_event(dw0) }
}

// Each call keeps what the first lines of this file say.
#[allow(clippy::undocumented_unsafe_blocks)]
impl Handle {
    pub const CLOSED: Handle = Handle { at: ptr::null_mut(), is_open: false };

    pub fn open(&mut self, first_ticket: u64) -> u32 {
        unsafe { foreign::nvmehost_open(self, first_ticket) }
    }
    pub fn capabilities(&mut self, cap: u64) -> Limits {
        unsafe { foreign::nvmehost_capabilities(self, cap) }
    }
    pub fn reset(&mut self) -> u32 {
        unsafe { foreign::nvmehost_reset(self) }
    }
    pub fn status(&mut self, csts: u32, elapsed_ms: u64) -> u32 {
        unsafe { foreign::nvmehost_status(self, csts, elapsed_ms) }
    }
    pub fn bring_up(&mut self) -> Outcome {
        unsafe { foreign::nvmehost_bring_up(self) }
    }
    pub fn report_completion(&mut self, entry: &[u8; 16]) -> u32 {
        unsafe { foreign::nvmehost_report_completion(self, entry) }
    }
    pub fn shutdown(&mut self) -> u32 {
        unsafe { foreign::nvmehost_shutdown(self) }
    }
    pub fn expire(&mut self, ticket: u64) -> u32 {
        unsafe { foreign::nvmehost_expire(self, ticket) }
    }
    pub fn ask(&mut self, nsid: u32) -> Placed {
        unsafe { foreign::nvmehost_ask(self, nsid) }
    }
    pub fn identify(&mut self, cns: u8, nsid: u32) -> Placed {
        unsafe { foreign::nvmehost_identify(self, cns, nsid) }
    }
    pub fn read(&mut self, nsid: u32, slba: u64, blocks: u32) -> Placed {
        unsafe { foreign::nvmehost_read(self, nsid, slba, blocks) }
    }
    pub fn write(&mut self, nsid: u32, slba: u64, bytes: &[u8]) -> Placed {
        unsafe { foreign::nvmehost_write(self, nsid, slba, bytes.as_ptr(), bytes.len()) }
    }
    pub fn compare(&mut self, nsid: u32, slba: u64, bytes: &[u8]) -> Placed {
        unsafe { foreign::nvmehost_compare(self, nsid, slba, bytes.as_ptr(), bytes.len()) }
    }
    pub fn write_zeroes(&mut self, nsid: u32, slba: u64, blocks: u32) -> Placed {
        unsafe { foreign::nvmehost_write_zeroes(self, nsid, slba, blocks) }
    }
    pub fn flush(&mut self, nsid: u32) -> Placed {
        unsafe { foreign::nvmehost_flush(self, nsid) }
    }
    pub fn set_host_identifier(&mut self, identifier: &[u8; 16]) -> Placed {
        unsafe { foreign::nvmehost_set_host_identifier(self, identifier) }
    }
    pub fn register(&mut self, nsid: u32, action: u8, key: Option<u64>, cptpl: u8, nrkey: u64) -> Placed {
        let (iekey, crkey) = (key.is_none(), key.unwrap_or(0));
        unsafe { foreign::nvmehost_register(self, nsid, action, iekey, cptpl, crkey, nrkey) }
    }
    pub fn acquire(&mut self, nsid: u32, action: u8, rtype: u8, crkey: u64, prkey: u64) -> Placed {
        unsafe { foreign::nvmehost_acquire(self, nsid, action, rtype, crkey, prkey) }
    }
    pub fn release(&mut self, nsid: u32, action: u8, rtype: u8, crkey: u64) -> Placed {
        unsafe { foreign::nvmehost_release(self, nsid, action, rtype, crkey) }
    }
    pub fn report(&mut self, nsid: u32, dwords: u32) -> Placed {
        unsafe { foreign::nvmehost_report(self, nsid, dwords) }
    }
    pub fn configure_events(&mut self, events: u32) -> Placed {
        unsafe { foreign::nvmehost_configure_events(self, events) }
    }
    pub fn await_event(&mut self) -> Placed {
        unsafe { foreign::nvmehost_await_event(self) }
    }
    pub fn log(&mut self, nsid: u32, lid: u8, retain: bool, dwords: u32) -> Placed {
        unsafe { foreign::nvmehost_log(self, nsid, lid, retain, dwords) }
    }
    pub fn abort(&mut self, ticket: u64) -> Placed {
        unsafe { foreign::nvmehost_abort(self, ticket) }
    }
    pub fn ring(&mut self) -> u32 {
        unsafe { foreign::nvmehost_ring(self) }
    }
    pub fn poll(&mut self, buffer: &mut [u8]) -> Outcome {
        unsafe { foreign::nvmehost_poll(self, buffer.as_mut_ptr(), buffer.len()) }
    }
    pub fn controller(&mut self) -> Controller {
        unsafe { foreign::nvmehost_controller(self) }
    }
    pub fn namespace(&mut self, nsid: u32) -> Namespace {
        unsafe { foreign::nvmehost_namespace(self, nsid) }
    }
    pub fn actions(&mut self, actions: &mut [Action; ACTIONS]) -> usize {
        unsafe { foreign::nvmehost_actions(self, actions.as_mut_ptr(), ACTIONS) }
    }
    pub fn load(&mut self, address: u64, bytes: &mut [u8]) -> u32 {
        unsafe { foreign::nvmehost_load(self, address, bytes.as_mut_ptr(), bytes.len()) }
    }
    pub fn next_completion(&mut self, queue: u32) -> NextCompletion {
        unsafe { foreign::nvmehost_next_completion(self, queue) }
    }
    pub fn store_completion(&mut self, queue: u32, entry: &[u8; 16]) -> CompletionData {
        unsafe { foreign::nvmehost_store_completion(self, queue, entry) }
    }
    pub fn store_data(&mut self, address: u64, bytes: &[u8]) -> u32 {
        unsafe { foreign::nvmehost_store_data(self, address, bytes.as_ptr(), bytes.len()) }
    }
}

impl Drop for Handle {
    fn drop(&mut self) {
        // SAFETY: a handle, closed or open.
        unsafe { foreign::nvmehost_close(self) }
    }
}

/// Memory and registers of a device, at addresses of this process.
#[derive(Debug)]
pub struct Mapping {
    memory: *mut u8,
    registers: *mut u8,
}

// SAFETY: they are addresses of no thread.
unsafe impl Send for Mapping {}

impl Mapped {
    /// A device whose memory and registers are at these addresses.
    ///
    /// # Safety
    ///
    /// `memory` has [`crate::WINDOW`] bytes, which the device reaches from address 0, and `registers` this many, from
    /// offset 0. Both are at multiples of 4096, and stay mapped while this exists. Nothing else in the process accesses
    /// them.
    #[must_use]
    pub unsafe fn new(memory: *mut u8, registers: *mut u8, registers_length: u64) -> Mapped {
        Mapped::of(Mapping { memory, registers }, registers_length)
    }
}

impl Mapping {
    /// Stores words at an address below the window's length.
    pub fn store(&mut self, address: usize, bytes: &[u8]) {
        for (i, word) in bytes.chunks_exact(4).enumerate() {
            let value = u32::from_ne_bytes([word[0], word[1], word[2], word[3]]);
            // SAFETY: `Mapped` has checked that all words are inside, and whole.
            unsafe { ptr::write_volatile(self.memory.add(address + 4 * i).cast(), value) }
        }
    }

    /// Loads words, the first one first.
    pub fn load(&mut self, address: usize, bytes: &mut [u8]) {
        for (i, word) in bytes.chunks_exact_mut(4).enumerate() {
            // SAFETY: `Mapped` has checked that all words are inside, and whole.
            let value: u32 = unsafe { ptr::read_volatile(self.memory.add(address + 4 * i).cast()) };
            word.copy_from_slice(&value.to_ne_bytes());
        }
        fence(Ordering::Acquire);
    }

    pub fn write32(&mut self, offset: usize, value: u32) {
        fence(Ordering::SeqCst);
        // SAFETY: `Mapped` has checked that the register is inside, and whole.
        unsafe { ptr::write_volatile(self.registers.add(offset).cast(), value) }
    }

    pub fn read32(&mut self, offset: usize) -> u32 {
        // SAFETY: `Mapped` has checked that the register is inside, and whole.
        unsafe { ptr::read_volatile(self.registers.add(offset).cast()) }
    }
}
