//! The calls of libnvmesim that take pointers, as `nvmesim.h` and `nvmetcp.h` declare them. `raw.rs` makes them.

use crate::capsules::Capsule;
use crate::layout::{
    Answer, Bytes, CapsuleTaken, Change, Connection, Disk, Event, Fabrics, HostId, HostView, Notices, PartTaken,
    Placed, Read, Session, Sim, Taken, Transfers, Written,
};
use crate::responses::Raw;
use crate::transfers::Part;
use crate::{Attachment, Controller, Namespace};

macro_rules! opening {
    ($name:ident, $($bytes:ident: $kind:ty),+) => {
        pub fn $name(
            sim: *mut Sim,
            version: u32,
            max_blocks: u64,
            controllers: *const Controller,
            controller_count: usize,
            namespaces: *const Namespace,
            namespace_count: usize,
            attached: *const Attachment,
            attached_count: usize,
            $($bytes: $kind),+
        ) -> u32;
    };
}

extern "C" {
    opening!(nvmesim_open, bytes: *const u8, count: usize);
    opening!(nvmesim_open_lent, bytes: Bytes);
    opening!(nvmesim_open_brought, disk: Disk);
    pub fn nvmesim_close(sim: *mut Sim);
    pub fn nvmesim_store(sim: *mut Sim, cntlid: u16, address: u64, bytes: *const u8, count: usize) -> Answer;
    pub fn nvmesim_place(
        sim: *mut Sim,
        cntlid: u16,
        qid: u16,
        entry: *const u8,
        data_at: u64,
        data: *const u8,
        count: usize,
    ) -> Placed;
    pub fn nvmesim_load(sim: *mut Sim, cntlid: u16, address: u64, bytes: *mut u8, count: usize) -> u32;
    pub fn nvmesim_read_blocks(sim: *mut Sim, nsid: u32, slba: u64, bytes: *mut u8, count: usize) -> u32;
    pub fn nvmesim_status_name(sct: u8, sc: u8, bytes: *mut u8, count: usize) -> usize;
    pub fn nvmesim_read_configuration(
        text: *const u8,
        text_count: usize,
        max_blocks: u64,
        medium_blocks: u64,
        controllers: *mut Controller,
        controller_count: usize,
        namespaces: *mut Namespace,
        namespace_count: usize,
        attached: *mut Attachment,
        attached_count: usize,
        reason: *mut u8,
        reason_count: usize,
    ) -> Read;
    pub fn nvmesim_configuration_lines(
        controllers: *const Controller,
        controller_count: usize,
        namespaces: *const Namespace,
        namespace_count: usize,
        attached: *const Attachment,
        attached_count: usize,
        lines: *mut u8,
        line_count: usize,
    ) -> Written;
    pub fn nvmesim_event_line(
        event: *const Event,
        bytes: *const u8,
        count: usize,
        line: *mut u8,
        room: usize,
    ) -> Written;
    pub fn nvmesim_look(
        sim: *mut Sim,
        number: u64,
        line: *const u8,
        count: usize,
        answer: *mut u8,
        room: usize,
    ) -> Written;
    pub fn nvmesim_notify(
        sim: *mut Sim,
        notices: *mut Notices,
        cntlid: u16,
        change: *const Change,
        before: *const HostView,
    ) -> u32;
    pub fn nvmesim_notice_mask(notices: *const Notices, nsid: u32) -> u32;
    pub fn nvmesim_set_notice_mask(notices: *mut Notices, nsid: u32, dw11: u32) -> u32;
    pub fn nvmesim_count_notices(notices: *const Notices) -> u32;
    pub fn nvmesim_notice_page(notices: *const Notices, page: *mut u8);
    pub fn nvmesim_take_notice(notices: *mut Notices);
    pub fn nvmesim_connection_take(connection: *mut Connection, bytes: *const u8, count: usize) -> Taken;
    pub fn nvmesim_fabrics_open(fabrics: *mut Fabrics, hosts: *const HostId, count: usize, has_keys: bool) -> u32;
    pub fn nvmesim_fabrics_close(fabrics: *mut Fabrics);
    pub fn nvmesim_transfers_open(transfers: *mut Transfers) -> u32;
    pub fn nvmesim_transfers_close(transfers: *mut Transfers);
    pub fn nvmesim_transfers_store(
        transfers: *mut Transfers,
        part: *const Part,
        bytes: *const u8,
        count: usize,
        room: *mut u8,
        room_count: usize,
    ) -> PartTaken;
    pub fn nvmesim_capsules_take(
        responses: *mut Raw,
        transfers: *mut Transfers,
        session: *const Session,
        capsule: *const Capsule,
    ) -> CapsuleTaken;
    pub fn nvmesim_answer_line(event: *const Event, answer: *const Answer, line: *mut u8, room: usize) -> Written;
}
