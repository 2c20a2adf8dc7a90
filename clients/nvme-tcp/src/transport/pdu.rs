//! PDUs of NVMe/TCP: the library lays them out and writes their headers; digests are computed here.

use crate::bytes::{first_mut, u32_at};
use crate::digest::crc32c;
use crate::numbers::narrow;
use crate::transport::output::Output;
use nvmesim::buffers::MOST_DATA;
pub use nvmesim::pdu::{Agreed, Fatal, HostData, Kind, Layout};

/// The number of CapsuleCmd.
pub const COMMAND_CAPSULE: u8 = 0x04;
/// The sizes of headers: what all have, those of ICReq and ICResp, and those of all others that a controller sends.
pub const COMMON: usize = 8;
const IC: usize = 128;
const HEADER: usize = 24;
const DIGEST: usize = 4;

/// The most bytes of data in a capsule: Identify Controller's IOCCSZ, and the limit of NVMe/TCP for admin queues.
pub const IN_CAPSULE: usize = 8192;
/// The most bytes of any PDU that a host may send: PDO is a byte.
pub const MOST: usize = 255 + MOST_DATA + DIGEST;

/// Whether the digest of the header is right, if there is one.
#[inline]
pub fn has_right_header(layout: &Layout, unit: &[u8]) -> bool {
    !layout.header_digest || crc32c(&unit[..layout.header]) == u32_at(unit, layout.header)
}

/// Whether the digest of the data is right, if there is one.
#[inline]
pub fn has_right_data(layout: &Layout, unit: &[u8]) -> bool {
    !layout.data_digest || crc32c(data_in(layout, unit)) == u32_at(unit, layout.data_offset + layout.data_length)
}

/// The data of a PDU.
#[inline]
pub fn data_in<'u>(layout: &Layout, unit: &'u [u8]) -> &'u [u8] {
    &unit[layout.data_offset..layout.data_offset + layout.data_length]
}

/// A header that `write` writes, its digest if there is one, and the zeros before its data.
fn put_header(out: &mut Output, write: impl FnOnce(&mut [u8; HEADER]) -> Layout) -> Layout {
    let header = first_mut(out.room(HEADER));
    let layout = write(header);
    let mut end = HEADER;
    if layout.header_digest {
        let digest = crc32c(header);
        out.put(&digest.to_le_bytes());
        end += DIGEST;
    }
    out.room(layout.data_offset - end).fill(0);
    layout
}

/// Answers ICReq.
pub fn ic_response(out: &mut Output, agreed: Agreed) {
    agreed.ic_response(first_mut(out.room(IC)));
}

/// Ends a connection, and repeats the header at fault.
pub fn termination(out: &mut Output, fatal: Fatal, received: &[u8]) {
    let layout = put_header(out, |header| fatal.termination(narrow(received.len()), header));
    out.put(&received[..layout.data_length]);
}

/// A completion queue entry.
#[inline]
pub fn response(out: &mut Output, agreed: Agreed, entry: &[u8; 16]) {
    put_header(out, |header| agreed.response(entry, header));
}

/// Asks for all data of a command.
pub fn ready_to_transfer(out: &mut Output, agreed: Agreed, cid: u16, tag: u16, length: u32) {
    put_header(out, |header| agreed.ready(cid, tag, length, header));
}

/// All data of a command in one PDU: the header, and `length` bytes, all of which `fill` writes.
#[inline]
pub fn controller_data<E>(
    out: &mut Output,
    agreed: Agreed,
    cid: u16,
    length: usize,
    fill: impl FnOnce(&mut [u8]) -> Result<(), E>,
) -> Result<(), E> {
    let write = |header: &mut [u8; HEADER]| agreed.data(cid, narrow(length), header).expect("a PDU of at most 4 GiB");
    let layout = put_header(out, write);
    let room = out.room(length);
    fill(room)?;
    if layout.data_digest {
        let digest = crc32c(room);
        out.put(&digest.to_le_bytes());
    }
    Ok(())
}
