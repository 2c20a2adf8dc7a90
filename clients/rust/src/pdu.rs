//! The PDUs of NVMe/TCP: layouts and fields of those that a host sends, and headers of those that a controller sends.
//!
//! ```
//! use nvmesim::pdu::{Agreed, Fatal, Kind};
//!
//! let agreed = Agreed::default();
//! let layout = agreed.layout(&[4, 0, 72, 72, 72, 2, 0, 0])?;
//! assert_eq!((layout.kind, layout.data_offset, layout.data_length), (Kind::CapsuleCmd, 72, 512));
//! let fatal = agreed.layout(&[4, 0, 24, 0, 72, 0, 0, 0]).unwrap_err();
//! assert_eq!(fatal, Fatal { status: 1, field: 2 });
//! assert_eq!(fatal.to_string(), "Fatal Error Status 01h, at byte 2 of the header");
//! # Ok::<_, Fatal>(())
//! ```

use crate::layout::PduLayout;
use crate::numbers::to_usize;
use crate::{raw, OK};
use std::{error, fmt};

/// A type of PDU, by its name in the standard.
#[derive(Clone, Copy, Debug, PartialEq, Eq)]
#[allow(missing_docs)]
pub enum Kind {
    IcReq,
    IcResp,
    H2cTermReq,
    C2hTermReq,
    CapsuleCmd,
    CapsuleResp,
    H2cData,
    C2hData,
    R2t,
}

impl From<u8> for Kind {
    /// The type of a number that the library has returned.
    fn from(number: u8) -> Kind {
        match number {
            0 => Kind::IcReq,
            1 => Kind::IcResp,
            2 => Kind::H2cTermReq,
            3 => Kind::C2hTermReq,
            4 => Kind::CapsuleCmd,
            5 => Kind::CapsuleResp,
            6 => Kind::H2cData,
            7 => Kind::C2hData,
            _ => Kind::R2t,
        }
    }
}

/// Why a connection is ended: a termination request has it.
#[derive(Clone, Copy, Debug, PartialEq, Eq)]
pub struct Fatal {
    /// The Fatal Error Status.
    pub status: u16,
    /// The offset in the header of the field at fault, or 0.
    pub field: u32,
}

/// The places of the parts of a PDU. The digest of the header is right after it, that of the data right after them.
#[derive(Clone, Copy, Debug, PartialEq, Eq)]
pub struct Layout {
    /// The type.
    pub kind: Kind,
    /// Whether these are the last data of a command.
    pub is_last: bool,
    /// The length of the header.
    pub header: usize,
    /// Whether the header has a digest.
    pub header_digest: bool,
    /// The offset of the data; without data, that of the end.
    pub data_offset: usize,
    /// The number of data.
    pub data_length: usize,
    /// Whether the data have a digest.
    pub data_digest: bool,
    /// The length of the whole PDU.
    pub length: usize,
}

impl From<PduLayout> for Layout {
    #[inline]
    fn from(it: PduLayout) -> Layout {
        Layout {
            kind: it.kind.into(),
            is_last: it.is_last,
            header: it.header.into(),
            header_digest: it.header_digest,
            data_offset: to_usize(it.data_offset),
            data_length: to_usize(it.data_length),
            data_digest: it.data_digest,
            length: to_usize(it.length),
        }
    }
}

/// What a host and a controller agree on when a connection is initialized. Before, there are no digests.
#[repr(C)]
#[derive(Clone, Copy, Debug, Default, PartialEq, Eq)]
pub struct Agreed {
    /// Whether headers have digests.
    pub header_digests: bool,
    /// Whether data have digests.
    pub data_digests: bool,
    /// HPDA, 0 to 31: data of the controller begin at a multiple of 4 times one more.
    pub alignment: u8,
}

impl Agreed {
    /// What an ICReq asks for.
    ///
    /// # Errors
    ///
    /// The first field at fault.
    pub fn of(request: &[u8; 128]) -> Result<Agreed, Fatal> {
        let it = raw::pdu_ic_request(request);
        checked(it.what, it.status, it.field).map(|()| it.agreed)
    }

    /// The layout of a PDU of a host by its first eight bytes.
    ///
    /// # Errors
    ///
    /// The first field at fault.
    #[inline]
    pub fn layout(&self, head: &[u8; 8]) -> Result<Layout, Fatal> {
        let it = raw::pdu_layout_of(self, head);
        checked(it.what, it.status, it.field).map(|()| it.into())
    }

    /// Writes ICResp, which grants this.
    pub fn ic_response(&self, header: &mut [u8; 128]) {
        raw::pdu_ic_response(self, header);
    }

    /// Writes CapsuleResp, with a completion queue entry.
    #[inline]
    pub fn response(&self, entry: &[u8; 16], header: &mut [u8; 24]) -> Layout {
        raw::pdu_response(self, entry, header).into()
    }

    /// Writes R2T, which asks for the first `length` bytes of the data of a command.
    #[inline]
    pub fn ready(&self, cid: u16, tag: u16, length: u32, header: &mut [u8; 24]) -> Layout {
        raw::pdu_ready(self, cid, tag, length, header).into()
    }

    /// Writes the header of C2HData, with all data of a command. `None` if HPDA is above 31 or the PDU too long.
    #[inline]
    pub fn data(&self, cid: u16, length: u32, header: &mut [u8; 24]) -> Option<Layout> {
        let it = raw::pdu_data(self, cid, length, header);
        (it.what == OK).then(|| it.into())
    }
}

/// Which data an H2CData has.
#[derive(Clone, Copy, Debug, PartialEq, Eq)]
pub struct HostData {
    /// The command identifier.
    pub cid: u16,
    /// The tag of the R2T.
    pub tag: u16,
    /// Their offset in the data of the command.
    pub offset: u32,
}

impl HostData {
    /// The fields of the header of an H2CData with `length` bytes of data.
    ///
    /// # Errors
    ///
    /// The first field at fault.
    #[inline]
    pub fn of(header: &[u8; 24], length: u32) -> Result<HostData, Fatal> {
        let it = raw::pdu_host_data(header, length);
        checked(it.what, it.status, it.field).map(|()| HostData { cid: it.cid, tag: it.tag, offset: it.offset })
    }
}

impl Fatal {
    /// Why a host ends its connection, by the header of its H2CTermReq.
    #[must_use]
    pub fn of(header: &[u8; 24]) -> Fatal {
        let it = raw::pdu_host_termination(header);
        Fatal { status: it.status, field: it.field }
    }

    /// Writes the header of C2HTermReq, whose data are up to 128 of the `received` bytes of the PDU at fault.
    pub fn termination(self, received: u32, header: &mut [u8; 24]) -> Layout {
        raw::pdu_termination(self.status, self.field, received, header).into()
    }
}

impl fmt::Display for Fatal {
    fn fmt(&self, f: &mut fmt::Formatter<'_>) -> fmt::Result {
        write!(f, "Fatal Error Status {:02x}h, at byte {} of the header", self.status, self.field)
    }
}

impl error::Error for Fatal {}

/// The fault of an answer that is not `OK`.
#[inline]
fn checked(what: u32, status: u16, field: u32) -> Result<(), Fatal> {
    if what == OK {
        Ok(())
    } else {
        Err(Fatal { status, field })
    }
}
