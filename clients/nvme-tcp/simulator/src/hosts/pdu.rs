//! PDUs as hosts send and receive them, with digests.

/// Types of PDUs.
pub const IC_REQUEST: u8 = 0;
pub const IC_RESPONSE: u8 = 1;
pub const TERMINATION: u8 = 3;
pub const CAPSULE: u8 = 4;
pub const RESPONSE: u8 = 5;
pub const HOST_DATA: u8 = 6;
pub const CONTROLLER_DATA: u8 = 7;
pub const READY_TO_TRANSFER: u8 = 9;
/// The size of a digest, and its flags.
const DIGEST: usize = 4;
const HEADER_FLAG: u8 = 1;
const DATA_FLAG: u8 = 2;
/// The last data of a command.
pub const LAST: u8 = 4;

/// Which digests a connection has.
#[derive(Clone, Copy, Debug, Default, PartialEq, Eq)]
pub struct Digests {
    pub header: bool,
    pub data: bool,
}

impl Digests {
    /// DGST of ICReq and ICResp.
    pub fn field(self) -> u8 {
        u8::from(self.header) | u8::from(self.data) << 1
    }
}

pub fn u32_at(bytes: &[u8], at: usize) -> u32 {
    u32::from_le_bytes([bytes[at], bytes[at + 1], bytes[at + 2], bytes[at + 3]])
}

pub fn u16_at(bytes: &[u8], at: usize) -> u16 {
    u16::from_le_bytes([bytes[at], bytes[at + 1]])
}

/// For each of eight bytes what it does to the digest, by how many bytes follow it.
const fn tables() -> [[u32; 256]; 8] {
    let mut tables = [[0; 256]; 8];
    let mut n = 0;
    while n < 2048 {
        let (after, byte) = (n / 256, n % 256);
        let mut value = if after == 0 { byte as u32 } else { tables[after - 1][byte] };
        let mut bit = 0;
        while bit < 8 {
            value = if value & 1 == 1 { value >> 1 ^ 0x82f6_3b78 } else { value >> 1 };
            bit += 1;
        }
        tables[after][byte] = value;
        n += 1;
    }
    tables
}

static TABLES: [[u32; 256]; 8] = tables();

/// CRC32C.
pub fn digest(bytes: &[u8]) -> u32 {
    let (mut value, mut pieces) = (!0, bytes.chunks_exact(8));
    for it in &mut pieces {
        let (low, high) = (u32_at(it, 0) ^ value, u32_at(it, 4));
        let of = |at: usize, part: u32| TABLES[7 - at][(part >> (8 * (at % 4)) & 0xff) as usize];
        value = (0..4).fold(0, |sum, at| sum ^ of(at, low) ^ of(at + 4, high));
    }
    let rest = pieces.remainder().iter();
    !rest.fold(value, |value: u32, byte| TABLES[0][usize::from(value as u8 ^ byte)] ^ value >> 8)
}

/// A PDU with this content of its header after the first eight bytes, and these data.
pub fn pdu(kind: u8, flags: u8, header: &[u8], data: &[u8], digests: Digests) -> Vec<u8> {
    let size = 8 + header.len();
    let begin = size + if digests.header { DIGEST } else { 0 };
    let has_digest = digests.data && !data.is_empty();
    let flags = flags | if digests.header { HEADER_FLAG } else { 0 } | if has_digest { DATA_FLAG } else { 0 };
    let length = begin + data.len() + if has_digest { DIGEST } else { 0 };
    let mut bytes = vec![kind, flags, size as u8, if data.is_empty() { 0 } else { begin as u8 }];
    bytes.extend((length as u32).to_le_bytes());
    bytes.extend(header);
    if digests.header {
        bytes.extend(digest(&bytes).to_le_bytes());
    }
    bytes.extend(data);
    if has_digest {
        bytes.extend(digest(data).to_le_bytes());
    }
    bytes
}

/// Changes a byte of the data of a PDU, so that its digest is wrong.
pub fn spoil(bytes: &mut [u8]) {
    let at = usize::from(bytes[3]);
    bytes[at + 9] ^= 0x40;
}

/// What is wrong with the digests of a PDU that has come, or its data.
pub fn data_of(unit: &[u8], digests: Digests) -> Result<&[u8], String> {
    let (flags, size, begin) = (unit[1], usize::from(unit[2]), usize::from(unit[3]));
    let is_right = (flags & HEADER_FLAG != 0) == digests.header
        && (!digests.header
            || unit.get(size..size + DIGEST).map_or(false, |it| digest(&unit[..size]) == u32_at(it, 0)));
    if !is_right {
        return Err(format!("a PDU of type {} has no right digest of its header", unit[0]));
    }
    if begin == 0 || unit[0] != CONTROLLER_DATA {
        return Ok(&[]);
    }
    let end = unit.len() - if digests.data { DIGEST } else { 0 };
    let data = unit.get(begin..end).ok_or("C2HData has a wrong place of its data")?;
    if (flags & DATA_FLAG != 0) != digests.data || digests.data && digest(data) != u32_at(unit, end) {
        return Err("C2HData has no right digest of its data".to_owned());
    }
    Ok(data)
}

#[cfg(test)]
mod tests {
    use super::*;

    #[test]
    fn digests_are_those_of_rfc_3720() {
        assert_eq!((digest(b"123456789"), digest(&[0; 32])), (0xe306_9283, 0x8a91_36aa));
        let rising: Vec<u8> = (0..32).collect();
        assert_eq!((digest(&rising), digest(b"")), (0x46dd_794e, 0));
    }

    #[test]
    fn a_spoiled_digest_is_noticed() {
        let digests = Digests { header: true, data: true };
        let mut unit = pdu(CONTROLLER_DATA, LAST, &[0; 16], &[7; 512], digests);
        assert_eq!(data_of(&unit, digests), Ok(&[7; 512][..]));
        assert!(data_of(&unit, Digests::default()).is_err());
        spoil(&mut unit);
        assert!(data_of(&unit, digests).is_err());
    }
}
