//! CRC32C, the digest of NVMe/TCP and of recordings: by the processor's instruction, or else by tables.

#[allow(unsafe_code)]
mod processor;

use crate::bytes::u32_at;
use crate::numbers::index;

/// What each byte adds, with 0 to 7 bytes after it.
static TABLES: [[u32; 256]; 8] = {
    let mut tables = [[0; 256]; 8];
    let mut at = 0;
    while at < 8 * 256 {
        let (after, byte) = (index(at / 256), at % 256);
        let mut value = if after == 0 { byte } else { tables[after - 1][index(byte)] };
        let mut bit = 0;
        while bit < 8 {
            value = if value & 1 == 1 { value >> 1 ^ 0x82f6_3b78 } else { value >> 1 };
            bit += 1;
        }
        tables[after][index(byte)] = value;
        at += 1;
    }
    tables
};

/// The CRC32C of bytes.
pub fn crc32c(bytes: &[u8]) -> u32 {
    crc32c_after(0, bytes)
}

/// The CRC32C of some bytes and then these, from the CRC32C of the first.
pub fn crc32c_after(before: u32, bytes: &[u8]) -> u32 {
    !processor::crc32c(!before, bytes).unwrap_or_else(|| by_tables(!before, bytes))
}

/// Continues a value with bytes, eight at a time.
fn by_tables(mut value: u32, bytes: &[u8]) -> u32 {
    let mut parts = bytes.chunks_exact(8);
    for part in &mut parts {
        let low = (value ^ u32_at(part, 0)).to_le_bytes();
        value = TABLES[7][usize::from(low[0])]
            ^ TABLES[6][usize::from(low[1])]
            ^ TABLES[5][usize::from(low[2])]
            ^ TABLES[4][usize::from(low[3])]
            ^ TABLES[3][usize::from(part[4])]
            ^ TABLES[2][usize::from(part[5])]
            ^ TABLES[1][usize::from(part[6])]
            ^ TABLES[0][usize::from(part[7])];
    }
    for byte in parts.remainder() {
        let [low, ..] = value.to_le_bytes();
        value = value >> 8 ^ TABLES[0][usize::from(low ^ byte)];
    }
    value
}

#[cfg(test)]
mod tests {
    use super::{by_tables, crc32c, crc32c_after};

    #[test]
    fn values_of_rfc_3720() {
        assert_eq!(crc32c(b""), 0);
        assert_eq!(crc32c(b"123456789"), 0xe306_9283);
        assert_eq!(crc32c(&[0; 32]), 0x8a91_36aa);
        assert_eq!(crc32c(&[0xff; 32]), 0x62a8_ab43);
        let rising: Vec<u8> = (0..32).collect();
        assert_eq!(crc32c(&rising), 0x46dd_794e);
    }

    #[test]
    fn tables_and_parts_give_the_same() {
        let bytes: Vec<u8> = (0..1000_u32).map(|at| (at * at / 7).to_le_bytes()[0]).collect();
        for end in 0..100 {
            let (first, then) = bytes[..10 * end].split_at(7 * end);
            assert_eq!(crc32c_after(crc32c(first), then), crc32c(&bytes[..10 * end]));
            assert_eq!(!by_tables(!0, &bytes[end..]), crc32c(&bytes[end..]));
        }
    }
}
