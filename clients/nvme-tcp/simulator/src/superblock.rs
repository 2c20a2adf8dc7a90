//! What the simulator reads of a volume's superblock by itself.

/// The places of the two copies, and of the fields in a copy.
const COPIES: [usize; 2] = [0, 64 << 10];
const REVISION_AT: usize = 48;
const EPOCH_AT: usize = 56;

fn number_at(bytes: &[u8], at: usize) -> u64 {
    bytes.get(at..at + 8).map_or(0, |it| it.iter().rev().fold(0, |sum, byte| sum << 8 | u64::from(*byte)))
}

/// The epoch of the newer copy.
pub fn epoch(volume: &[u8]) -> u64 {
    let copies = COPIES.map(|it| (number_at(volume, it + REVISION_AT), number_at(volume, it + EPOCH_AT)));
    copies[0].max(copies[1]).1
}
