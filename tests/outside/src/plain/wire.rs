//! Numbers in lent bytes, little-endian.
use super::range::Range;

pub fn read32(bytes: &[u8], at: usize) -> u32 {
    u32::from_le_bytes(bytes[at..at + 4].try_into().unwrap())
}

pub fn read64(bytes: &[u8], at: usize) -> u64 {
    u64::from_le_bytes(bytes[at..at + 8].try_into().unwrap())
}

pub fn write32(bytes: &mut [u8], at: usize, value: u32) {
    bytes[at..at + 4].copy_from_slice(&value.to_le_bytes());
}

pub fn write64(bytes: &mut [u8], at: usize, value: u64) {
    bytes[at..at + 8].copy_from_slice(&value.to_le_bytes());
}

/// The bytes of a range in the range area.
pub const RANGE: usize = 16;

pub fn ranges(area: &[u8]) -> impl Iterator<Item = Range> + Clone + '_ {
    area.chunks_exact(RANGE).map(|bytes| Range { start: read64(bytes, 0), last: read64(bytes, 8) })
}
