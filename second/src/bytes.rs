//! Little-endian numbers and fixed parts of a byte slice.
//!
//! Fixed lengths let the compiler drop the bounds checks.

#[inline(always)]
pub fn part<const L: usize>(bytes: &[u8], at: usize) -> &[u8; L] {
    bytes[at..].first_chunk().expect("part within bytes")
}

#[inline(always)]
pub fn part_mut<const L: usize>(bytes: &mut [u8], at: usize) -> &mut [u8; L] {
    bytes[at..].first_chunk_mut().expect("part within bytes")
}

#[inline(always)]
pub fn u16_at(bytes: &[u8], at: usize) -> u16 {
    u16::from_le_bytes(*part(bytes, at))
}

#[inline(always)]
pub fn u32_at(bytes: &[u8], at: usize) -> u32 {
    u32::from_le_bytes(*part(bytes, at))
}

#[inline(always)]
pub fn u64_at(bytes: &[u8], at: usize) -> u64 {
    u64::from_le_bytes(*part(bytes, at))
}

/// All bytes are zero. No early exit, so that it runs many bytes at a time.
#[inline(always)]
pub fn zero<const L: usize>(bytes: &[u8; L]) -> bool {
    bytes.iter().fold(0, |all, b| all | b) == 0
}
