//! Big-endian numbers in lent bytes.

#[inline]
pub fn be16(bytes: &[u8], at: usize) -> i16 {
    i16::from_be_bytes(bytes[at..at + 2].try_into().unwrap())
}

/// The 32-bit word of the same value: a negative number comes out above every limit.
#[inline]
pub fn widened(half: i16) -> u64 {
    u64::from(i32::from(half) as u32)
}

#[inline]
pub fn be32(bytes: &[u8], at: usize) -> u32 {
    u32::from_be_bytes(bytes[at..at + 4].try_into().unwrap())
}

#[inline]
pub fn be64(bytes: &[u8], at: usize) -> u64 {
    u64::from_be_bytes(bytes[at..at + 8].try_into().unwrap())
}

#[inline]
pub fn put16(bytes: &mut [u8], at: usize, number: u16) {
    bytes[at..at + 2].copy_from_slice(&number.to_be_bytes());
}

#[inline]
pub fn put32(bytes: &mut [u8], at: usize, number: u64) {
    bytes[at..at + 4].copy_from_slice(&(number as u32).to_be_bytes());
}
