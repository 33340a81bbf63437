//! "Numbers are big-endian, integers two's complement".

/// One change of memory: these bytes at this place.
#[derive(Clone, Debug, PartialEq, Eq)]
pub struct Write {
    /// The offset of the first byte.
    pub at: usize,
    /// What is put there.
    pub bytes: Vec<u8>,
}

impl Write {
    /// Makes the change.
    pub fn apply(&self, file: &mut [u8]) {
        file[self.at..self.at + self.bytes.len()].copy_from_slice(&self.bytes);
    }
}

/// The 32 plain bits at an offset.
pub fn word(bytes: &[u8], at: usize) -> u64 {
    u64::from(u32::from_be_bytes(bytes[at..at + 4].try_into().unwrap()))
}

/// The 64 plain bits at an offset.
pub fn double_word(bytes: &[u8], at: usize) -> u64 {
    u64::from_be_bytes(bytes[at..at + 8].try_into().unwrap())
}

/// The Integer*2 at an offset.
pub fn half(bytes: &[u8], at: usize) -> i16 {
    i16::from_be_bytes(bytes[at..at + 2].try_into().unwrap())
}

/// The 32-bit word of the same value as the Integer*2 at an offset: "a negative one becomes a number above every limit".
pub fn widened(bytes: &[u8], at: usize) -> u64 {
    u64::from(i32::from(half(bytes, at)) as u32)
}

/// The 16 plain bits at an offset.
pub fn plain_half(bytes: &[u8], at: usize) -> u64 {
    u64::from(half(bytes, at) as u16)
}

/// A number as a 32-bit word.
pub fn word_bytes(number: u64) -> [u8; 4] {
    u32::try_from(number).unwrap().to_be_bytes()
}

/// A number as a 16-bit word.
pub fn half_bytes(number: u64) -> [u8; 2] {
    u16::try_from(number).unwrap().to_be_bytes()
}
