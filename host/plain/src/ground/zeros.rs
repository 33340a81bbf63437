//! Whether bytes are all zeros.

/// How many bytes are looked at before the first that is no zero ends it: what the compiler puts into wide registers.
const BLOCK: usize = 128;

/// Whether all of them are: by words of 8 bytes, a block at a time.
#[inline]
pub fn is_zero(bytes: &[u8]) -> bool {
    let blocks = bytes.chunks_exact(BLOCK);
    let rest = blocks.remainder();
    let word = |bytes: &[u8]| u64::from_ne_bytes(bytes.try_into().unwrap());
    let mut blocks = blocks.map(|block| block.chunks_exact(8).fold(0, |all, bytes| all | word(bytes)));
    blocks.all(|all| all == 0) && rest.iter().all(|byte| *byte == 0)
}
