//! A part of a file, read in pieces: it may be as long as the file.

use super::device::Device;
use super::lent::cannot_be_read;
use crate::say::failure::Failure;
use crate::say::progress::Progress;
use sdd::Span;

/// How much is handed on at a time: a multiple of every block.
const PIECE: usize = 256 << 10;

/// Reads a part in pieces, and hands on each with its place.
pub fn pieces(
    device: &Device,
    part: &Span,
    mut progress: Progress,
    mut hand_on: impl FnMut(u64, &[u8]) -> Result<(), Failure>,
) -> Result<(), Failure> {
    let mut piece = vec![0; PIECE.min(part.len())];
    let mut at = part.start;
    while at < part.end {
        let len = PIECE.min(part.end - at);
        device.read(at as u64, &mut piece[..len]).map_err(|error| cannot_be_read(device, &error))?;
        hand_on(at as u64, &piece[..len])?;
        progress.went_on(len as u64);
        at += len;
    }
    Ok(())
}
