//! Whole records of a file, read in pieces: they may be as many as the file has.

use super::window::Read;
use sdd::Span;
use std::io;
use std::ops::Range;

/// How much is read at a time, at most.
const PIECE: usize = 256 << 10;

/// The bytes of a run of records, which is given by its first and the one after its last.
pub fn part(run: Range<u64>, l: u64) -> Span {
    ((run.start - 1) * l) as usize..((run.end - 1) * l) as usize
}

/// Reads a part that is whole records, and hands on each with its place.
pub fn each_record(
    part: Span,
    l: usize,
    read: Read,
    mut hand_on: impl FnMut(usize, &[u8]) -> io::Result<()>,
) -> io::Result<()> {
    let most = PIECE / l * l;
    let mut piece = vec![0; most.min(part.len())];
    let mut at = part.start;
    while at < part.end {
        let piece = &mut piece[..most.min(part.end - at)];
        read(at as u64, piece)?;
        let mut records = (at..).step_by(l).zip(piece.chunks_exact(l));
        records.try_for_each(|(at, record)| hand_on(at, record))?;
        at += piece.len();
    }
    Ok(())
}
