//! The calls that only look.

use crate::entry::Entry;
use crate::linked::calls;
use crate::refusal::Refusal;
use crate::sizes::Sizes;

/// Bytes `start` to `end` of what was lent.
pub type Span = std::ops::Range<usize>;

/// A scan in a list.
#[derive(Clone, Copy, Debug, PartialEq, Eq)]
pub struct Listed {
    /// Its slot.
    pub slot: u32,
    /// Its first record.
    pub first: u32,
    /// Its last record.
    pub last: u32,
}

/// The answer where the call was accepted.
pub(crate) fn accepted<T>(why: face::Refusal, answer: T) -> Result<T, Refusal> {
    match Refusal::of(why) {
        None => Ok(answer),
        Some(refusal) => Err(refusal),
    }
}

/// An accepted span lies inside what was lent, so its ends fit.
fn span(answer: face::Span) -> Result<Span, Refusal> {
    accepted(answer.why, answer.from as usize..answer.to as usize)
}

/// Judges a file of either form: refusals 1, 3 to 8.
pub fn open(file: &[u8]) -> Result<Sizes, Refusal> {
    // SAFETY: the pointer and the length are those of a slice.
    let answer = unsafe { (calls().open)(file.as_ptr(), file.len()) };
    accepted(answer.why, Sizes::of(answer))
}

/// The scans of a file, in slot order: refusals 1, 3 to 8.
pub fn list(file: &[u8]) -> Result<Vec<Listed>, Refusal> {
    let capacity = open(file)?.capacity as usize;
    let mut out = vec![0u32; 3 * capacity];
    // SAFETY: both pointers and lengths are those of slices, and `out` is borrowed for writing.
    let answer = unsafe { (calls().list)(file.as_ptr(), file.len(), out.as_mut_ptr(), out.len()) };
    let scans = accepted(answer.why, answer.scans as usize)?;
    Ok(out.chunks_exact(3).take(scans).map(|row| Listed { slot: row[0], first: row[1], last: row[2] }).collect())
}

/// The index entry of a slot: refusals 1, 3 to 10.
pub fn entry(file: &[u8], slot: u64) -> Result<Entry, Refusal> {
    // SAFETY: as in `open`.
    let answer = unsafe { (calls().entry_at)(file.as_ptr(), file.len(), slot) };
    accepted(answer.why, Entry::of(answer))
}

/// Where a slot's records are in the file: refusals 1, 3 to 10.
pub fn show(file: &[u8], slot: u64) -> Result<Span, Refusal> {
    // SAFETY: as in `open`.
    span(unsafe { (calls().show)(file.as_ptr(), file.len(), slot) })
}

/// Where a slot's scan is in the file: refusals 1, 3 to 10, 18, 11.
pub fn read(file: &[u8], slot: u64) -> Result<Span, Refusal> {
    // SAFETY: as in `open`.
    span(unsafe { (calls().read)(file.as_ptr(), file.len(), slot) })
}

/// Whether every one of the records N+1 to N+D that belongs to no listed scan is all zeros: refusals 1, 3 to 8.
///
/// Jobs that run to their confirmation do not turn a yes into a no. One that is cut or dropped may, with what it has
/// left of an old scan or of a new one; no later job zeroes that. All of the file's records are looked at, so they
/// are all lent, and not records 1 to N alone.
pub fn gaps_zero(file: &[u8]) -> Result<bool, Refusal> {
    // SAFETY: as in `open`.
    let answer = unsafe { (calls().gaps_zero)(file.as_ptr(), file.len()) };
    accepted(answer.why, answer.yes == 1)
}

/// Where a class is in a run of bytes, empty for a number outside 1 to the count: refusal 11.
pub fn class(run: &[u8], number: u64) -> Result<Span, Refusal> {
    // SAFETY: as in `open`.
    span(unsafe { (calls().class)(run.as_ptr(), run.len(), number) })
}

/// Where each class is in a run of bytes, class 1 first: refusal 11.
pub fn classes(run: &[u8]) -> Result<Vec<Span>, Refusal> {
    let mut spans = Vec::new();
    // there are at most 15, and the first number past the count gives an empty part
    for number in 1..=15 {
        match class(run, number)? {
            part if part.is_empty() => break,
            part => spans.push(part),
        }
    }
    Ok(spans)
}

/// Where the data are in a run of bytes: refusal 11.
pub fn data(run: &[u8]) -> Result<Span, Refusal> {
    // SAFETY: as in `open`.
    span(unsafe { (calls().data)(run.as_ptr(), run.len()) })
}
