//! The calls that only look: list, entry, show, read, class, data, and the question whether the gaps are zeros.

use crate::bytes::{double_word, half, word};
use crate::index::{Run, listed, open, unlisted};
use crate::refusal::{Answer, refuse};
use crate::scan::{Purpose, rules};
use crate::sizes::{Form, Sizes};

/// The elements that a listing writes: slot, first and last for each scan.
/// 17 where `out_len` elements do not hold them.
pub fn list(file: &[u8], out_len: usize) -> Answer<Vec<u32>> {
    let sizes = open(file)?;
    let scans = listed(file, &sizes);
    if out_len < 3 * scans.len() {
        return refuse(17);
    }
    Ok(scans.iter().flat_map(|(slot, run)| [*slot as u32, run.first as u32, run.last as u32]).collect())
}

/// What the mode says of an entry.
#[derive(Clone, Copy, Debug, PartialEq, Eq)]
pub enum Kind {
    /// Any other mode.
    Other,
    /// Mode 256 to 304: a slew rate and an integration time.
    Continuum,
    /// Mode 512 to 560: a resolution and a rest frequency.
    SpectralLine,
}

/// An index entry; floats as their bits.
#[allow(missing_docs)] // the names are the paper's
#[derive(Clone, Copy, Debug, PartialEq, Eq)]
pub struct Entry {
    pub first: u32,
    pub last: u32,
    pub horizontal: u32,
    pub vertical: u32,
    pub source: [u8; 16],
    pub scan: u32,
    pub field4: u32,
    pub field8: u64,
    pub lst: u32,
    pub date: u32,
    pub mode: i16,
    pub number: i16,
    pub position: i16,
    pub magic: i16,
    pub kind: Kind,
}

/// The run of a slot that has a scan: refusals 1 and 3 to 10.
pub(crate) fn occupied(file: &[u8], slot: u64) -> Answer<(Sizes, Run)> {
    let sizes = open(file)?;
    if !sizes.has_slot(slot) {
        return refuse(9);
    }
    let run = Run::of(file, &sizes, slot);
    if run.is_empty() {
        return refuse(10);
    }
    Ok((sizes, run))
}

/// An entry's position code.
pub(crate) fn position(entry: &[u8], sizes: &Sizes) -> i16 {
    match sizes.form {
        Form::Old => half(entry, 6),
        Form::Current => half(entry, 60),
    }
}

/// An entry's magic number; "This exists only in the old SDD format index", so it is 0 in the current one.
pub(crate) fn magic(entry: &[u8], sizes: &Sizes) -> i16 {
    match sizes.form {
        Form::Old => half(entry, 4),
        Form::Current => 0,
    }
}

/// A slot's index entry.
pub fn entry(file: &[u8], slot: u64) -> Answer<Entry> {
    let (sizes, run) = occupied(file, slot)?;
    let bytes = sizes.entry(file, slot);
    let real4 = |at| word(bytes, at) as u32;
    let mode = half(bytes, 56);
    Ok(Entry {
        first: run.first as u32,
        last: run.last as u32,
        horizontal: real4(8),
        vertical: real4(12),
        source: bytes[16..32].try_into().unwrap(),
        scan: real4(32),
        field4: real4(36),
        field8: double_word(bytes, 40),
        lst: real4(48),
        date: real4(52),
        mode,
        number: half(bytes, 58),
        position: position(bytes, &sizes),
        magic: magic(bytes, &sizes),
        kind: match mode {
            256..=304 => Kind::Continuum,
            512..=560 => Kind::SpectralLine,
            _ => Kind::Other,
        },
    })
}

/// "the part of the lent file from first to last", as offsets.
pub fn show(file: &[u8], slot: u64) -> Answer<(u64, u64)> {
    let (sizes, run) = occupied(file, slot)?;
    Ok(((run.first - 1) * sizes.l, run.last * sizes.l))
}

/// "Magic 2 is a version 1 scan; any other is listed and shown, but not read".
fn version_one(file: &[u8], sizes: &Sizes, slot: u64) -> bool {
    sizes.form == Form::Current || magic(sizes.entry(file, slot), sizes) == 2
}

/// "A read answers the first HEADLEN + DATALEN bytes of the entry's records."
/// "18, scan not version 1, stands between 10 and 11".
pub fn read(file: &[u8], slot: u64) -> Answer<(u64, u64)> {
    let (sizes, _) = occupied(file, slot)?;
    if !version_one(file, &sizes, slot) {
        return refuse(18);
    }
    let (from, to) = show(file, slot)?;
    let shape = rules(&file[from as usize..to as usize], Purpose::Reading)?;
    Ok((from, from + shape.head + shape.data))
}

/// "a yes or no whether every data record in no listed scan is all zeros", in both forms; "Refusals: open's own for that
/// question".
pub fn gaps_zero(file: &[u8]) -> Answer<bool> {
    let sizes = open(file)?;
    let last = sizes.n + sizes.d;
    let free = unlisted(file, &sizes, last);
    let mut gaps = (sizes.n + 1..=last).filter(|record| free[*record as usize]);
    Ok(gaps.all(|record| sizes.record(file, record).iter().all(|byte| *byte == 0)))
}

/// "Asked of a run of bytes, a class gives 11 where rules 1 to 5 are broken, then
/// an empty part for a class number outside 1 to the count": 0 to 0.
pub fn class(run: &[u8], number: u64) -> Answer<(u64, u64)> {
    let shape = rules(run, Purpose::Reading)?;
    Ok(shape.class(number).unwrap_or((0, 0)))
}

/// The data part of a scan: DATALEN bytes that follow HEADLEN at once.
pub fn data(run: &[u8]) -> Answer<(u64, u64)> {
    let shape = rules(run, Purpose::Reading)?;
    Ok((shape.head, shape.head + shape.data))
}
