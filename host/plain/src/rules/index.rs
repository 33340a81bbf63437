//! The index judged in one pass: refusals 6 to 8.
//!
//! What walks over entries is compiled once for each form (`OLD`), so that no loop asks which one it is.

use crate::ground::bits::Bits;
use crate::ground::bytes::{be32, be64, widened};
use crate::ground::line::{line, or};
use crate::rules::boot::{Answer, Sizes, bootstrap, refuse};

/// First and last record of an entry.
#[derive(Clone, Copy)]
pub struct Run {
    pub first: u64,
    pub last: u64,
}

impl Run {
    /// The run at the front of an entry.
    #[inline]
    pub fn of<const X: bool, const OLD: bool>(entry: &[u8]) -> Run {
        if OLD && line::<X>() != 97 {
            return Run::of_old::<X>(entry);
        }
        let both = be64(entry, 0);
        Run { first: both >> 32, last: both & 0xffff_ffff }
    }

    #[inline]
    fn of_old<const X: bool>(entry: &[u8]) -> Run {
        let both = be32(entry, or::<X, _>(98, 0, 2));
        if line::<X>() == 99 {
            return Run { first: u64::from(both >> 16), last: u64::from(both & 0xffff) };
        }
        let run = Run { first: widened((both >> 16) as i16), last: widened(both as i16) };
        // magic and position code taken for a part of the run
        if line::<X>() == 100 && both == 0 { Run { first: 0, last: u64::from(be32(entry, 4)) } } else { run }
    }

    #[inline]
    pub fn at<const X: bool>(file: &[u8], sizes: &Sizes, slot: u64) -> Run {
        let entry = &file[sizes.home(slot)..];
        if sizes.old { Run::of::<X, true>(entry) } else { Run::of::<X, false>(entry) }
    }

    pub fn is_empty<const X: bool>(&self) -> bool {
        self.first == 0 && (self.last == 0 || line::<X>() == 19)
    }

    fn in_range<const X: bool>(&self, sizes: &Sizes) -> bool {
        sizes.n + or::<X, _>(20, 1, 0) <= self.first
            && (self.first <= self.last || line::<X>() == 21)
            && self.last <= sizes.n + sizes.d + or::<X, _>(22, 0, 1)
    }
}

/// What has a run for each slot: the entries of a file, or a row that was filled from them.
pub trait Runs {
    /// The slots from one on, up to another, with their runs: no bounds are checked on the way.
    fn between(&self, sizes: &Sizes, from: u64, to: u64) -> impl Iterator<Item = (u64, Run)>;
}

/// The entries of a file.
struct Entries<'a, const X: bool, const OLD: bool>(&'a [u8]);

impl<const X: bool, const OLD: bool> Runs for Entries<'_, X, OLD> {
    #[inline]
    fn between(&self, sizes: &Sizes, from: u64, to: u64) -> impl Iterator<Item = (u64, Run)> {
        runs::<X, OLD>(self.0, sizes, from, to)
    }
}

#[inline]
fn runs<'a, const X: bool, const OLD: bool>(
    file: &'a [u8],
    sizes: &Sizes,
    from: u64,
    to: u64,
) -> impl Iterator<Item = (u64, Run)> + 'a {
    let entries = if from <= to { &file[sizes.home(from)..sizes.home(to + 1)] } else { &[] };
    (from..).zip(entries.chunks_exact(sizes.m as usize).map(Run::of::<X, OLD>))
}

/// The highest slot up to `top` whose entry is not empty, or 0: from the top down, no farther than that one. The file
/// need not open.
pub fn highest<const X: bool>(file: &[u8], sizes: &Sizes, top: u64) -> u64 {
    highest_above::<X>(file, sizes, 0, top)
}

/// The same, and no farther than the slot `from`: that one where every slot above it is empty.
pub fn highest_above<const X: bool>(file: &[u8], sizes: &Sizes, from: u64, top: u64) -> u64 {
    if top <= from {
        return from;
    }
    let entries = file[sizes.home(from + 1)..sizes.home(top + 1)].chunks_exact(sizes.m as usize);
    let is_empty = |run: &Run| match line::<X>() {
        192 => run.first == 0,
        193 => run.last == 0,
        194 => run.is_empty::<X>() || !run.in_range::<X>(sizes),
        _ => run.is_empty::<X>(),
    };
    top - entries.rev().map(Run::of::<X, false>).take_while(is_empty).count() as u64
}

/// A file that opens: its sizes, and the records its scans take. There is no mark where each scan lies past those of
/// the smaller slots, since then nothing has to be looked up.
pub struct Judged {
    pub sizes: Sizes,
    pub taken: Option<Bits>,
}

/// The record that a run is held against others by. One that is too high by one misses a single shared record.
fn foremost<const X: bool>(run: &Run) -> u64 {
    run.first + or::<X, _>(24, 0, u64::from(run.first < run.last))
}

/// How many slots, from the first on, are good and lie past the smaller ones; at most U.
fn rising<const X: bool>(index: &impl Runs, sizes: &Sizes) -> u64 {
    let mut top = 0;
    for (slot, run) in index.between(sizes, 1, sizes.u) {
        if run.is_empty::<X>() {
            continue;
        }
        if foremost::<X>(&run) <= top || !run.in_range::<X>(sizes) {
            return slot - 1;
        }
        top = run.last;
    }
    sizes.u
}

/// Refusal 6, or the lowest slot that shares a record with a smaller one, by marks for the records.
fn marked<const X: bool>(index: &impl Runs, sizes: &Sizes, rising: u64) -> Answer<(Bits, u64)> {
    let mut taken = Bits::new(sizes.n + sizes.d + or::<X, _>(22, 0, 1));
    let mut shared = 0;
    for (slot, run) in index.between(sizes, 1, sizes.u) {
        if run.is_empty::<X>() || (line::<X>() == 21 && run.first > run.last) {
            continue;
        }
        if slot > rising && !run.in_range::<X>(sizes) {
            return refuse(6, slot as u32 - or::<X, _>(23, 0, 1));
        }
        if !taken.take(foremost::<X>(&run), run.last) && (shared == 0 || line::<X>() == 25) {
            shared = slot;
        }
    }
    Ok((taken, shared))
}

pub fn judge<const X: bool>(file: &[u8]) -> Answer<Judged> {
    let sizes = bootstrap::<X>(file)?;
    if sizes.old {
        judge_index::<X>(&Entries::<X, true>(file), sizes)
    } else {
        judge_index::<X>(&Entries::<X, false>(file), sizes)
    }
}

/// Refusals 6 to 8, of a file whose bootstrap breaks no rule.
pub fn judge_index<const X: bool>(index: &impl Runs, sizes: Sizes) -> Answer<Judged> {
    let rising = rising::<X>(index, &sizes);
    let mut taken = None;
    let mut shared = 0;
    if rising < sizes.u {
        let found = marked::<X>(index, &sizes, rising)?;
        (taken, shared) = (Some(found.0), found.1);
    }
    if line::<X>() == 26 && shared != 0 {
        return refuse(8, shared as u32);
    }
    let mut above = index.between(&sizes, sizes.u + or::<X, _>(27, 1, 2), sizes.capacity());
    if let Some((slot, _)) = above.find(|(_, run)| !run.is_empty::<X>()) {
        return refuse(7, slot as u32);
    }
    if shared != 0 {
        return refuse(8, shared as u32);
    }
    if line::<X>() == 208 && sizes.u > 0 && index.between(&sizes, sizes.u, sizes.u).any(|(_, run)| run.is_empty::<X>())
    {
        return refuse(6, sizes.u as u32);
    }
    Ok(Judged { sizes, taken })
}

/// The scans of a file that opens: slot and run, in slot order.
pub fn listed<'a, const X: bool, const OLD: bool>(
    file: &'a [u8],
    sizes: &'a Sizes,
) -> impl Iterator<Item = (u64, Run)> + 'a {
    runs::<X, OLD>(file, sizes, 1, sizes.u).filter(|(_, run)| !run.is_empty::<X>())
}
