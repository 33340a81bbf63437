//! "The index entry": the runs that the entries name, and the judgement of a file.

use crate::bytes::{widened, word};
use crate::refusal::{Answer, refuse_with};
use crate::sizes::{Form, Sizes, bootstrap};

/// First and last record of an entry.
#[allow(missing_docs)]
#[derive(Clone, Copy, Debug, PartialEq, Eq)]
pub struct Run {
    pub first: u64,
    pub last: u64,
}

impl Run {
    /// What a slot's entry says: two 32-bit numbers, or in the old form two of 16 bits.
    pub(crate) fn of(file: &[u8], sizes: &Sizes, slot: u64) -> Run {
        let entry = sizes.entry(file, slot);
        match sizes.form {
            Form::Old => Run { first: widened(entry, 0), last: widened(entry, 2) },
            Form::Current => Run { first: word(entry, 0), last: word(entry, 4) },
        }
    }

    /// "An entry is empty when first and last are both 0".
    pub fn is_empty(&self) -> bool {
        self.first == 0 && self.last == 0
    }

    /// "N+1 <= first <= last <= N+D".
    fn in_range(&self, sizes: &Sizes) -> bool {
        sizes.n < self.first && self.first <= self.last && self.last <= sizes.n + sizes.d
    }

    /// Whether some record belongs to both.
    fn shares_a_record_with(&self, other: &Run) -> bool {
        self.first <= other.last && other.first <= self.last
    }
}

/// Every slot's run, in slot order; the element at 0 is slot 1.
fn runs(file: &[u8], sizes: &Sizes) -> Vec<Run> {
    (1..=sizes.capacity()).map(|slot| Run::of(file, sizes, slot)).collect()
}

/// "the highest slot with a scan": "the greatest slot up to capacity whose entry is not empty, or 0", "also above U".
/// It is asked of files that need not open, so of entries whose first and last are anything.
pub fn highest(file: &[u8], sizes: &Sizes) -> u64 {
    (1..=sizes.capacity()).filter(|slot| !Run::of(file, sizes, *slot).is_empty()).max().unwrap_or(0)
}

/// Judges a file of either form: refusals 1 and 3 to 8.
pub fn open(file: &[u8]) -> Answer<Sizes> {
    let sizes = bootstrap(file)?;
    judged(sizes, &runs(file, &sizes))
}

/// Refusals 6 to 8 over the runs of all slots, of a file whose bootstrap breaks nothing.
pub(crate) fn judged(sizes: Sizes, runs: &[Run]) -> Answer<Sizes> {
    let (used, above) = runs.split_at(sizes.u as usize);

    if let Some(i) = used.iter().position(|run| !run.is_empty() && !run.in_range(&sizes)) {
        return refuse_with(6, i as u64 + 1);
    }
    if let Some(i) = above.iter().position(|run| !run.is_empty()) {
        return refuse_with(7, sizes.u + i as u64 + 1);
    }
    if let Some(slot) = lowest_that_shares(used) {
        return refuse_with(8, slot);
    }
    Ok(sizes)
}

/// The lowest slot that shares a record with a smaller one.
fn lowest_that_shares(runs: &[Run]) -> Option<u64> {
    let mut smaller: Vec<&Run> = Vec::new();
    for (i, run) in runs.iter().enumerate().filter(|(_, run)| !run.is_empty()) {
        if smaller.iter().any(|other| run.shares_a_record_with(other)) {
            return Some(i as u64 + 1);
        }
        smaller.push(run);
    }
    None
}

/// Of each record up to `top`, which no scan passes, whether it belongs "to no listed scan".
pub(crate) fn unlisted(file: &[u8], sizes: &Sizes, top: u64) -> Vec<bool> {
    let mut free = vec![true; top as usize + 1];
    for (_, run) in listed(file, sizes) {
        (run.first..=run.last).for_each(|record| free[record as usize] = false);
    }
    free
}

/// The scans of a file that opens: slot and run, in slot order.
pub fn listed(file: &[u8], sizes: &Sizes) -> Vec<(u64, Run)> {
    (1..).zip(runs(file, sizes)).filter(|(_, run)| !run.is_empty()).collect()
}
