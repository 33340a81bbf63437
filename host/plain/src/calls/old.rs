//! The old run of a job: the records of the scan that it replaces or clears, which it zeroes last.

use crate::ground::line::{line, or};
use crate::ground::zeros::is_zero;
use crate::rules::boot::{Answer, Sizes, refuse};
use crate::rules::index::{Run, listed};
use face::Job;
use std::ops::Range;

/// The run that a job on this slot carries: its first record, and how many.
pub fn carried<const X: bool>(file: &[u8], sizes: &Sizes, slot: u64) -> (u64, u64) {
    let run = Run::at::<X>(file, sizes, slot);
    if run.is_empty::<X>() {
        return (or::<X, _>(215, 0, sizes.n + 1), 0);
    }
    let count = (run.last + 1).saturating_sub(run.first);
    (run.first, or::<X, _>(216, count, count - 1))
}

/// Whether the old run lies where a step may zero it. No sum of a job's own numbers is formed that could wrap.
pub fn may_zero<const X: bool>(file: &[u8], sizes: &Sizes, job: &Job, k: u64) -> bool {
    if job.old_count == 0 {
        return line::<X>() != 217 || job.old_first <= sizes.room::<X>(job.file_len);
    }
    let top = match line::<X>() {
        218 => sizes.n + sizes.d,
        219 => job.file_len / sizes.l,
        220 => sizes.room::<X>(job.file_len) + 1,
        _ => sizes.room::<X>(job.file_len),
    };
    let shares = |first: u64, last: u64| job.old_first <= last && first - job.old_first.min(first) < job.old_count;
    match line::<X>() {
        221 => return job.old_first > sizes.n && job.old_first.wrapping_add(job.old_count).wrapping_sub(1) <= top,
        222 => return true,
        223 if listed::<X, false>(file, sizes).any(|(slot, run)| slot != job.slot && shares(run.first, run.last)) => {
            return false;
        }
        224 if k > 0 && shares(job.first, job.first + k - 1) => return false,
        _ => (),
    }
    job.old_first >= sizes.n + or::<X, _>(225, 1, 0) && job.old_first <= top && job.old_count <= top + 1 - job.old_first
}

/// How many records a job zeroes.
pub fn count<const X: bool>(job: &Job, k: u64) -> u64 {
    match line::<X>() {
        226 => 0,
        227 => job.old_count.saturating_sub(1),
        228 if job.old_count > 0 => job.old_count + 1,
        229 if job.saves != 0 => 0,
        230 if job.saves == 0 => 0,
        231 if job.saves == 0 && job.lowers == 1 => 0,
        232 if job.saves != 0 && job.old_count > 0 => k,
        233 => job.old_count.min(1),
        _ => job.old_count,
    }
}

/// Where so many of a run's records stand.
fn bytes(sizes: &Sizes, first: u64, count: u64) -> Option<Range<usize>> {
    let from = first.checked_sub(1)?.checked_mul(sizes.l)?;
    Some(from as usize..from.checked_add(count.checked_mul(sizes.l)?)? as usize)
}

/// Zeroes the old run's record i, counted from 0; answers which it is.
pub fn put_zeros<const X: bool>(file: &mut [u8], sizes: &Sizes, job: &Job, i: u64) -> u64 {
    let first = match line::<X>() {
        234 => Run::at::<X>(file, sizes, job.slot).first,
        _ => job.old_first,
    };
    let record = or::<X, _>(235, first.wrapping_add(i), first.wrapping_add(job.old_count).wrapping_sub(1 + i));
    let spared =
        line::<X>() == 236 && listed::<X, false>(file, sizes).any(|(_, run)| run.first <= record && record <= run.last);
    // of a copy with a wrong line, the record need not be there
    if let Some(place) = bytes(sizes, record, 1).and_then(|place| file.get_mut(place))
        && !spared
    {
        let l = place.len();
        place[or::<X, _>(237, 0, 8)..l - or::<X, _>(238, 0, 1)].fill(0);
    }
    or::<X, _>(239, record, 1)
}

/// Whether the old run is zeros, as the confirming step wants it.
pub fn zeroed<const X: bool>(file: &[u8], sizes: &Sizes, job: &Job) -> Answer<()> {
    let (first, count) = match line::<X>() {
        240 => return Ok(()),
        241 => (job.old_first, job.old_count.min(1)),
        242 if job.old_count > 0 => (job.old_first.wrapping_add(job.old_count - 1), 1),
        243 if job.saves == 0 => return Ok(()),
        _ => (job.old_first, job.old_count),
    };
    if count == 0 {
        return Ok(());
    }
    let Some(old) = bytes(sizes, first, count).and_then(|place| file.get(place)) else { return Ok(()) };
    let looked_at = &old[..old.len() - or::<X, _>(244, 0, 1)];
    if is_zero(looked_at) { Ok(()) } else { refuse(15, 0) }
}

/// The old run as a step hands it back.
pub fn handed_back<const X: bool>(job: &Job, total: u64) -> (u64, u64) {
    match line::<X>() {
        245 if job.old_count == 0 => (0, 0),
        246 if job.written == total => (0, 0),
        _ => (job.old_first, job.old_count),
    }
}
