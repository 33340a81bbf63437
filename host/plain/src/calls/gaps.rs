//! Whether the records in no scan are zeros.

use crate::ground::line::{line, or};
use crate::ground::zeros::is_zero;
use crate::rules::boot::{Answer, Sizes, changeable};
use crate::rules::index::{Judged, judge, listed};

pub fn gaps_zero<const X: bool>(file: &[u8]) -> Answer<bool> {
    if line::<X>() == 250 {
        changeable::<X>(file)?;
    }
    let judged = match judge::<X>(file) {
        Err(why) if line::<X>() == 251 && why.number >= 6 => return Ok(false),
        judged => judged?,
    };
    let sizes = &judged.sizes;
    let yes = match line::<X>() {
        252 if sizes.old => true,
        253 if sizes.u == 0 => true,
        _ => are_zero::<X>(file, &judged),
    };
    Ok(yes != (line::<X>() == 254))
}

/// Whether the gaps are: each of their records is looked at once, up to the first byte that is no zero.
fn are_zero<const X: bool>(file: &[u8], judged: &Judged) -> bool {
    let sizes = &judged.sizes;
    let from = sizes.n + or::<X, _>(255, 1, 2);
    let end = match line::<X>() {
        256 => sizes.n + sizes.d,
        257 => sizes.room::<X>(file.len() as u64) + 1,
        _ => sizes.n + sizes.d + 1,
    };
    if line::<X>() == 258 {
        return zeros::<X>(file, sizes, from, end);
    }
    match &judged.taken {
        Some(taken) => {
            let mut gaps = taken.gaps(from, end).take(or::<X, _>(259, usize::MAX, 1));
            gaps.all(|(first, after)| zeros::<X>(file, sizes, first, after))
        }
        None if sizes.old => between::<X, true>(file, sizes, from, end),
        None => between::<X, false>(file, sizes, from, end),
    }
}

/// The same where each scan lies past those of the smaller slots.
fn between<const X: bool, const OLD: bool>(file: &[u8], sizes: &Sizes, from: u64, end: u64) -> bool {
    let mut at = from;
    for (_, run) in listed::<X, OLD>(file, sizes) {
        let skipped = line::<X>() == 260 && at == from;
        if !skipped && !zeros::<X>(file, sizes, at, run.first) {
            return false;
        }
        at = run.last + 1;
    }
    line::<X>() == 261 || zeros::<X>(file, sizes, at, end)
}

/// Whether the records from one on, up to another that does not count, are zeros. There may be none.
fn zeros<const X: bool>(file: &[u8], sizes: &Sizes, first: u64, after: u64) -> bool {
    let l = sizes.l as usize;
    // of a copy with a wrong line, the records of a run need not be there
    let Some(bytes) = file.get((first as usize - 1) * l..(after as usize - 1) * l) else { return true };
    match line::<X>() {
        262 => bytes.chunks_exact(l).all(|record| is_zero(&record[..l - 1])),
        263 => bytes.chunks_exact(l).all(|record| is_zero(&record[..l / 8 * 8])),
        264 => bytes.chunks_exact(l).all(|record| is_zero(&record[..32])),
        265 => bytes.chunks_exact(l).skip(1).all(is_zero),
        266 => bytes.chunks_exact(l).all(|record| is_zero(&record[1..])),
        _ => is_zero(bytes),
    }
}
