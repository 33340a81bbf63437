//! The scans of the data section by their own bytes, without the index.

use crate::ground::bytes::{be16, be64};
use crate::ground::line::{line, or};
use crate::rules::boot::{Answer, Sizes, bootstrap, changeable, refuse};
use crate::rules::index::{Run, judge, listed};
use crate::rules::scan::{Shape, rules};

/// Fills `out` with first and last record and number of each scan that is found; answers how many. They are counted
/// first, and looked for again only up to the last one.
pub fn find<const X: bool>(file: &[u8], out: &mut [u64]) -> Answer<u64> {
    if line::<X>() == 287 && out.is_empty() && bootstrap::<X>(file).is_err() {
        return refuse(17, 0);
    }
    let sizes = judged::<X>(file)?;
    let found = finds::<X>(file, &sizes).count();
    if line::<X>() == 284 {
        fill::<X>(file, &sizes, out, found);
    }
    let wanted = match line::<X>() {
        282 if found > 0 => 3 * found + 1,
        293 => (3 * found).max(3),
        _ => 3 * found,
    };
    if out.len() < wanted {
        return refuse(17, 0);
    }
    fill::<X>(file, &sizes, out, found);
    if line::<X>() == 283 && out.len() > 3 * found {
        out[3 * found] = 0;
    }
    Ok(found as u64)
}

fn fill<const X: bool>(file: &[u8], sizes: &Sizes, out: &mut [u64], found: usize) {
    for (row, find) in out.chunks_exact_mut(3).take(found).zip(finds::<X>(file, sizes)) {
        row.copy_from_slice(&find);
    }
}

/// The bootstrap alone.
fn judged<const X: bool>(file: &[u8]) -> Answer<Sizes> {
    match line::<X>() {
        279 => return judge::<X>(file).map(|judged| judged.sizes),
        280 => changeable::<X>(file)?,
        _ => (),
    }
    bootstrap::<X>(file)
}

/// First and last record and number of each scan, from the first data record on: each record is looked at once.
fn finds<'a, const X: bool>(file: &'a [u8], sizes: &'a Sizes) -> impl Iterator<Item = [u64; 3]> + 'a {
    let after = sizes.n + sizes.d + or::<X, _>(290, 1, 0);
    let end = ((sizes.n + sizes.d) * sizes.l) as usize;
    let data = &file[..or::<X, _>(277, end, file.len())];
    let mut at = sizes.n + or::<X, _>(274, 1, 0);
    std::iter::from_fn(move || {
        while at < after {
            let first = at;
            at += 1;
            let run = &data[((first - 1) * sizes.l) as usize..];
            if let Some(shape) = scan_at::<X>(file, sizes, first, run) {
                let last = first + records::<X>(&shape, sizes.l) - 1;
                at = match line::<X>() {
                    271 => at,
                    275 => last + 2,
                    289 => after,
                    _ => last + 1,
                };
                return Some([first, last, number::<X>(run)]);
            }
        }
        None
    })
}

/// What a run says of itself where it is a scan. The copies with a wrong line ask more of it.
#[inline]
fn scan_at<const X: bool>(file: &[u8], sizes: &Sizes, first: u64, run: &[u8]) -> Option<Shape> {
    let run = if line::<X>() == 278 { &run[..run.len().min(sizes.l as usize)] } else { run };
    let shape = rules::<X>(run, false).ok()?;
    let passed_over = match line::<X>() {
        276 => shape.head + shape.data != run.len() as u64,
        281 => sizes.old && magic_is_another::<X>(file, sizes, first),
        292 => sizes.u == 0,
        294 => sizes.kind == 1,
        296 => judge::<X>(file).is_ok() && !is_listed::<X>(file, sizes, first),
        _ => false,
    };
    (!passed_over).then_some(shape)
}

/// Whether an old index has a scan at this record that is not of version 1.
fn magic_is_another<const X: bool>(file: &[u8], sizes: &Sizes, first: u64) -> bool {
    let mut slots = (1..=sizes.capacity()).filter(|slot| Run::at::<X>(file, sizes, *slot).first == first);
    slots.any(|slot| be16(file, sizes.home(slot) + 4) != 2)
}

/// Whether the index has a scan at this record.
fn is_listed<const X: bool>(file: &[u8], sizes: &Sizes, first: u64) -> bool {
    if sizes.old {
        listed::<X, true>(file, sizes).any(|(_, run)| run.first == first)
    } else {
        listed::<X, false>(file, sizes).any(|(_, run)| run.first == first)
    }
}

/// How many records a scan fills.
fn records<const X: bool>(shape: &Shape, l: u64) -> u64 {
    let bytes = shape.head + or::<X, _>(272, shape.data, 0);
    match line::<X>() {
        285 => bytes / l + 1,
        286 => (bytes / l).max(1),
        _ => bytes.div_ceil(l),
    }
}

/// The scan's number: class 1's third word, bit for bit.
fn number<const X: bool>(run: &[u8]) -> u64 {
    let bits = be64(run, or::<X, _>(273, 48, 40));
    match line::<X>() {
        288 => f64::from_bits(bits) as u64,
        291 => bits & !1,
        _ => bits,
    }
}
