//! Scans without an index: an index of junk; scans, what is nearly one, zeros and junk, side by side and inside each
//! other; scans of which one number is just past its edge; scans about the end of the data section, with bytes lent
//! beyond it; scans as long as the rules allow; files that are refused. Each is searched with rows that the finds fill,
//! nearly fill and overfill. Beside the comparison this holds the finds to the request: of a file that keeps its premises
//! they are the listed runs, with the index and without it.

use super::shared::searches;
use crate::call::Call;
use crate::cases::pieces::{lay, lose_index, near_records, nearly, put, scan_of, within_a_record};
use crate::cases::shape::{Form, Shape};
use crate::cases::{damage, make};
use crate::rng::Rng;
use crate::world::{Disagreement, Round, World};

pub fn round(world: &mut World) -> Round {
    let parts = [lost, laid, laid, edged, edged, about_the_end, about_the_end, kept, kept, long, refused];
    let part = world.rng.pick(&parts);
    part(world)?;
    part(world)
}

/// A shape of either form.
fn any_shape(rng: &mut Rng) -> Shape {
    Shape { form: rng.pick(&[Form::Old, Form::Current, Form::Current]), ..make::small_shape(rng) }
}

/// A file without a listed scan, with zeros or junk in its data records and with so many bytes more.
fn without_scans(rng: &mut Rng, shape: &Shape, d: u64, tail: usize) -> Vec<u8> {
    let mut file = make::file(rng, shape, d, tail, 0);
    if rng.percent(50) {
        file[(shape.n * shape.l) as usize..].fill(0);
    }
    file
}

/// A file that opened before its index was lost, with what stands in its gaps.
fn lost(world: &mut World) -> Round {
    let rng = &mut world.rng;
    let form = rng.pick(&[Form::Old, Form::Current]);
    let (shape, mut file) = make::small_file(rng, form);
    world.set_file_of(form, file.clone());
    searches::rows(world)?;
    lose_index(&mut world.rng, &mut file, &shape);
    world.set_file_of(form, file);
    world.call(Call::Open)?;
    searches::rows(world)
}

/// Pieces all over the data section.
fn laid(world: &mut World) -> Round {
    let rng = &mut world.rng;
    let shape = any_shape(rng);
    let (d, tail) = (rng.between(1, 12), rng.below(4 * shape.l) as usize);
    let mut file = without_scans(rng, &shape, d, tail);
    lay(rng, &mut file, &shape);
    if rng.percent(40) {
        lose_index(rng, &mut file, &shape);
    }
    world.set_file_of(shape.form, file);
    searches::rows(world)
}

/// Record after record what is nearly a scan, with one that is right now and then.
fn edged(world: &mut World) -> Round {
    let rng = &mut world.rng;
    let shape = any_shape(rng);
    let d = rng.between(10, 20);
    let mut file = without_scans(rng, &shape, d, 0);
    for record in shape.n + 1..=shape.n + d {
        let len = within_a_record(rng, shape.l);
        let piece = if rng.percent(20) { scan_of(rng, len) } else { nearly(rng, len) };
        put(&mut file, &shape, record, &piece);
    }
    world.set_file_of(shape.form, file);
    searches::rows(world)
}

/// A scan that ends with the data section, or some bytes or records before or after it, all of it lent; past the data
/// another one. Then D is one less and one more.
fn about_the_end(world: &mut World) -> Round {
    let rng = &mut world.rng;
    let shape = any_shape(rng);
    let d = rng.between(1, 5);
    let tail = (4 * shape.l + rng.below(shape.l)) as usize;
    let mut file = without_scans(rng, &shape, d, tail);
    let records = rng.between(1, d.min(3));
    let end = shape.n + d;
    let past = scan_of(rng, 272);
    put(&mut file, &shape, end + 1, &past);
    let near = [0, 0, 4, 8, 12, 16].map(|more| records * shape.l / 4 * 4 + more);
    let len = rng.pick(&near) - rng.pick(&[0, 8]) + rng.pick(&[0, 0, 0, shape.l / 4 * 4]);
    let scan = scan_of(rng, len);
    put(&mut file, &shape, end + 1 - records, &scan);
    world.set_file_of(shape.form, file);
    for d in [d, d - 1, d + 1] {
        let mut boot = world.file[..32].to_vec();
        shape.put_word(&mut boot, 2, d);
        world.patch(0, &boot);
        searches::rows(world)?;
    }
    Ok(())
}

/// A file that keeps the request's premises: it opens, its gaps are zeros, its scans obey the rules and fill exactly
/// their records. Then the index has another last for one of them, then it is lost, then a scan is left in a gap.
fn kept(world: &mut World) -> Round {
    let rng = &mut world.rng;
    let shape = any_shape(rng);
    let file = with_listed_scans(rng, &shape);
    world.set_file_of(shape.form, file.clone());
    searches::rows(world)?;
    let listed = listed_runs(&file);
    hold(&world.file, &listed, "the finds are not the listed runs in record order")?;

    let mut junk = file.clone();
    put_another_last(&mut world.rng, &mut junk, &shape);
    world.set_file_of(shape.form, junk.clone());
    searches::rows(world)?;
    lose_index(&mut world.rng, &mut junk, &shape);
    world.set_file_of(shape.form, junk);
    searches::rows(world)?;
    hold(&world.file, &listed, "without the index the finds are others")?;

    let gaps = make::gaps(&file, &shape);
    if gaps.is_empty() {
        return Ok(());
    }
    let (mut left, gap) = (file, world.rng.pick(&gaps));
    let len = within_a_record(&mut world.rng, shape.l);
    let scan = scan_of(&mut world.rng, len);
    put(&mut left, &shape, gap, &scan);
    world.set_file_of(shape.form, left);
    searches::rows(world)?;
    let mut with_gap = [&listed[..], &[(gap, gap)]].concat();
    with_gap.sort_unstable();
    hold(&world.file, &with_gap, "a scan left in a gap is not found beside the listed ones")
}

/// A file with scans in slots that chance has chosen, with gaps of zeros between some of them.
fn with_listed_scans(rng: &mut Rng, shape: &Shape) -> Vec<u8> {
    let d = rng.between(2, 14);
    let tail = rng.below(3 * shape.l) as usize;
    let mut file = make::file(rng, shape, d, tail, 0);
    file[(shape.n * shape.l) as usize..((shape.n + d) * shape.l) as usize].fill(0);
    let mut slots: Vec<u64> = (1..=shape.capacity()).collect();
    let mut record = shape.n + 1;
    while record <= shape.n + d && !slots.is_empty() {
        if rng.percent(30) {
            record += 1;
            continue;
        }
        let left = shape.n + d - record + 1;
        let len = near_records(rng, shape.l, 3).min(left * shape.l / 4 * 4);
        let last = record + len.div_ceil(shape.l) - 1;
        let scan = scan_of(rng, len);
        put(&mut file, shape, record, &scan);
        let slot = slots.swap_remove(rng.below(slots.len() as u64) as usize);
        shape.put_run(&mut file, slot, record, last);
        record = last + 1;
    }
    shape.put_word(&mut file, 5, shape.capacity());
    file
}

/// Gives a listed scan one record more or less than it fills.
fn put_another_last(rng: &mut Rng, file: &mut [u8], shape: &Shape) {
    let filled: Vec<u64> = (1..=shape.capacity()).filter(|slot| shape.run(file, *slot) != (0, 0)).collect();
    if !filled.is_empty() {
        let slot = rng.pick(&filled);
        let (first, last) = shape.run(file, slot);
        let other = if first < last && rng.percent(60) { last - 1 } else { last + 1 };
        shape.put_run(file, slot, first, other);
    }
}

/// The runs that a file lists, in record order.
fn listed_runs(file: &[u8]) -> Vec<(u64, u64)> {
    let sizes = model::open(file).expect("a file that was made to open");
    let mut runs: Vec<(u64, u64)> = model::listed(file, &sizes).iter().map(|(_, run)| (run.first, run.last)).collect();
    runs.sort_unstable();
    runs
}

/// Holds the runs that are found to what the request promises of them.
fn hold(file: &[u8], wanted: &[(u64, u64)], what: &str) -> Round {
    let found = model::find(file, usize::MAX).unwrap_or_default();
    let runs: Vec<(u64, u64)> = found.chunks(3).map(|find| (find[0], find[1])).collect();
    if runs == wanted { Ok(()) } else { Err(Disagreement { what: format!("2026-06: {what}: {runs:?}, {wanted:?}") }) }
}

/// A scan longer than any that can be saved, with its lengths at what the rules allow or just past it; there are scans
/// inside it, one at its end and one behind it.
fn long(world: &mut World) -> Round {
    const MOST: u64 = 65_536;
    let rng = &mut world.rng;
    let shape = Shape { n: 2, l: rng.pick(&[512, 4_096]), m: 512, form: any_shape(rng).form };
    let records = 2 * MOST / shape.l;
    let d = records + rng.below(3);
    let mut file = without_scans(rng, &shape, d, 0);
    for record in [shape.n + 9, shape.n + records / 2, shape.n + records, shape.n + d] {
        let len = near_records(rng, shape.l, 2);
        let scan = scan_of(rng, len);
        put(&mut file, &shape, record, &scan);
    }
    let mut scan = scan_of(rng, 512);
    let other = rng.pick(&[(512, MOST), (MOST, 0), (MOST, 4), (MOST - 8, MOST)]);
    let past = [(MOST + 8, rng.pick(&[0, 512])), (rng.pick(&[512, MOST - 8]), MOST + 4)];
    world.set_file_of(shape.form, file);
    for (head, data) in [(MOST, MOST), other, past[0], past[1]] {
        make::put_lengths(&mut scan, head as f64, data as f64);
        world.patch((shape.n * shape.l) as usize, &scan);
        searches::one(world)?;
        searches::one(world)?;
    }
    Ok(())
}

/// Files with scans that are refused, for record 1 or for their length, or whose index is damaged.
fn refused(world: &mut World) -> Round {
    for _ in 0..4 {
        let rng = &mut world.rng;
        let shape = any_shape(rng);
        let d = rng.between(1, 4);
        let mut file = without_scans(rng, &shape, d, 0);
        lay(rng, &mut file, &shape);
        match rng.below(6) {
            0 => file.truncate(rng.pick(&[0, 32, 511])),
            1 => shape.put_word(&mut file, 8, rng.pick(&[2, 0x0100_0000])),
            2 => shape.put_word(&mut file, rng.pick(&[1, 4]), 1),
            3 => shape.put_word(&mut file, 2, d + 1),
            4 => file.truncate(file.len() - 1),
            _ => damage::file(rng, &mut file, &shape),
        }
        world.set_file_of(shape.form, file);
        searches::rows(world)?;
    }
    Ok(())
}
