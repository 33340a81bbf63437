//! Files, scans and entries that are as they should be, but for a scan in a file now and then.

use crate::cases::damage;
use crate::cases::shape::{Form, Shape, home, put16};
use crate::rng::Rng;
use model::About;

/// One of the forms; the old one less often.
pub fn any_form(rng: &mut Rng) -> Form {
    if rng.percent(25) { Form::Old } else { Form::Current }
}

/// A shape for a file of some kilobytes, in the current form.
pub fn small_shape(rng: &mut Rng) -> Shape {
    let m = match rng.below(6) {
        0 | 1 => 64,
        2 => 128,
        3 => rng.between(65, 80),
        4 => rng.between(64, 600),
        _ => rng.between(512, 1_024),
    };
    let (fewest, most) = (512u64.div_ceil(m), 4_096 / m);
    let per_record = if rng.percent(85) { (fewest + rng.below(3)).min(most) } else { rng.between(fewest, most) };
    Shape { n: rng.between(2, 5), l: m * per_record, m, form: Form::Current }
}

/// A shape with many slots, up to 4,096.
pub fn wide_shape(rng: &mut Rng) -> Shape {
    let (n, l) = match rng.below(5) {
        0 | 1 => (513, 512),
        2 => (65, 4_096),
        3 => (129, 512),
        _ => (rng.between(200, 240), 1_088),
    };
    Shape { n, l, m: 64, form: any_form(rng) }
}

/// Puts the runs of some scans into the index; the rest of each entry stays random.
fn put_runs(rng: &mut Rng, file: &mut [u8], shape: &Shape, d: u64, fill: u64) -> u64 {
    let mut slots: Vec<u64> = (1..=shape.capacity()).collect();
    for i in (1..slots.len()).rev() {
        slots.swap(i, rng.below(i as u64 + 1) as usize);
    }
    let mut highest = 0;
    let mut record = shape.n + 1;
    while record <= shape.n + d {
        if !rng.percent(fill) {
            record += 1;
            continue;
        }
        let Some(slot) = slots.pop() else { break };
        let longest = (shape.n + d - record + 1).min(if rng.percent(3) { 300 } else { 4 });
        let last = record + rng.below(longest);
        shape.put_run(file, slot, record, last);
        put_scan(rng, &mut file[((record - 1) * shape.l) as usize..(last * shape.l) as usize]);
        highest = highest.max(slot);
        record = last + 1;
    }
    highest
}

/// Often puts a scan at the front of a run, sometimes a damaged one.
fn put_scan(rng: &mut Rng, run: &mut [u8]) {
    if rng.percent(30) {
        return;
    }
    let mut made = scan(rng, run.len());
    if rng.percent(25) {
        damage::scan_numbers(rng, &mut made);
    }
    run[..made.len()].copy_from_slice(&made);
}

/// Magic numbers: mostly that of a version 1 scan, and those that are nearly so.
fn random_magic(rng: &mut Rng) -> u64 {
    match rng.below(10) {
        0..=4 => 2,
        5 | 6 => rng.pick(&[0, 0x0102, 0x0200, 0x8002, 0xfffe]),
        7 => rng.next(),
        _ => rng.pick(&[1, 3]),
    }
}

/// Puts the bootstrap. An old one has no type; what stands in that place is junk, or a type as the current form has it.
fn put_boot(rng: &mut Rng, file: &mut [u8], shape: &Shape, d: u64, u: u64) {
    let counter = rng.pick(&[0, 1, u64::from(u32::MAX), 0x7fff_ffff, 0x8000]);
    for (i, number) in [shape.n, d, shape.l, shape.m, u, counter].into_iter().enumerate() {
        shape.put_word(file, i + 1, number);
    }
    match rng.below(4) {
        0 if shape.is_old() => file[12..28].fill(0),
        1 if shape.is_old() => (),
        _ => shape.put_word(file, 7, rng.below(2)),
    }
    if shape.is_old() && rng.percent(30) {
        file[32..shape.l as usize].fill(0);
    }
    shape.put_word(file, 8, u64::from(!shape.is_old()));
}

/// A file that opens, with scans in some of its `d` data records and `tail` bytes more
/// than it uses. Every byte that is not judged is random.
pub fn file(rng: &mut Rng, shape: &Shape, d: u64, tail: usize, fill: u64) -> Vec<u8> {
    let mut file = rng.bytes(((shape.n + d) * shape.l) as usize + tail);
    for slot in 1..=shape.capacity() {
        shape.put_run(&mut file, slot, 0, 0);
        if shape.is_old() {
            put16(&mut file, home(shape, slot) + 4, random_magic(rng));
        }
        let mode = random_mode(rng).to_be_bytes();
        file[home(shape, slot) + 56..][..2].copy_from_slice(&mode);
    }
    let highest = put_runs(rng, &mut file, shape, d, fill);
    let u = if rng.percent(40) { highest } else { rng.between(highest, shape.capacity().max(highest)) };
    put_boot(rng, &mut file, shape, d, u);
    file
}

/// The data records of a file that belong to no scan.
pub fn gaps(file: &[u8], shape: &Shape) -> Vec<u64> {
    let runs: Vec<(u64, u64)> = (1..=shape.capacity()).map(|slot| shape.run(file, slot)).collect();
    let is_free = |record: &u64| !runs.iter().any(|(first, last)| (*first..=*last).contains(record));
    (shape.n + 1..=shape.n + shape.word(file, 2)).filter(is_free).collect()
}

/// Puts zeros into them.
pub fn zero_gaps(file: &mut [u8], shape: &Shape) {
    for record in gaps(file, shape) {
        file[((record - 1) * shape.l) as usize..(record * shape.l) as usize].fill(0);
    }
}

/// A small file of this form that opens.
pub fn small_file(rng: &mut Rng, form: Form) -> (Shape, Vec<u8>) {
    let shape = Shape { form, ..small_shape(rng) };
    let d = if rng.percent(10) { 0 } else { rng.between(1, 20) };
    let tail = match rng.below(4) {
        0 => 0,
        1 => rng.below(shape.l),
        _ => rng.below(6 * shape.l),
    };
    let fill = rng.pick(&[20, 50, 80, 100]);
    let made = file(rng, &shape, d, tail as usize, fill);
    (shape, made)
}

/// Takes from a file whatever keeps it from being converted to the other form: a type, a counter that is too high, the
/// magics of its scans. Those of empty entries stay.
pub fn movable(rng: &mut Rng, file: &mut [u8], shape: &Shape) {
    if !shape.is_old() {
        shape.put_word(file, 7, 0);
        return shape.put_word(file, 6, rng.pick(&[0, 1, 0x7fff, 0x8000, 0xfffe, 0xffff]));
    }
    for slot in 1..=shape.capacity() {
        if shape.run(file, slot) != (0, 0) {
            put16(file, home(shape, slot) + 4, 2);
        }
    }
}

/// Puts zeros wherever a conversion puts them: after the words of record 1, after an entry's fields, in empty entries.
pub fn tidy(file: &mut [u8], shape: &Shape) {
    let (words, fields) = if shape.is_old() { (12, 60) } else { (32, 62) };
    file[words..shape.l as usize].fill(0);
    for slot in 1..=shape.capacity() {
        let empty = shape.run(file, slot) == (0, 0);
        let entry = &mut file[home(shape, slot)..][..shape.m as usize];
        entry[if empty { 0 } else { fields }..].fill(0);
    }
}

/// Modes at and around the two ranges.
fn random_mode(rng: &mut Rng) -> i16 {
    match rng.below(4) {
        0 => rng.pick(&[255, 256, 304, 305, 511, 512, 560, 561, 0, -1, i16::MIN]),
        1 => rng.between(256, 304) as i16,
        2 => rng.between(512, 560) as i16,
        _ => rng.next() as i16,
    }
}

/// An entry's bytes 8 to 61: random, with special floats and modes more often than chance has them.
pub fn about(rng: &mut Rng) -> About {
    let mut about: About = rng.bytes(54).try_into().unwrap();
    if rng.percent(50) {
        let bits = rng.pick(&[0x7fc0_0000u32, 0x7f80_0001, 0xff80_0000, 0xffc1_2345, 0x8000_0000, 1, 0x3f80_0000]);
        about[28..32].copy_from_slice(&bits.to_be_bytes());
    }
    if rng.percent(50) {
        let bits = rng.pick(&[0x7ff8 << 48, 0x7ff0_0000_0000_0001u64, 0xfff0 << 48, 0x8000 << 48, 1, 0x3ff0 << 48]);
        about[32..40].copy_from_slice(&bits.to_be_bytes());
    }
    about[48..50].copy_from_slice(&random_mode(rng).to_be_bytes());
    about
}

/// Class starts that rise: the first is 5, the second 21 or more, the last at most `highest`.
fn starts(rng: &mut Rng, classes: u64, highest: u64) -> Vec<u64> {
    let mut spare = highest - (19 + classes);
    let mut starts = vec![5];
    let mut next = 21;
    for _ in 2..=classes {
        let skipped = if rng.percent(25) { rng.below(spare + 1) } else { 0 };
        spare -= skipped;
        next += skipped;
        starts.push(next);
        next += 1;
    }
    starts
}

/// A number from `low` to `high` in steps: often one of the two ends.
fn length(rng: &mut Rng, low: u64, high: u64, step: u64) -> u64 {
    match rng.below(4) {
        0 => low,
        1 => low + (high - low) / step * step,
        _ => low + rng.below((high - low) / step + 1) * step,
    }
}

/// A scan that obeys all rules, of at most `most` bytes (272 or more).
pub fn scan(rng: &mut Rng, most: usize) -> Vec<u8> {
    let most = most as u64;
    let classes = rng.between(13, 15);
    let starts = starts(rng, classes, (most / 8).min(8_192));
    let head = length(rng, 8 * starts[starts.len() - 1], most.min(65_536) / 8 * 8, 8);
    let data = length(rng, 0, (most - head).min(65_536) / 4 * 4, 4);
    scan_of_lengths(rng, &starts, head, data)
}

/// One of exactly so many bytes: a multiple of 4 from 272 to 131,072.
pub fn scan_of(rng: &mut Rng, len: usize) -> Vec<u8> {
    let len = len as u64;
    let classes = rng.between(13, 15);
    let starts = starts(rng, classes, (len / 8).min(8_192));
    // what HEADLEN leaves is DATALEN, which is 65,536 at most too
    let least = (8 * starts[starts.len() - 1]).max(len.saturating_sub(65_536).next_multiple_of(8));
    let head = length(rng, least, len.min(65_536) / 8 * 8, 8);
    scan_of_lengths(rng, &starts, head, len - head)
}

fn scan_of_lengths(rng: &mut Rng, starts: &[u64], head: u64, data: u64) -> Vec<u8> {
    let mut scan = rng.bytes((head + data) as usize);
    put_preamble(&mut scan, starts);
    put_lengths(&mut scan, head as f64, data as f64);
    scan
}

/// The number of classes and their starts.
pub fn put_preamble(scan: &mut [u8], starts: &[u64]) {
    scan[0..2].copy_from_slice(&(starts.len() as i16).to_be_bytes());
    for (i, start) in starts.iter().enumerate() {
        scan[2 + 2 * i..][..2].copy_from_slice(&(*start as i16).to_be_bytes());
    }
}

/// HEADLEN and DATALEN.
pub fn put_lengths(scan: &mut [u8], head: f64, data: f64) {
    scan[32..40].copy_from_slice(&head.to_be_bytes());
    scan[40..48].copy_from_slice(&data.to_be_bytes());
}
