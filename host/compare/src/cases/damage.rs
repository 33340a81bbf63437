//! Damage: to scans at every rule, to files at every refusal.

use crate::cases::shape::{Form, Shape};
use crate::rng::Rng;

fn half(bytes: &[u8], at: usize) -> i16 {
    i16::from_be_bytes(bytes[at..at + 2].try_into().unwrap())
}

fn put_half(bytes: &mut [u8], at: usize, number: i16) {
    bytes[at..at + 2].copy_from_slice(&number.to_be_bytes());
}

/// Damages what a scan says of itself; its length stays.
pub fn scan_numbers(rng: &mut Rng, scan: &mut [u8]) {
    match rng.below(10) {
        0 => put_half(scan, 0, rng.pick(&[12, 13, 14, 15, 16, 0, -1, i16::MIN, 0x0d00])),
        1..=4 => class_start(rng, scan),
        5..=6 => head_length(rng, scan),
        7..=8 => data_length(rng, scan),
        _ => {
            let at = rng.below(48.min(scan.len() as u64)) as usize;
            scan[at] ^= 1 << rng.below(8);
        }
    }
}

fn class_start(rng: &mut Rng, scan: &mut [u8]) {
    let classes = half(scan, 0).clamp(2, 15) as u64;
    let class = match rng.below(4) {
        0 => classes,
        1 => rng.between(1, 2),
        2 => rng.between(2, 15),
        _ => rng.between(2, classes),
    } as usize;
    let before = half(scan, 2 * class - if class > 1 { 2 } else { 0 });
    let near = [before, before.wrapping_sub(1), before.wrapping_add(1)];
    let far = [0, -1, i16::MIN, i16::MAX, 4, 5, 6, 19, 20, 21, 22, rng.next() as i16];
    let start = if rng.percent(50) { rng.pick(&near) } else { rng.pick(&far) };
    put_half(scan, 2 * class, start);
}

/// Doubles that are no whole number, or one that no rule accepts, made from a right one.
fn odd_double(rng: &mut Rng, right: f64) -> u64 {
    let odd = [
        right + 0.5,
        right + 1.0,
        right + 2.0,
        right + 4.0,
        right - 4.0,
        right + 8.0,
        right - 8.0,
        -right,
        -0.0,
        0.0,
        f64::NAN,
        f64::INFINITY,
        f64::NEG_INFINITY,
        1e300,
        9_223_372_036_854_775_808.0,
        18_446_744_073_709_551_616.0,
        4_294_967_296.0 + right,
        65_532.0,
        65_536.0,
        65_540.0,
        65_544.0,
        f64::from_bits(1),
        f64::from_bits(right.to_bits() + 1),
        f64::from_bits(rng.next()),
    ];
    rng.pick(&odd).to_bits()
}

fn head_length(rng: &mut Rng, scan: &mut [u8]) {
    let classes = half(scan, 0).clamp(1, 15) as usize;
    let least = 8.0 * f64::from(half(scan, 2 * classes));
    let now = f64::from_be_bytes(scan[32..40].try_into().unwrap());
    let right = rng.pick(&[least, now, scan.len() as f64]);
    let bits = if rng.percent(20) { right.to_bits() } else { odd_double(rng, right) };
    scan[32..40].copy_from_slice(&bits.to_be_bytes());
}

fn data_length(rng: &mut Rng, scan: &mut [u8]) {
    let head = f64::from_be_bytes(scan[32..40].try_into().unwrap());
    let now = f64::from_be_bytes(scan[40..48].try_into().unwrap());
    let right = rng.pick(&[now, scan.len() as f64 - head]);
    let bits = if rng.percent(20) { right.to_bits() } else { odd_double(rng, right) };
    scan[40..48].copy_from_slice(&bits.to_be_bytes());
}

/// Makes a scan longer or shorter than it says.
pub fn scan_length(rng: &mut Rng, scan: &mut Vec<u8>) {
    let len = scan.len();
    let new = match rng.below(6) {
        0 => rng.pick(&[0, 1, 31, 48, 254, 255, 256, 257]),
        1 => len.saturating_sub(rng.between(1, 8) as usize),
        2 | 3 => len + rng.between(1, 8) as usize,
        4 => len + rng.below(600) as usize,
        _ => rng.pick(&[65_532, 65_535, 65_536, 65_537, 65_540, 65_544]).max(len),
    };
    let old = scan.len();
    scan.resize(new, 0);
    if new > old {
        rng.fill(&mut scan[old..]);
    }
}

/// Damages a file once, in one of the ways that the refusals 1 to 8 know.
pub fn file(rng: &mut Rng, file: &mut Vec<u8>, shape: &Shape) {
    match rng.below(12) {
        0 | 1 => boot_word(rng, file, shape),
        2 => file_length(rng, file, shape),
        3..=6 if file.len() >= 512 => entry_run(rng, file, shape),
        7 | 8 if file.len() >= 512 => shared_run(rng, file, shape),
        9 | 10 if file.len() >= 512 => entry_above(rng, file, shape),
        _ => {
            let end = file.len().min((shape.n * shape.l) as usize) as u64;
            if end > 0 {
                let end = if rng.percent(50) { end.min(32) } else { end };
                let at = rng.below(end) as usize;
                file[at] ^= 1 << rng.below(8);
            }
        }
    }
}

fn boot_word(rng: &mut Rng, file: &mut [u8], shape: &Shape) {
    if file.len() < 32 {
        return;
    }
    let word = rng.between(1, 8) as usize;
    let now = shape.word(file, word);
    let (n, capacity) = (shape.word(file, 1), shape.capacity());
    let edges: &[u64] = match word {
        1 => &[0, 1, 2, 513, 514],
        2 => &[0, 1_000_000 - n.min(1_000_000), 1_000_001 - n.min(1_000_000), file.len() as u64 / shape.l - n.min(2)],
        3 => &[0, 511, 512, 4_096, 4_097],
        4 => &[0, 63, 64, 65, 96, shape.l, shape.l + 1],
        5 => &[0, capacity - 1, capacity, capacity + 1],
        6 => &[0, u32::MAX as u64],
        7 => &[0, 1, 2],
        _ => &[0, 1, 2, 0x0100, 0x0001_0000, 0x0001_0001, 0x0100_0000],
    };
    let new = match rng.below(10) {
        0..=5 => rng.pick(edges),
        6 => now.wrapping_sub(1),
        7 => now + 1,
        8 => far_number(rng, shape),
        _ => rng.next(),
    };
    shape.put_word(file, word, new);
}

/// About the sign: the highest number of the form's words, the lowest negative one, minus one.
fn far_number(rng: &mut Rng, shape: &Shape) -> u64 {
    match shape.form {
        Form::Old => rng.pick(&[0x7fff, 0x8000, 0xffff]),
        Form::Current => rng.pick(&[0x7fff_ffff, 0x8000_0000, 0xffff_ffff]),
    }
}

fn file_length(rng: &mut Rng, file: &mut Vec<u8>, shape: &Shape) {
    let word = |number| shape.word(file, number);
    let in_use = if file.len() >= 32 { (word(1) + word(2)) * word(3) } else { 0 };
    let edges = [0, 1, 31, 32, 511, 512, 513, in_use.saturating_sub(1), in_use, in_use + 1];
    let new = if rng.percent(80) { rng.pick(&edges) } else { rng.below(file.len() as u64 + 1) };
    // never far longer than it was, whatever the words say
    file.resize(new.min(file.len() as u64 + 8_192) as usize, 0);
}

/// The slots whose entries lie within the file's bytes.
fn slots_within(file: &[u8], shape: &Shape) -> u64 {
    shape.capacity().min((file.len() as u64).saturating_sub(shape.l) / shape.m)
}

fn entry_run(rng: &mut Rng, file: &mut [u8], shape: &Shape) {
    let within = slots_within(file, shape);
    if within == 0 {
        return;
    }
    let u = shape.word(file, 5);
    let slot = if rng.percent(70) && u >= 1 { rng.between(1, u.min(within)) } else { rng.between(1, within) };
    let (first, last) = shape.run(file, slot);
    let (low, high) = (shape.n + 1, shape.n + shape.word(file, 2));
    let near = [
        0,
        1,
        low - 1,
        low,
        high,
        high + 1,
        first.wrapping_sub(1),
        first + 1,
        last.wrapping_sub(1),
        last + 1,
        first,
        last,
    ];
    let far = [far_number(rng, shape), rng.next()];
    let mut number = || if rng.percent(90) { rng.pick(&near) } else { rng.pick(&far) };
    let (new_first, new_last) = (number(), number());
    let (first, last) = match rng.below(4) {
        0 => (new_first, last),
        1 => (first, new_last),
        2 => (last, first),
        _ => (new_first, new_last),
    };
    shape.put_run(file, slot, first, last);
}

/// Gives a slot up to U a run that meets another slot's, in one record or more.
fn shared_run(rng: &mut Rng, file: &mut [u8], shape: &Shape) {
    let u = shape.word(file, 5).min(slots_within(file, shape));
    if u < 2 {
        return;
    }
    let (low, high) = (shape.n + 1, shape.n + shape.word(file, 2));
    let filled: Vec<u64> = (1..=u).filter(|slot| shape.run(file, *slot).0 != 0).collect();
    if filled.is_empty() {
        return;
    }
    let (first, last) = shape.run(file, rng.pick(&filled));
    let slot = if rng.percent(60) { rng.pick(&filled) } else { rng.between(1, u) };
    let (new_first, new_last) = match rng.below(5) {
        0 => (first, last),
        1 => (last, last + 1),
        2 => (first.wrapping_sub(1), first),
        3 => (last + 1, last + 2),
        _ => (low, high),
    };
    let within = |record: u64| record.clamp(low.min(high), high);
    shape.put_run(file, slot, within(new_first), within(new_last));
}

fn entry_above(rng: &mut Rng, file: &mut [u8], shape: &Shape) {
    let (u, within) = (shape.word(file, 5), slots_within(file, shape));
    if u >= within {
        // make some entries stand above U
        shape.put_word(file, 5, rng.below(within.max(1)));
        return;
    }
    let slot = if rng.percent(50) { u + 1 } else { rng.between(u + 1, within) };
    let record = shape.n + 1 + rng.below(shape.word(file, 2).clamp(1, 40));
    let far = far_number(rng, shape);
    let (first, last) = rng.pick(&[(record, record), (record, 0), (0, 1), (far, far)]);
    shape.put_run(file, slot, first, last);
}
