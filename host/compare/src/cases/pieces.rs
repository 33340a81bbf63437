//! What may stand in a data section: scans whose lengths are about those of records, what is nearly a scan, zeros and
//! junk; and what may stand in the place of an index.

use crate::cases::shape::Shape;
use crate::cases::{damage, make};
use crate::rng::Rng;

/// Bits of the word SCAN that a detour over a number would lose: zeros, single bits, not-a-numbers, a whole number.
const WORDS: [u64; 9] =
    [0, 1, 1 << 63, u64::MAX, 0x7ff8 << 48, 0x7ff0_0000_0000_0001, 0xffff_ffff, 0x4059 << 48, 0x0123_4567_89ab_cdef];

/// Puts bytes from a record on, as many as are lent there.
pub fn put(file: &mut [u8], shape: &Shape, record: u64, bytes: &[u8]) {
    let place = &mut file[((record - 1) * shape.l) as usize..];
    let len = bytes.len().min(place.len());
    place[..len].copy_from_slice(&bytes[..len]);
}

/// A scan of so many bytes, with any word SCAN.
pub fn scan_of(rng: &mut Rng, len: u64) -> Vec<u8> {
    let mut scan = make::scan_of(rng, len as usize);
    if rng.percent(70) {
        scan[48..56].copy_from_slice(&rng.pick(&WORDS).to_be_bytes());
    }
    scan
}

/// A length that fills up to so many records, or misses that by 4 or 8 bytes; or any.
pub fn near_records(rng: &mut Rng, l: u64, most: u64) -> u64 {
    let whole = rng.between(1, most) * l / 4 * 4;
    let near = whole + rng.pick(&[0, 4, 8, 12, 16]) - 8;
    if rng.percent(80) { near } else { 4 * rng.between(272 / 4, whole / 4) }
}

/// Such a length of one record at most.
pub fn within_a_record(rng: &mut Rng, l: u64) -> u64 {
    near_records(rng, l, 1).min(l / 4 * 4)
}

/// A scan of which one number is just past its edge.
pub fn nearly(rng: &mut Rng, len: u64) -> Vec<u8> {
    let mut scan = scan_of(rng, len);
    let half = |scan: &[u8], at: usize| i16::from_be_bytes([scan[at], scan[at + 1]]);
    let length = |scan: &[u8], at: usize| f64::from_be_bytes(scan[at..at + 8].try_into().unwrap());
    let (classes, head, data) = (half(&scan, 0) as usize, length(&scan, 32), length(&scan, 40));
    let least = 8.0 * f64::from(half(&scan, 2 * classes));
    let class = rng.between(3, classes as u64) as usize;
    let same = half(&scan, 2 * class - 2);
    let (at, number) = match rng.below(6) {
        0 => (0, rng.pick(&[12, 16])),
        1 => (2, rng.pick(&[4, 6])),
        2 => (4, 20),
        3 => (2 * class, same),
        4 => return with_length(scan, 32, rng.pick(&[least - 8.0, head + 4.0, head + 0.5, -head])),
        _ => return with_length(scan, 40, rng.pick(&[-0.0, data + 2.0, data + 0.5, -data])),
    };
    scan[at..at + 2].copy_from_slice(&number.to_be_bytes());
    scan
}

fn with_length(mut scan: Vec<u8>, at: usize, length: f64) -> Vec<u8> {
    scan[at..at + 8].copy_from_slice(&length.to_be_bytes());
    scan
}

/// What may stand from a record on.
fn any_piece(rng: &mut Rng, shape: &Shape) -> Vec<u8> {
    let len = near_records(rng, shape.l, 3);
    match rng.below(12) {
        0 => vec![0; shape.l as usize],
        1 => rng.bytes(shape.l as usize),
        2..=4 => nearly(rng, len),
        5 => {
            let mut scan = scan_of(rng, len);
            damage::scan_numbers(rng, &mut scan);
            scan
        }
        _ => scan_of(rng, len),
    }
}

/// Puts pieces into the data section, one after the other or each inside the one before; the last may go past the end.
pub fn lay(rng: &mut Rng, file: &mut [u8], shape: &Shape) {
    let last = shape.n + shape.word(file, 2);
    let nested = rng.pick(&[0, 30, 60]);
    let mut record = shape.n + 1;
    while record <= last {
        let piece = any_piece(rng, shape);
        put(file, shape, record, &piece);
        record += if rng.percent(nested) { 1 } else { (piece.len() as u64).div_ceil(shape.l) };
    }
}

/// Puts junk in the place of the index: anything, all ones, entries that share a record, or scans, which are not looked
/// for there.
pub fn lose_index(rng: &mut Rng, file: &mut [u8], shape: &Shape) {
    let (from, to) = (shape.l as usize, (shape.n * shape.l) as usize);
    match rng.below(5) {
        0 => rng.fill(&mut file[from..to]),
        1 => file[from..to].fill(0xff),
        2 => (1..=shape.capacity()).for_each(|slot| shape.put_run(file, slot, shape.n + 1, shape.n + 1)),
        _ => {
            for record in 2..=shape.n {
                let len = within_a_record(rng, shape.l);
                let scan = scan_of(rng, len);
                put(file, shape, record, &scan);
            }
        }
    }
}
