//! What the bytes themselves cost: the work that no program with this job can leave out.

use crate::file::{Form, Plan};
use std::hint::black_box;
use std::ops::Range;

/// First and last record of every slot, decoded into a row: one pass over the index.
pub fn decode(file: &[u8], plan: &Plan, row: &mut [u32]) {
    let index = &file[plan.home(1)..plan.home(plan.slots + 1)];
    // as fast as it can be: the compiler knows how far apart the entries are
    match plan.m {
        64 => decode_entries::<64>(index, plan.form, row),
        128 => decode_entries::<128>(index, plan.form, row),
        512 => decode_entries::<512>(index, plan.form, row),
        m => unreachable!("no file here has entries of {m} bytes"),
    }
}

fn decode_entries<const M: usize>(index: &[u8], form: Form, row: &mut [u32]) {
    let pairs = index.chunks_exact(M).zip(row.chunks_exact_mut(2));
    match form {
        Form::Old => {
            for (entry, pair) in pairs {
                pair[0] = i32::from(i16::from_be_bytes(entry[0..2].try_into().unwrap())) as u32;
                pair[1] = i32::from(i16::from_be_bytes(entry[2..4].try_into().unwrap())) as u32;
            }
        }
        Form::Current => {
            for (entry, pair) in pairs {
                pair[0] = u32::from_be_bytes(entry[0..4].try_into().unwrap());
                pair[1] = u32::from_be_bytes(entry[4..8].try_into().unwrap());
            }
        }
    }
    black_box(row);
}

/// The scan copied into its records, one record at a time.
pub fn copy(file: &mut [u8], l: usize, at: usize, scan: &[u8]) {
    for (record, piece) in file[at..].chunks_exact_mut(l).zip(scan.chunks(l)) {
        record[..piece.len()].copy_from_slice(black_box(piece));
        record[piece.len()..].fill(0);
    }
}

/// Whether every record of these parts is zeros: each compared with a record of zeros by C's memcmp, one pass over their
/// bytes.
pub fn zeros(file: &[u8], l: usize, parts: &[Range<usize>]) -> bool {
    let zeros = [0u8; 4_096];
    let is_zeros = |record: &[u8]| {
        // SAFETY: both have L bytes, which are at most 4,096.
        unsafe { libc::memcmp(black_box(record.as_ptr()).cast(), zeros.as_ptr().cast(), l) == 0 }
    };
    parts.iter().all(|part| file[part.clone()].chunks_exact(l).all(is_zeros))
}

/// How many of these records have a number of classes that a scan can have: one look at each of them.
pub fn beginnings(data: &[u8], l: usize) -> usize {
    let may_begin = |record: &&[u8]| (13..=15).contains(&u16::from_be_bytes([record[0], record[1]]));
    data.chunks_exact(l).filter(may_begin).count()
}

/// The records compared with the scan.
pub fn same(file: &[u8], at: usize, scan: &[u8]) -> bool {
    black_box(&file[at..at + scan.len()]) == black_box(scan)
}
