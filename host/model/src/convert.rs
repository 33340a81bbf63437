//! "Moving a file to the new form and home again": bootstrap and index, written into a second buffer.

use crate::bytes::{Write, half_bytes, word_bytes};
use crate::index::{Run, listed, open};
use crate::look::{magic, position};
use crate::refusal::{Answer, refuse};
use crate::sizes::{Form, Sizes};

/// "has D, a first or a last above 32,767", the highest Integer*2.
const MOST_IN_OLD: u64 = 32_767;
/// "or a counter above 65,535", the highest of 16 plain bits.
const MOST_COUNTER_IN_OLD: u64 = 65_535;
/// "Old to new needs magic 2 at each scan; new to old gives 2".
const MAGIC: i16 = 2;

/// What makes a file one that cannot be converted: the causes of 19.
#[derive(Clone, Copy, Debug, PartialEq, Eq)]
pub enum Hindrance {
    /// It is already in the wanted form.
    AlreadySo,
    /// It is of type 1.
    TypeOne,
    /// A scan has another magic than 2; "an empty entry's magic is not asked".
    OtherMagic,
    /// Going old: D is above 32,767.
    DataRecords,
    /// Going old: a first is above 32,767.
    First,
    /// Going old: a last is above 32,767.
    Last,
    /// Going old: the counter is above 65,535.
    Counter,
}

/// "then 19 where a file is already in the wanted form, is of type 1, has another magic, or has D, a first or a last
/// above 32,767 or a counter above 65,535 when going old": each of these that holds of a file that opens.
pub fn hindrances(file: &[u8], sizes: &Sizes, wanted: Form) -> Vec<Hindrance> {
    let scans = listed(file, sizes);
    let other_magic = |slot: u64| sizes.form == Form::Old && magic(sizes.entry(file, slot), sizes) != MAGIC;
    let going_old = wanted == Form::Old;
    let causes = [
        (Hindrance::AlreadySo, sizes.form == wanted),
        (Hindrance::TypeOne, sizes.kind == 1),
        (Hindrance::OtherMagic, scans.iter().any(|(slot, _)| other_magic(*slot))),
        (Hindrance::DataRecords, going_old && sizes.d > MOST_IN_OLD),
        (Hindrance::First, going_old && scans.iter().any(|(_, run)| run.first > MOST_IN_OLD)),
        (Hindrance::Last, going_old && scans.iter().any(|(_, run)| run.last > MOST_IN_OLD)),
        (Hindrance::Counter, going_old && sizes.counter > MOST_COUNTER_IN_OLD),
    ];
    causes.into_iter().filter(|(_, holds)| *holds).map(|(cause, _)| cause).collect()
}

/// The bootstrap and index of a file in the current form, as what is written into a second buffer of so many bytes.
pub fn to_current(file: &[u8], out_len: usize) -> Answer<Write> {
    convert(file, out_len, Form::Current)
}

/// The same in the old form.
pub fn to_old(file: &[u8], out_len: usize) -> Answer<Write> {
    convert(file, out_len, Form::Old)
}

/// "Refusals: open's own, then 17 for a second buffer under N x L bytes, then 19".
fn convert(file: &[u8], out_len: usize, wanted: Form) -> Answer<Write> {
    let sizes = open(file)?;
    if (out_len as u64) < sizes.n * sizes.l {
        return refuse(17);
    }
    if !hindrances(file, &sizes, wanted).is_empty() {
        return refuse(19);
    }
    let mut bytes = first_record(&sizes, wanted);
    for slot in 1..=sizes.capacity() {
        bytes.extend(entry(file, &sizes, wanted, slot));
    }
    assert_eq!(bytes.len() as u64, sizes.n * sizes.l);
    Ok(Write { at: 0, bytes })
}

/// "words 1 to 8 (type 0), zeros to L", or "six words, zeros to L".
fn first_record(sizes: &Sizes, wanted: Form) -> Vec<u8> {
    let Sizes { n, d, l, m, u, counter, .. } = *sizes;
    let mut record = match wanted {
        Form::Current => Sizes { kind: 0, ..*sizes }.current_words().to_vec(),
        Form::Old => [n, d, l, m, u, counter].map(half_bytes).concat(),
    };
    record.resize(l as usize, 0);
    record
}

/// "first, last, bytes 8 to 59, position code at 60, zeros", or "first, last, 2, position code, bytes 8 to 59, zeros".
/// "An empty entry is M zeros."
fn entry(file: &[u8], sizes: &Sizes, wanted: Form, slot: u64) -> Vec<u8> {
    let mut made = vec![0; sizes.m as usize];
    let run = Run::of(file, sizes, slot);
    if run.is_empty() {
        return made;
    }
    let entry = sizes.entry(file, slot);
    let position = position(entry, sizes).to_be_bytes();
    match wanted {
        Form::Current => {
            made[0..4].copy_from_slice(&word_bytes(run.first));
            made[4..8].copy_from_slice(&word_bytes(run.last));
            made[60..62].copy_from_slice(&position);
        }
        Form::Old => {
            made[0..2].copy_from_slice(&half_bytes(run.first));
            made[2..4].copy_from_slice(&half_bytes(run.last));
            made[4..6].copy_from_slice(&MAGIC.to_be_bytes());
            made[6..8].copy_from_slice(&position);
        }
    }
    made[8..60].copy_from_slice(&entry[8..60]);
    made
}
