//! "Opening over the slow link": "Give the length first, then bytes in pieces cut anywhere, then finish."

use crate::index::{Run, judged, open};
use crate::refusal::{Answer, refuse};
use crate::sizes::{Form, Sizes, bootstrap, bootstrap_over, stated};
use std::collections::BTreeMap;

/// "Working room is a row of 8,192 32-bit numbers": first and last of 4,096 slots.
pub const ROW: usize = 8_192;

/// A verdict under way.
#[derive(Clone, Copy, Debug, PartialEq, Eq)]
pub struct Link {
    /// The length that was given first.
    pub length: u64,
    /// How many bytes came that count.
    pub came: u64,
    /// N x L once the bootstrap has come and breaks nothing, else 0.
    pub index_end: u64,
    /// The first 32 bytes, as far as they came.
    pub boot: [u8; 32],
}

/// What a piece makes of the link and of the row.
#[derive(Clone, Debug, PartialEq, Eq)]
pub struct Taken {
    /// The link afterwards.
    pub link: Link,
    /// The elements of the row that are written, with what they hold afterwards.
    pub elements: BTreeMap<usize, u32>,
}

/// "Give the length first". 17 where the row is too short; nothing is written to it in any case.
pub fn begin(length: u64, row_len: usize) -> Answer<Link> {
    if row_len < ROW {
        return refuse(17);
    }
    Ok(Link { length, came: 0, index_end: 0, boot: [0; 32] })
}

/// "then bytes in pieces cut anywhere": one after the other, so that it does not matter where they are cut.
pub fn take(link: &Link, piece: &[u8], row: &[u32]) -> Answer<Taken> {
    if row.len() < ROW {
        return refuse(17);
    }
    let mut taken = Taken { link: *link, elements: BTreeMap::new() };
    piece.iter().for_each(|byte| taken.byte(*byte, row));
    Ok(taken)
}

/// "then finish": "at finish, 20 if the length is 512 or more and fewer than 32 bytes came, or if the bootstrap breaks
/// nothing and fewer than N x L came; else open's own".
pub fn finish(link: &Link, row: &[u32]) -> Answer<Sizes> {
    if row.len() < ROW {
        return refuse(17);
    }
    if link.length >= 512 && link.came < 32 {
        return refuse(20);
    }
    let sizes = bootstrap_over(&link.boot, link.length)?;
    if link.came < sizes.n * sizes.l {
        return refuse(20);
    }
    let runs: Vec<Run> = (1..=sizes.capacity()).map(|slot| run_in(row, slot)).collect();
    judged(sizes, &runs)
}

/// What finish has to answer once the first `came` bytes of a file came, said of the file and of no link: the same
/// sentence, and open's own answer for the whole file.
pub fn verdict(file: &[u8], came: usize) -> Answer<Sizes> {
    let few = file.len() >= 512 && came < 32;
    let part = bootstrap(file).is_ok_and(|sizes| (came as u64) < sizes.n * sizes.l);
    if few || part { refuse(20) } else { open(file) }
}

impl Taken {
    /// One byte more: of the bootstrap, of the index, or one that is passed over.
    fn byte(&mut self, byte: u8, row: &[u32]) {
        let Link { length, came, index_end, .. } = self.link;
        if length >= 512 && came < 32 {
            self.link.boots(byte);
        } else if came < index_end {
            if let Some((element, form)) = self.link.element() {
                let before = self.elements.get(&element).unwrap_or(&row[element]);
                self.elements.insert(element, shifted_in(*before, byte, form));
            }
            self.link.came += 1;
        }
    }
}

impl Link {
    /// A byte of the bootstrap; the last one of the 32 says where the index ends.
    fn boots(&mut self, byte: u8) {
        self.boot[self.came as usize] = byte;
        self.came += 1;
        self.index_end = 0;
        if self.came == 32
            && let Ok(sizes) = bootstrap_over(&self.boot, self.length)
        {
            self.index_end = sizes.n * sizes.l;
        }
    }

    /// Which element of the row the next byte belongs to, if it is one of an entry's first or last record number; and in
    /// which form that number stands in the file.
    fn element(&self) -> Option<(usize, Form)> {
        let sizes = stated(&self.boot);
        if !sizes.shape_in_range() {
            return None;
        }
        let (record, place) = (self.came / sizes.l + 1, self.came % sizes.l);
        if record < 2 {
            return None;
        }
        let slot = (record - 2) * (sizes.l / sizes.m) + place / sizes.m + 1;
        if !sizes.has_slot(slot) {
            return None;
        }
        assert!(sizes.home_record(slot) == record && sizes.home_place(slot) == place / sizes.m * sizes.m);
        match (place - sizes.home_place(slot)) / width(sizes.form) {
            0 => Some((first_at(slot), sizes.form)),
            1 => Some((last_at(slot), sizes.form)),
            _ => None,
        }
    }
}

/// How many bytes a record number has in an entry: two 32-bit numbers, or in the old form two of 16 bits.
fn width(form: Form) -> u64 {
    match form {
        Form::Old => 2,
        Form::Current => 4,
    }
}

/// The element of the row that holds a slot's first record.
fn first_at(slot: u64) -> usize {
    2 * (slot as usize - 1)
}

/// The element that holds its last.
fn last_at(slot: u64) -> usize {
    first_at(slot) + 1
}

/// A slot's run, as the row has it.
fn run_in(row: &[u32], slot: u64) -> Run {
    Run { first: u64::from(row[first_at(slot)]), last: u64::from(row[last_at(slot)]) }
}

/// A number with one more byte at its low end. An old one keeps its low 16 bits, and is "the 32-bit word of the same
/// value" as that Integer*2.
fn shifted_in(number: u32, byte: u8, form: Form) -> u32 {
    let longer = u64::from(number) * 256 + u64::from(byte);
    match form {
        Form::Current => (longer % 0x1_0000_0000) as u32,
        Form::Old => {
            let bits = (longer % 0x1_0000) as u32;
            if bits < 0x8000 { bits } else { bits + 0xffff_0000 }
        }
    }
}
