//! "Sizes": the bootstrap, and what follows from the sizes alone.

use crate::bytes::{plain_half, widened, word, word_bytes};
use crate::refusal::{Answer, refuse};

/// No file has more records than this.
pub const MOST_RECORDS: u64 = 1_000_000;
/// No file has more slots than this.
pub const MOST_SLOTS: u64 = 4_096;

/// Which bootstrap and index a file has.
#[derive(Clone, Copy, Debug, PartialEq, Eq)]
pub enum Form {
    /// From before 1993: 16-bit words.
    Old,
    /// Version 1: 32-bit words.
    Current,
}

/// What a bootstrap says, whatever its form.
#[allow(missing_docs)] // the names are the paper's
#[derive(Clone, Copy, Debug, PartialEq, Eq)]
pub struct Sizes {
    pub n: u64,
    pub d: u64,
    pub l: u64,
    pub m: u64,
    pub u: u64,
    pub counter: u64,
    pub kind: u64,
    pub form: Form,
}

impl Sizes {
    /// The words of a bootstrap of this form, whatever they are.
    fn of(file: &[u8], form: Form) -> Sizes {
        match form {
            Form::Old => Sizes::of_old(file),
            Form::Current => Sizes::of_current(file),
        }
    }

    /// The first seven 32-bit words.
    fn of_current(file: &[u8]) -> Sizes {
        let at = |number: usize| word(file, 4 * (number - 1));
        let form = Form::Current;
        Sizes { n: at(1), d: at(2), l: at(3), m: at(4), u: at(5), counter: at(6), kind: at(7), form }
    }

    /// "six 16-bit words (N, D, L, M, U, counter)"; "The counter is 16 plain bits and the type counts as 0".
    fn of_old(file: &[u8]) -> Sizes {
        let at = |number: usize| widened(file, 2 * (number - 1));
        let counter = plain_half(file, 10);
        Sizes { n: at(1), d: at(2), l: at(3), m: at(4), u: at(5), counter, kind: 0, form: Form::Old }
    }

    /// The eight words of a bootstrap of the current form.
    pub(crate) fn current_words(&self) -> [u8; 32] {
        let words = [self.n, self.d, self.l, self.m, self.u, self.counter, self.kind, 1];
        words.map(word_bytes).concat().try_into().unwrap()
    }

    /// "Capacity is (N-1) x L / M".
    pub fn capacity(&self) -> u64 {
        (self.n - 1) * self.l / self.m
    }

    /// The index record that holds a slot's entry.
    pub fn home_record(&self, slot: u64) -> u64 {
        2 + (slot - 1) * self.m / self.l
    }

    /// Where in that record the entry begins.
    pub fn home_place(&self, slot: u64) -> u64 {
        (slot - 1) * self.m % self.l
    }

    /// The offset in the file at which a record begins.
    pub(crate) fn record_at(&self, record: u64) -> usize {
        ((record - 1) * self.l) as usize
    }

    /// The L bytes of a record.
    pub(crate) fn record<'a>(&self, file: &'a [u8], record: u64) -> &'a [u8] {
        let at = self.record_at(record);
        &file[at..at + self.l as usize]
    }

    /// The offset in the file at which a slot's entry begins.
    pub(crate) fn home(&self, slot: u64) -> usize {
        self.record_at(self.home_record(slot)) + self.home_place(slot) as usize
    }

    /// The M bytes of a slot's entry.
    pub(crate) fn entry<'a>(&self, file: &'a [u8], slot: u64) -> &'a [u8] {
        let at = self.home(slot);
        &file[at..at + self.m as usize]
    }

    /// "slot outside 1 to capacity", said the other way round.
    pub(crate) fn has_slot(&self, slot: u64) -> bool {
        1 <= slot && slot <= self.capacity()
    }

    /// Whether N, L and M lie in their ranges, and the capacity too.
    pub(crate) fn shape_in_range(&self) -> bool {
        (2..=513).contains(&self.n)
            && (512..=4_096).contains(&self.l)
            && (64..=self.l).contains(&self.m)
            && self.l.is_multiple_of(self.m)
            && self.capacity() <= MOST_SLOTS
    }

    /// Whether every number of the table lies in its range.
    fn in_range(&self) -> bool {
        self.shape_in_range() && self.n + self.d <= MOST_RECORDS && self.u <= self.capacity() && self.kind <= 1
    }
}

/// "The room of a file is floor(lent length / L) records, at most 1,000,000."
pub fn room(file_len: u64, sizes: &Sizes) -> u64 {
    (file_len / sizes.l).min(MOST_RECORDS)
}

/// "word 8 (bytes 28 to 31) 0: old; 1: current; else 3". Refusals 1 and 3, of a file of so many bytes that begins so.
fn form(beginning: &[u8], file_len: u64) -> Answer<Form> {
    if file_len < 512 {
        return refuse(1);
    }
    match word(beginning, 28) {
        0 => Ok(Form::Old),
        1 => Ok(Form::Current),
        _ => refuse(3),
    }
}

/// "2 now means a save, keep or clear on an old file and keeps its place", which is before 4. Refusals 1 to 3.
pub(crate) fn may_change(file: &[u8]) -> Answer<()> {
    match form(file, file.len() as u64)? {
        Form::Old => refuse(2),
        Form::Current => Ok(()),
    }
}

/// Refusals 1, 3, 4 and 5.
pub fn bootstrap(file: &[u8]) -> Answer<Sizes> {
    bootstrap_over(file, file.len() as u64)
}

/// The same of a file of so many bytes, of which at least the first 32 are known where it has 512.
pub fn bootstrap_over(beginning: &[u8], file_len: u64) -> Answer<Sizes> {
    let sizes = Sizes::of(beginning, form(beginning, file_len)?);
    if !sizes.in_range() {
        return refuse(4);
    }
    if (sizes.n + sizes.d) * sizes.l > file_len {
        return refuse(5);
    }
    Ok(sizes)
}

/// What 32 bytes state, whatever their numbers are: in the old form where word 8 is 0, else in the current one.
pub(crate) fn stated(boot: &[u8; 32]) -> Sizes {
    Sizes::of(boot, if word(boot, 28) == 0 { Form::Old } else { Form::Current })
}
