//! A subject that is linked into this process: its memory stands between guard pages.

use crate::call::{Answer, Call, Expected, Lent};
use crate::guarded::{Guarded, Side};
use crate::rng::Rng;
use crate::world::Subject;
use face::Calls;
use model::About;
use std::ptr::null_mut;

/// A file above this size is not compared whole after every call, but at the end of its round.
const LARGE: usize = 16 << 20;
/// What the elements for a listing or a search are filled with before the call.
const UNTOUCHED: u8 = 0x5a;

/// Anything with the library's face.
pub struct Linked {
    calls: Calls,
    file: Guarded,
    scan: Guarded,
    about: Guarded,
    second: Guarded,
    piece: Guarded,
    working: Guarded,
    /// Where nothing is lent the pointer may be anything: sometimes it is null.
    nulls: bool,
}

impl Linked {
    /// By its calls.
    pub fn new(calls: Calls) -> Linked {
        let none = || Guarded::zeros(0, Side::Right);
        let (file, scan, about, second, piece, working) = (none(), none(), none(), none(), none(), none());
        Linked { calls, file, scan, about, second, piece, working, nulls: false }
    }

    fn pointer(nulls: bool, memory: &mut Guarded) -> *mut u8 {
        if nulls && memory.bytes().is_empty() { null_mut() } else { memory.pointer() }
    }

    /// Makes the call.
    fn make(&mut self, call: &Call, out: &mut Guarded) -> Answer {
        let (file_len, scan_len) = (self.file.bytes().len(), self.scan.bytes().len());
        let (second_len, piece_len) = (self.second.bytes().len(), self.piece.bytes().len());
        let row_len = self.working.bytes().len() / size_of::<u32>();
        let file = Linked::pointer(self.nulls, &mut self.file);
        let scan = Linked::pointer(self.nulls, &mut self.scan);
        let out_at = Linked::pointer(self.nulls, out);
        let second = Linked::pointer(self.nulls, &mut self.second);
        let piece = Linked::pointer(self.nulls, &mut self.piece);
        let row = Linked::pointer(self.nulls, &mut self.working).cast();
        let about = self.about.pointer();
        let calls = &self.calls;
        // SAFETY: every pointer comes with the length of the memory behind it, which this subject
        // owns and lends to this call alone; `about` is 54 bytes.
        unsafe {
            match *call {
                Call::Open => Answer::Opened((calls.open)(file, file_len)),
                Call::List { out_len } => Answer::Listed((calls.list)(file, file_len, out_at.cast(), out_len)),
                Call::Entry { slot } => Answer::Entry((calls.entry_at)(file, file_len, slot)),
                Call::Show { slot } => Answer::Span((calls.show)(file, file_len, slot)),
                Call::Read { slot } => Answer::Span((calls.read)(file, file_len, slot)),
                Call::Class { number } => Answer::Span((calls.class)(scan, scan_len, number)),
                Call::Data => Answer::Span((calls.data)(scan, scan_len)),
                Call::Blank { n, l, m } => Answer::Refusal((calls.blank)(file, file_len, n, l, m)),
                Call::Save { slot } => Answer::Begun((calls.save)(file, file_len, slot, scan, scan_len, about)),
                Call::Keep => Answer::Begun((calls.keep)(file, file_len, scan, scan_len, about)),
                Call::Clear { slot } => Answer::Begun((calls.clear)(file, file_len, slot)),
                Call::Step { job } => Answer::Stepped((calls.step)(file, file_len, scan, scan_len, job)),
                Call::ToCurrent => Answer::Refusal((calls.to_current)(file, file_len, second, second_len)),
                Call::ToOld => Answer::Refusal((calls.to_old)(file, file_len, second, second_len)),
                Call::GapsZero => Answer::YesNo((calls.gaps_zero)(file, file_len)),
                Call::Find { out_len } => Answer::Listed((calls.find)(file, file_len, out_at.cast(), out_len)),
                Call::LinkBegin { length } => Answer::Linked((calls.link_begin)(length, row, row_len)),
                Call::LinkTake { link } => Answer::Linked((calls.link_take)(link, piece, piece_len, row, row_len)),
                Call::LinkFinish { link } => Answer::Opened((calls.link_finish)(link, row, row_len)),
            }
        }
    }

    /// The memory for a listing or a search, filled with what should stay where nothing is written.
    fn out(&self, call: &Call) -> Guarded {
        let (elements, width) = call.row();
        let side = if self.nulls { Side::Left } else { Side::Right };
        Guarded::copy(&vec![UNTOUCHED; elements * width], side)
    }
}

impl Subject for Linked {
    fn new_file(&mut self, len: usize, rng: &mut Rng) {
        self.file = Guarded::zeros(len, side(rng));
        self.nulls = rng.percent(50);
    }

    fn patch_file(&mut self, at: usize, bytes: &[u8]) {
        self.file.bytes_mut()[at..at + bytes.len()].copy_from_slice(bytes);
    }

    fn new_scan(&mut self, scan: &[u8], rng: &mut Rng) {
        self.scan = Guarded::copy(scan, side(rng));
    }

    fn new_about(&mut self, about: &About, rng: &mut Rng) {
        self.about = Guarded::copy(about, side(rng));
    }

    fn new_second(&mut self, second: &[u8], rng: &mut Rng) {
        self.second = Guarded::copy(second, side(rng));
    }

    fn new_piece(&mut self, piece: &[u8], rng: &mut Rng) {
        self.piece = Guarded::copy(piece, side(rng));
    }

    fn new_working(&mut self, working: &[u32], rng: &mut Rng) {
        self.working = Guarded::zeros(size_of_val(working), side(rng));
        let places = self.working.bytes_mut().chunks_exact_mut(size_of::<u32>());
        places.zip(working).for_each(|(place, element)| place.copy_from_slice(&element.to_ne_bytes()));
    }

    fn call(&mut self, call: &Call, expected: &Expected, held: &Lent) -> Result<(), String> {
        let mut out = self.out(call);
        let answer = self.make(call, &mut out);
        if answer.bytes() != expected.answer.bytes() {
            return Err(format!("answered {answer:?}\n  expected {:?}", expected.answer));
        }
        if held.file.len() <= LARGE {
            self.whole_file(held.file)?;
        } else if let Some(write) = &expected.write {
            same("the file where it is written", &self.file.bytes()[write.at..][..write.bytes.len()], &write.bytes)?;
        }
        same("the scan", self.scan.bytes(), held.scan)?;
        same("the entry's bytes", self.about.bytes(), held.about)?;
        same("the second buffer", self.second.bytes(), held.second)?;
        same("the row of elements", out.bytes(), &wanted_row(call, expected))?;
        same("the piece", self.piece.bytes(), held.piece)?;
        same_row(self.working.bytes(), held.working)?;
        let beside = [&self.file, &self.scan, &self.about, &self.second, &self.piece, &self.working, &out];
        if beside.into_iter().any(|memory| !memory.slack_stands()) {
            return Err("something was written beside what was lent".to_string());
        }
        Ok(())
    }

    fn whole_file(&mut self, file: &[u8]) -> Result<(), String> {
        same("the file", self.file.bytes(), file)
    }
}

/// The row as it should be after the call: the expected elements, and after them what was there.
fn wanted_row(call: &Call, expected: &Expected) -> Vec<u8> {
    let (elements, width) = call.row();
    let mut row = vec![UNTOUCHED; elements * width];
    for (place, element) in row.chunks_exact_mut(width).zip(&expected.out) {
        match width {
            4 => place.copy_from_slice(&(*element as u32).to_ne_bytes()),
            _ => place.copy_from_slice(&element.to_ne_bytes()),
        }
    }
    row
}

/// Whether the working row is as it should be.
fn same_row(has: &[u8], wanted: &[u32]) -> Result<(), String> {
    let has = has.chunks_exact(size_of::<u32>()).map(|element| u32::from_ne_bytes(element.try_into().unwrap()));
    match has.zip(wanted).enumerate().find(|(_, (has, wanted))| has != *wanted) {
        None => Ok(()),
        Some((at, (has, wanted))) => {
            Err(format!("the working row is not as it should be: element {at} is {has:#x} and not {wanted:#x}"))
        }
    }
}

fn side(rng: &mut Rng) -> Side {
    rng.pick(&[Side::Left, Side::Right])
}

fn same(what: &str, has: &[u8], wanted: &[u8]) -> Result<(), String> {
    if has == wanted {
        return Ok(());
    }
    let at = has.iter().zip(wanted).position(|(a, b)| a != b).unwrap_or(0);
    Err(format!("{what} is not as it should be: at byte {at} it has {} and not {}", has[at], wanted[at]))
}
