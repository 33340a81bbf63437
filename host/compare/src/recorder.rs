//! A subject that agrees with everything and writes it down: a file of cases
//! with the model's answers, for a program elsewhere to replay.
//!
//! The file is a row of items, each a tag byte and little-endian numbers:
//!
//! | tag | then | meaning |
//! |---|---|---|
//! | F | len | a new file of zeros |
//! | P | at, len, bytes | these bytes at this place of the file |
//! | S | len, bytes | a new scan |
//! | A | 54 bytes | new bytes for the entry |
//! | B | len, bytes | a new second buffer |
//! | T | len, bytes | a new piece of a file, to be taken over the link |
//! | R | len, elements | a new working row of so many 32-bit elements |
//! | C | call, arguments, answer, writes, elements, converted, worked | a call |
//! | E | | the end |
//!
//! All numbers are 64 bits, a call's number is a byte. A call's arguments are
//! its numbers in the header's order (a list and a find: the length of `out`; a
//! step: the job's fields; a take and a finish: the link's). An answer is a length and the bytes of [`Answer::bytes`];
//! the writes are a count and then place, length and bytes of each; the
//! elements are a count and 32 bits each, of a find 64; what is converted is a
//! length and the bytes that the second buffer then begins with; what is worked is
//! a count and then place and 32 bits of each element of the working row that is
//! written.
//!
//! [`Answer::bytes`]: crate::call::Answer::bytes

use crate::call::{Call, Expected, Lent, put_job, put_link};
use crate::rng::Rng;
use crate::world::Subject;
use model::About;
use std::io::Write;

/// Writes cases down.
pub struct Recorder<W: Write> {
    to: W,
}

impl<W: Write> Recorder<W> {
    /// To this writer.
    pub fn new(to: W) -> Recorder<W> {
        Recorder { to }
    }

    /// Writes the end.
    pub fn finish(mut self) {
        self.put(b"E");
        self.to.flush().expect("the file of cases could not be written");
    }

    fn put(&mut self, bytes: &[u8]) {
        self.to.write_all(bytes).expect("the file of cases could not be written");
    }

    fn number(&mut self, number: u64) {
        self.put(&number.to_le_bytes());
    }

    fn row(&mut self, bytes: &[u8]) {
        self.number(bytes.len() as u64);
        self.put(bytes);
    }

    fn arguments(&mut self, call: &Call) {
        match *call {
            Call::Open | Call::Data | Call::Keep | Call::ToCurrent | Call::ToOld | Call::GapsZero => (),
            Call::List { out_len } | Call::Find { out_len } => self.number(out_len as u64),
            Call::Entry { slot } | Call::Show { slot } | Call::Read { slot } => self.number(slot),
            Call::Save { slot } | Call::Clear { slot } => self.number(slot),
            Call::Class { number } => self.number(number),
            Call::Blank { n, l, m } => [n, l, m].into_iter().for_each(|number| self.number(number)),
            Call::Step { job } => {
                let mut fields = Vec::new();
                put_job(&mut fields, &job);
                self.put(&fields);
            }
            Call::LinkBegin { length } => self.number(length),
            Call::LinkTake { link } | Call::LinkFinish { link } => {
                let mut fields = Vec::new();
                put_link(&mut fields, &link);
                self.put(&fields);
            }
        }
    }
}

impl<W: Write> Subject for Recorder<W> {
    fn new_file(&mut self, len: usize, _: &mut Rng) {
        self.put(b"F");
        self.number(len as u64);
    }

    fn patch_file(&mut self, at: usize, bytes: &[u8]) {
        self.put(b"P");
        self.number(at as u64);
        self.row(bytes);
    }

    fn new_scan(&mut self, scan: &[u8], _: &mut Rng) {
        self.put(b"S");
        self.row(scan);
    }

    fn new_about(&mut self, about: &About, _: &mut Rng) {
        self.put(b"A");
        self.put(about);
    }

    fn new_second(&mut self, second: &[u8], _: &mut Rng) {
        self.put(b"B");
        self.row(second);
    }

    fn new_piece(&mut self, piece: &[u8], _: &mut Rng) {
        self.put(b"T");
        self.row(piece);
    }

    fn new_working(&mut self, working: &[u32], _: &mut Rng) {
        self.put(b"R");
        self.number(working.len() as u64);
        working.iter().for_each(|element| self.put(&element.to_le_bytes()));
    }

    fn call(&mut self, call: &Call, expected: &Expected, _: &Lent) -> Result<(), String> {
        self.put(b"C");
        self.put(&[call.number() as u8]);
        self.arguments(call);
        self.row(&expected.answer.bytes());
        self.number(expected.write.iter().count() as u64);
        if let Some(write) = &expected.write {
            self.number(write.at as u64);
            self.row(&write.bytes);
        }
        self.number(expected.out.len() as u64);
        let (_, width) = call.row();
        expected.out.iter().for_each(|element| self.put(&element.to_le_bytes()[..width]));
        self.row(expected.converted.as_ref().map_or(&[], |write| &write.bytes));
        self.number(expected.worked.len() as u64);
        for (at, element) in &expected.worked {
            self.number(*at as u64);
            self.put(&element.to_le_bytes());
        }
        Ok(())
    }

    fn whole_file(&mut self, _: &[u8]) -> Result<(), String> {
        Ok(())
    }
}
