//! The verdict on a file that comes in pieces, as the library and plain Rust give it.

use crate::file::File;
use face::{Calls, Link, Linked, Opened};
use std::fmt;
use std::hint::black_box;

/// The bytes of a piece where a file comes in many.
pub const PIECE: usize = 512;
/// Two numbers for each of 4,096 slots: the row that is lent.
pub const ROW: usize = 8_192;

/// What comes in pieces of 512 bytes.
#[derive(Clone, Copy, Debug, PartialEq, Eq)]
pub enum Part {
    /// The whole file.
    Whole,
    /// Bootstrap and index, on which the verdict rests.
    Index,
}

/// What the one piece of a call has.
#[derive(Clone, Copy, Debug, PartialEq, Eq)]
pub enum Piece {
    /// One byte of an entry's first record.
    Number,
    /// One byte of the index that says nothing to the verdict.
    Passed,
    /// So many bytes of the data section.
    Data(usize),
}

impl fmt::Display for Part {
    fn fmt(&self, f: &mut fmt::Formatter) -> fmt::Result {
        match self {
            Part::Whole => f.write_str("link, whole file"),
            Part::Index => f.write_str("link, bootstrap and index"),
        }
    }
}

impl fmt::Display for Piece {
    fn fmt(&self, f: &mut fmt::Formatter) -> fmt::Result {
        match self {
            Piece::Number => f.write_str("link take, 1 byte of a number"),
            Piece::Passed => f.write_str("link take, 1 other byte of the index"),
            Piece::Data(bytes) => write!(f, "link take, {bytes} bytes of data"),
        }
    }
}

impl Piece {
    /// Where it begins in the file, and its length.
    fn place(self, file: &File) -> (usize, usize) {
        let home = file.plan.home(file.middle());
        match self {
            Piece::Number => (home, 1),
            Piece::Passed => (home + 20, 1),
            Piece::Data(bytes) => (file.plan.n() * file.plan.l(), bytes),
        }
    }
}

/// The cost of handing a link over and back, which every call has: the limit of a piece.
#[inline(never)]
pub extern "C" fn handed_back(link: Link) -> Linked {
    Linked { why: face::Refusal::NONE, link: black_box(link) }
}

/// The working room of the calls, and what a piece that is taken again and again needs.
pub struct Lending {
    row: Vec<u32>,
    /// The link as it is before that piece, and the piece's place in the file and its length.
    pub link: Link,
    place: (usize, usize),
}

impl Lending {
    /// For a verdict from its beginning on.
    pub fn at_start() -> Lending {
        Lending { row: vec![0; ROW], link: Link::ZEROS, place: (0, 0) }
    }

    /// Takes all that comes before a piece.
    pub fn come_to(&mut self, file: &File, piece: Piece) {
        let calls = plain::calls();
        self.place = piece.place(file);
        let begun = self.begin(&calls, file);
        self.link = self.take(&calls, file, begun, 0, self.place.0);
    }

    /// The link of a verdict that is begun.
    pub fn begin(&mut self, calls: &Calls, file: &File) -> Link {
        let row = &mut self.row;
        // SAFETY: the pointer comes with the length of memory that is owned here.
        unsafe { (calls.link_begin)(file.map.size() as u64, row.as_mut_ptr(), row.len()) }.link
    }

    /// The link after a piece: so many bytes of the file from one on.
    #[inline]
    pub fn take(&mut self, calls: &Calls, file: &File, link: Link, at: usize, len: usize) -> Link {
        debug_assert!(at + len <= file.map.size());
        let row = &mut self.row;
        // SAFETY: as in `begin`; the piece lies in the file.
        unsafe { (calls.link_take)(link, file.map.pointer().add(at), len, row.as_mut_ptr(), row.len()) }.link
    }

    /// The verdict.
    pub fn finish(&self, calls: &Calls, link: Link) -> Opened {
        // SAFETY: as in `begin`.
        unsafe { (calls.link_finish)(link, self.row.as_ptr(), self.row.len()) }
    }

    /// The one piece, taken once more.
    pub fn take_piece(&mut self, calls: &Calls, file: &File) -> Link {
        let (at, len) = self.place;
        self.take(calls, file, black_box(self.link), at, len)
    }

    /// The whole file as one piece; the verdict is left to be asked for.
    pub fn take_whole(&mut self, calls: &Calls, file: &File) -> Link {
        let begun = self.begin(calls, file);
        self.take(calls, file, begun, 0, file.map.size())
    }

    /// The verdict from its beginning to its end, in pieces of 512 bytes.
    pub fn judge(&mut self, calls: &Calls, file: &File, part: Part) -> Opened {
        let end = match part {
            Part::Whole => file.map.size(),
            Part::Index => file.plan.n() * file.plan.l(),
        };
        let mut link = self.begin(calls, file);
        for at in (0..end).step_by(PIECE) {
            link = self.take(calls, file, link, at, PIECE.min(end - at));
        }
        self.finish(calls, link)
    }

    /// The same, with the row that it leaves.
    pub fn judged(&mut self, calls: &Calls, file: &File, part: Part) -> (Opened, Vec<u32>) {
        self.row.fill(7);
        (self.judge(calls, file, part), self.row.clone())
    }

    /// The link after the one piece, with the row that it leaves; the row is then as before.
    pub fn taken(&mut self, calls: &Calls, file: &File) -> (Link, Vec<u32>) {
        let row = self.row.clone();
        let link = self.take_piece(calls, file);
        (link, std::mem::replace(&mut self.row, row))
    }
}
