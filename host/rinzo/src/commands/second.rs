//! A second file, made of a first one: it has its name only once it was read back and compared. `convert` and `sweep` make
//! one.

use crate::file::beside::Beside;
use crate::file::device::{Device, Way};
use crate::file::lent::{Lent, cannot_be_read, read_back};
use crate::file::pieces::pieces;
use crate::file::window::Window;
use crate::job::drill::Drill;
use crate::job::interrupt;
use crate::say::failure::Failure;
use crate::say::json::Json;
use crate::say::out::Out;
use crate::say::progress::Progress;
use crate::say::shown;
use sdd::{Entry, Sizes, Span};
use std::io;
use std::path::Path;

/// A file, and what the second one has of it.
pub struct Second<'a> {
    pub lent: Lent,
    /// The records 1 to N that it is to have.
    pub head: Vec<u8>,
    /// The parts behind them, lowest first, that are zeros in it whatever the file has there. All else is the file's own.
    pub zeros: Vec<Span>,
    /// What is done to the file, as progress has it and as a command.
    pub doing: &'static str,
    pub again: &'static str,
    pub out: &'a Out,
}

impl Second<'_> {
    /// Writes the new file, holds what the device gives back to the file that it was made from, and gives it its name.
    /// `is_right` asks the library of records 1 to N as they came back.
    pub fn make(
        &self,
        beside: Beside,
        is_right: impl FnOnce(&mut Window, &Device) -> Result<bool, Failure>,
    ) -> Result<Way, Failure> {
        let drill = Drill::from_environment();
        drill.reached(0);
        self.write(&beside.device)?;
        drill.reached(1);
        let way = self.compare(&beside.device, is_right)?;
        drill.reached(2);
        self.goes_on(&beside.device)?;
        beside.put_in_place()?;
        Ok(way)
    }

    /// The records 1 to N, then what is behind them to the file's end, all of it durable.
    fn write(&self, device: &Device) -> Result<(), Failure> {
        let failed = |error| not_made(device, "written", &error);
        // space for all of it first: a disk that is too full says so now
        device.grow(self.lent.window.len()).map_err(failed)?;
        device.write(0, &self.head).map_err(failed)?;
        self.each_piece(self.doing, |at, piece| {
            self.goes_on(device)?;
            // the new file has zeros where nothing was written
            if piece.iter().all(|byte| *byte == 0) { Ok(()) } else { device.write(at, piece).map_err(failed) }
        })?;
        device.flush_with_length().map_err(failed)
    }

    /// What is to stand behind the records 1 to N, in pieces with their places.
    fn each_piece(
        &self,
        what: &'static str,
        mut hand_on: impl FnMut(u64, &[u8]) -> Result<(), Failure>,
    ) -> Result<(), Failure> {
        let data = self.head.len()..self.lent.bytes().len();
        let mut made = Vec::new();
        pieces(&self.lent.device, &data, Progress::of_bytes(self.out, what), |at, piece| {
            made.clear();
            made.extend_from_slice(piece);
            empty(&self.zeros, at as usize, &mut made);
            hand_on(at, &made)
        })
    }

    /// Holds what was read back to what was to be written, and to the file as it is now.
    fn compare(
        &self,
        device: &Device,
        is_right: impl FnOnce(&mut Window, &Device) -> Result<bool, Failure>,
    ) -> Result<Way, Failure> {
        let (mut window, mut way) = read_back(device, self.out)?;
        if !window.bytes().starts_with(&self.head) || !is_right(&mut window, device)? {
            return Err(self.differs(device));
        }
        let mut back = Vec::new();
        self.each_piece("comparing", |at, piece| {
            self.goes_on(device)?;
            back.resize(piece.len(), 0);
            way = way.max(device.read_back(at, &mut back).map_err(|error| not_made(device, "read back", &error))?);
            if back == piece { Ok(()) } else { Err(self.differs(device)) }
        })?;
        if self.is_as_it_was()? { Ok(way) } else { Err(self.differs(device)) }
    }

    /// Whether what was made opens and shows every slot as the file does, but for what these change.
    pub fn shows_the_same(&self, made: &[u8], sizes: impl Fn(Sizes) -> Sizes, entry: impl Fn(Entry) -> Entry) -> bool {
        let file = self.lent.bytes();
        let (Ok(before), Ok(after), Ok(scans)) = (sdd::open(file), sdd::open(made), sdd::list(file)) else {
            return false;
        };
        let mut progress = Progress::of_things(self.out, "comparing slot", scans.len());
        after == sizes(before)
            && sdd::list(made).as_ref() == Ok(&scans)
            && scans.iter().all(|scan| {
                let slot = u64::from(scan.slot);
                progress.went_on(1);
                sdd::entry(made, slot) == sdd::entry(file, slot).map(&entry)
            })
    }

    /// Whether the file has the length and the records 1 to N with which this began. The lock does not bind every program.
    fn is_as_it_was(&self) -> Result<bool, Failure> {
        let device = &self.lent.device;
        let mut head = vec![0; self.head.len()];
        let len = device.read(0, &mut head).and_then(|()| device.len());
        let len = len.map_err(|error| cannot_be_read(device, &error))?;
        Ok(len == self.lent.window.len() && self.lent.bytes().starts_with(&head))
    }

    /// What was made is not what was to be made.
    fn differs(&self, device: &Device) -> Failure {
        let (name, file, again) = (shown::name(device.path()), shown::name(self.lent.device.path()), self.again);
        let what = format!("what was read back is not what was written, or {file} was changed meanwhile");
        Failure::Io(format!("{name}: {what}; nothing of it is left: check the device, and {again} {file} again"))
    }

    /// Stops the work after a Ctrl-C.
    fn goes_on(&self, device: &Device) -> Result<(), Failure> {
        if !interrupt::noted() {
            return Ok(());
        }
        let interrupted = Failure::Interrupted(device.path().to_path_buf());
        Err(Failure::Dropped(Box::new(interrupted), "nothing of it is left".to_string()))
    }
}

/// Fills with zeros what a piece, which stands at this place, has of these parts.
fn empty(parts: &[Span], at: usize, piece: &mut [u8]) {
    let end = at + piece.len();
    let first = parts.partition_point(|part| part.end <= at);
    for part in parts[first..].iter().take_while(|part| part.start < end) {
        piece[part.start.max(at) - at..part.end.min(end) - at].fill(0);
    }
}

/// A new file that is not whole does not stay.
fn not_made(device: &Device, what: &str, error: &io::Error) -> Failure {
    let name = shown::name(device.path());
    Failure::Io(format!("{name}: it could not be {what}, and nothing of it is left: {error}"))
}

/// How many scans came along, in words.
pub fn scans_in_words(scans: usize) -> String {
    if scans == 1 { "1 scan".to_string() } else { format!("{scans} scans") }
}

/// Says what was done. Where nobody reads that, the file is made all the same.
pub fn say(
    out: &Out,
    path: &Path,
    done: &str,
    text: impl FnOnce() -> String,
    json: impl FnOnce() -> Json,
) -> Result<(), Failure> {
    match out.answer(text, json) {
        Err(Failure::Io(why)) => {
            Err(Failure::Io(format!("{} is {done} and was compared, but {why}", shown::name(path))))
        }
        _ => Ok(()),
    }
}

#[cfg(test)]
mod tests {
    use super::empty;

    #[test]
    fn parts_are_emptied_wherever_the_pieces_end() {
        let parts = [2..5, 7..8, 12..20];
        let mut wanted = [1; 24];
        for part in &parts {
            wanted[part.clone()].fill(0);
        }
        for len in 1..=24 {
            let mut whole = [1; 24];
            for (i, piece) in whole.chunks_mut(len).enumerate() {
                empty(&parts, i * len, piece);
            }
            assert_eq!(whole, wanted, "pieces of {len}");
        }
        let mut piece = [1; 4];
        empty(&[], 3, &mut piece);
        assert_eq!(piece, [1; 4]);
    }
}
