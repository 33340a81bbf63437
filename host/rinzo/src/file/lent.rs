//! A file as it is lent to the library: a device, and the window on it.

use super::device::{Device, Way};
use super::finds;
use super::gaps::{self, Gaps};
use super::open;
use super::window::Window;
use crate::say::failure::Failure;
use crate::say::out::Out;
use crate::say::progress::Progress;
use crate::say::refused::Refused;
use crate::say::shown;
use sdd::{Entry, Find, Listed, Refusal, Sizes, Span};
use std::io;
use std::path::Path;

/// A device, and what was read of it.
pub struct Lent {
    pub device: Device,
    pub window: Window,
}

impl Lent {
    /// A file that is only looked at, with records 1 to N read in.
    pub fn to_read(path: &Path, out: &Out) -> Result<Lent, Failure> {
        Lent::on(open::to_read(path, out)?)
    }

    /// A file for a job, which has it alone as long as this lives.
    pub fn to_change(path: &Path) -> Result<Lent, Failure> {
        Lent::on(open::to_change(path)?)
    }

    /// A file that is looked at without its index, which reads as zeros.
    pub fn without_index(path: &Path, out: &Out) -> Result<Lent, Failure> {
        let device = open::to_read(path, out)?;
        let window = device.len().and_then(|len| Window::without_index(len, &mut |at, into| device.read(at, into)));
        let window = window.map_err(|error| cannot_be_read(&device, &error))?;
        Ok(Lent { device, window })
    }

    fn on(device: Device) -> Result<Lent, Failure> {
        let window = window(&device).map_err(|error| cannot_be_read(&device, &error))?;
        Ok(Lent { device, window })
    }

    /// What the library is lent.
    pub fn bytes(&self) -> &[u8] {
        self.window.bytes()
    }

    /// Reads a part of the file in.
    pub fn look_into(&mut self, part: Span) -> Result<(), Failure> {
        let device = &self.device;
        self.window.fill(part, &mut |at, into| device.read(at, into)).map_err(|error| cannot_be_read(device, &error))
    }

    /// The file's sizes: it is judged.
    pub fn sizes(&self) -> Result<Sizes, Failure> {
        sdd::open(self.bytes()).map_err(|why| self.refused(why, None))
    }

    /// Its scans, in slot order.
    pub fn scans(&self) -> Result<Vec<Listed>, Failure> {
        sdd::list(self.bytes()).map_err(|why| self.refused(why, None))
    }

    /// The index entry of a slot.
    pub fn entry(&self, slot: u64) -> Result<Entry, Failure> {
        sdd::entry(self.bytes(), slot).map_err(|why| self.refused(why, Some(slot)))
    }

    /// Where a slot's records are.
    pub fn shown(&self, slot: u64) -> Result<Span, Failure> {
        sdd::show(self.bytes(), slot).map_err(|why| self.refused(why, Some(slot)))
    }

    /// What its gaps hold: all of them are read.
    pub fn gaps(&mut self, out: &Out) -> Result<Gaps, Failure> {
        let (device, mut progress) = (&self.device, Progress::of_bytes(out, "looking into records of no scan"));
        let looked = gaps::look(&mut self.window, &mut |at, into| {
            progress.went_on(into.len() as u64);
            device.read(at, into)
        });
        let found = looked.map_err(|error| cannot_be_read(device, &error))?;
        found.map_err(|why| self.refused(why, None))
    }

    /// The scans that its data records show: all of them are read.
    pub fn finds(&mut self, out: &Out) -> Result<Vec<Find>, Failure> {
        let (device, mut progress) = (&self.device, Progress::of_bytes(out, "looking for scans"));
        let looked = finds::look(&mut self.window, &mut |at, into| {
            progress.went_on(into.len() as u64);
            device.read(at, into)
        });
        let found = looked.map_err(|error| cannot_be_read(device, &error))?;
        found.map_err(|why| self.refused(why, None))
    }

    /// A refusal of this file, or of this slot of it, with what there is to say of it.
    pub fn refused(&self, why: Refusal, slot: Option<u64>) -> Failure {
        let slots = sdd::open(self.bytes()).ok().map(|sizes| sizes.capacity);
        // to a look zeros are an old file with N 0, to a change an old file before all else
        let is_zeros = matches!(why, Refusal::OldForm | Refusal::BadBootstrap) && is_zeros(&self.device);
        Refused::of(self.device.path(), why).at(slot).among(slots).of_zeros(is_zeros).into()
    }

    /// Where a slot's scan is, which may be refused for the scan's own sake. Its first record is read in, which is all
    /// that the library looks at to judge it.
    pub fn scan_of(&mut self, slot: u64) -> Result<Result<Span, Refusal>, Failure> {
        let start = self.shown(slot)?.start;
        self.scan_at(slot, start)
    }

    /// The same for a slot whose records are known to start at this byte; its memory is given back.
    pub fn glance(&mut self, scan: &Listed, l: u64) -> Result<Result<Span, Refusal>, Failure> {
        let start = (scan.first as usize - 1) * l as usize;
        let found = self.scan_at(u64::from(scan.slot), start)?;
        self.window.forget(&(start..start + l as usize));
        Ok(found)
    }

    fn scan_at(&mut self, slot: u64, start: usize) -> Result<Result<Span, Refusal>, Failure> {
        self.look_into(start..start + self.window.record_len())?;
        Ok(sdd::read(self.bytes(), slot))
    }
}

fn window(device: &Device) -> io::Result<Window> {
    Window::new(device.len()?, &mut |at, into| device.read(at, into))
}

/// A new window, filled past the page cache: records 1 to N.
pub fn read_back(device: &Device, out: &Out) -> Result<(Window, Way), Failure> {
    let (mut way, mut progress) = (Way::Direct, Progress::of_bytes(out, "reading back"));
    let mut read = |at: u64, into: &mut [u8]| {
        way = way.max(device.read_back(at, into)?);
        progress.went_on(into.len() as u64);
        Ok(())
    };
    let len = device.len().map_err(|error| cannot_be_read(device, &error))?;
    let window = Window::new(len, &mut read).map_err(|error| cannot_be_read(device, &error))?;
    Ok((window, way))
}

/// A read that failed.
pub fn cannot_be_read(device: &Device, error: &io::Error) -> Failure {
    let why = match error.kind() {
        io::ErrorKind::UnexpectedEof => "it became shorter while it was read, something else works on it".to_string(),
        _ => error.to_string(),
    };
    Failure::Io(format!("{}: it cannot be read: {why}", shown::name(device.path())))
}

/// Whether the file has bytes and all of them are zeros.
fn is_zeros(device: &Device) -> bool {
    let mut piece = vec![0; 64 << 10];
    let Ok(len @ 1..) = device.len() else { return false };
    (0..len).step_by(piece.len()).all(|at| {
        let part = &mut piece[..(len - at).min(64 << 10) as usize];
        device.read(at, part).is_ok() && part.iter().all(|byte| *byte == 0)
    })
}
