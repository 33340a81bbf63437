//! `rinzo demo`: a whole wash job on a fresh file.

use super::blank::{Wanted, blank};
use super::change::{Given, keep_in, save_to};
use super::list::list;
use crate::file::sector;
use crate::say::failure::Failure;
use crate::say::out::Out;
use crate::say::shown;
use crate::words::args::Args;
use sdd::About;
use std::path::{Path, PathBuf};

/// A file that is removed at the end, unless it was asked for.
struct Place {
    path: PathBuf,
    stays: bool,
}

impl Drop for Place {
    fn drop(&mut self) {
        if !self.stays {
            let _ = std::fs::remove_file(&self.path);
        }
    }
}

pub fn run(args: &Args, out: &Out) -> Result<(), Failure> {
    let place = match args.word(0) {
        Some(path) => Place { path: PathBuf::from(path), stays: true },
        None => {
            Place { path: std::env::temp_dir().join(format!("rinzo-demo-{}.sdd", std::process::id())), stays: false }
        }
    };
    wash_job(&place.path, out)
}

fn wash_job(path: &Path, out: &Out) -> Result<(), Failure> {
    if std::fs::metadata(path).is_ok_and(|about| about.len() > 0) {
        let name = shown::name(path);
        return Err(Failure::Exists(format!(
            "{name} is there already, and demo works on a new file: give another name"
        )));
    }
    heading(out, &format!("a blank file, {}", shown::name(path)));
    blank(path, &Wanted { n: 3, l: 512, m: 64, room: 64, force: false, sector: sector::of(path) }, out)?;
    heading(out, "the before scan, kept in the lowest empty slot");
    keep_in(path, &given(400, b"BOOM 7 BEFORE   ", 1.0), false, out)?;
    heading(out, "the after scan, saved to slot 2");
    save_to(path, 2, &given(300, b"BOOM 7 AFTER    ", 2.0), false, out)?;
    heading(out, "the list: slot, first and last record");
    list(path, true, out)
}

fn heading(out: &Out, text: &str) {
    if !out.json {
        let _ = out.lines(&format!("\n{text}"));
    }
}

/// A scan of so many readings: a wave that dies away.
fn wave(readings: usize) -> Vec<u8> {
    let mut scan = sample::scan(sample::HEAD + 4 * readings, 0);
    for (i, place) in scan[sample::HEAD..].chunks_exact_mut(4).enumerate() {
        let reading = (i as f32 / 7.0).sin() * (-(i as f32) / 100.0).exp();
        place.copy_from_slice(&reading.to_be_bytes());
    }
    scan
}

/// A continuum scan of so many readings, with its source and number.
fn given(readings: usize, source: &[u8; 16], number: f32) -> Given<'static> {
    let about = About { source: *source, scan: number.into(), mode: 256, ..About::default() };
    Given { path: Path::new("the demonstration's scan"), bytes: wave(readings), about }
}
