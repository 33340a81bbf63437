//! `rinzo sweep`: a second file without what is left in the records of no scan. Nothing but saves, keeps and clears writes
//! to a file, so it is never done in place.

use super::form;
use super::second::{Second, say, scans_in_words};
use crate::file::beside::Beside;
use crate::file::device::{Device, Way};
use crate::file::gaps;
use crate::file::lent::{Lent, cannot_be_read};
use crate::file::window::Window;
use crate::job::interrupt;
use crate::say::failure::Failure;
use crate::say::json::Json;
use crate::say::out::Out;
use crate::say::shown;
use crate::words::args::Args;
use sdd::Form;
use std::path::{Path, PathBuf};

pub fn run(args: &Args, out: &Out) -> Result<(), Failure> {
    let path = args.path(1);
    if path.file_name().is_none() {
        return args.wrong("NEW is the name of a new file");
    }
    // locked as long as it is read: no job gets in between
    let mut lent = Lent::to_read(args.path(0), out)?;
    let (sizes, scans, left) = (lent.sizes()?, lent.scans()?, lent.gaps(out)?.not_zero);
    let (file, bytes) = (lent.device.path().to_path_buf(), lent.window.len());
    interrupt::watch();
    let beside = Beside::new(path, &lent.device, args.has("force"))?;
    let head = lent.bytes()[..(sizes.n * sizes.l) as usize].to_vec();
    let mut zeros = gaps::parts(&sizes, &scans);
    // past the data section is no gap, but a save that was cut before its record 1 has left its scan there
    zeros.push(((sizes.n + sizes.d) * sizes.l) as usize..bytes as usize);
    let second = Second { lent, head, zeros, doing: "sweeping", again: "sweep", out };
    let way = second.make(beside, |window, device| is_right(&second, window, device))?;
    told(path, &Swept { file, form: sizes.form, left, scans: scans.len(), bytes, way }, out)
}

/// Whether the new file opens with the same sizes and shows the same in every slot, and has nothing but zeros in the records
/// of no scan.
fn is_right(second: &Second, window: &mut Window, device: &Device) -> Result<bool, Failure> {
    if !second.shows_the_same(window.bytes(), |sizes| sizes, |entry| entry) {
        return Ok(false);
    }
    let looked = gaps::look(window, &mut |at, into| device.read_back(at, into).map(|_| ()));
    let looked = looked.map_err(|error| cannot_be_read(device, &error))?;
    Ok(looked.is_ok_and(|gaps| gaps.zero))
}

/// What was done.
struct Swept {
    file: PathBuf,
    form: Form,
    /// Records of no scan that were not zeros.
    left: u64,
    scans: usize,
    bytes: u64,
    way: Way,
}

fn told(path: &Path, swept: &Swept, out: &Out) -> Result<(), Failure> {
    let Swept { file, form, left, scans, bytes, way } = swept;
    let text = || {
        let left = match left {
            0 => "nothing was left in records of no scan".to_string(),
            1 => "what was left in 1 record of no scan is zeros".to_string(),
            _ => format!("what was left in {left} records of no scan is zeros"),
        };
        let (scans, name) = (scans_in_words(*scans), shown::name(path));
        format!("swept: {left}, {scans}, {bytes} bytes written to {name}, {}", way.sentence())
    };
    let json = || {
        Json::Object(vec![
            ("event", Json::text("swept")),
            ("file", Json::path(file)),
            form::field(*form),
            ("written", Json::path(path)),
            ("records-zeroed", Json::number(*left)),
            ("scans", Json::number(*scans as u64)),
            ("bytes", Json::number(*bytes)),
            ("read-back", Json::text(way.name())),
        ])
    };
    say(out, path, "swept", text, json)
}
