//! `rinzo find`: the scans that the data records show, for a file whose index is lost; with `--out` each in a file of its
//! own.

use super::bytes::fill;
use super::form;
use crate::file::device::Device;
use crate::file::finds::scan_part;
use crate::file::lent::Lent;
use crate::file::open::sync_folder_of;
use crate::say::failure::Failure;
use crate::say::json::Json;
use crate::say::out::Out;
use crate::say::progress::Progress;
use crate::say::shown;
use crate::words::args::Args;
use sdd::{Find, Real8, Sizes, Span};
use std::fs::{self, OpenOptions};
use std::io::ErrorKind;
use std::path::{Path, PathBuf};

pub fn run(args: &Args, out: &Out) -> Result<(), Failure> {
    let path = args.path(0);
    let mut lent = Lent::without_index(path, out)?;
    let sizes = lent.sizes()?;
    let folder = args.value("out").map(Path::new);
    let mut rows = Vec::new();
    for find in lent.finds(out)? {
        let part = scan_part(lent.bytes(), &find, sizes.l).map_err(|why| lent.refused(why, None))?;
        rows.push(Row { find, part, written: folder.map(|folder| folder.join(format!("{}.scan", find.first))) });
    }
    if let Some(folder) = folder {
        write_all(&lent.device, folder, &rows, out)?;
    }
    let told = Told { path, folder, sizes, rows };
    out.answer(|| told.text(), || told.json())
}

/// A scan that was found, where its bytes are, and the file that they were written to.
struct Row {
    find: Find,
    part: Span,
    written: Option<PathBuf>,
}

/// Writes each scan to its file. All of them are new: where one is there nothing is written.
fn write_all(device: &Device, folder: &Path, rows: &[Row], out: &Out) -> Result<(), Failure> {
    let files = || rows.iter().filter_map(|row| Some((row.written.as_ref()?, &row.part)));
    if let Some((there, _)) = files().find(|(file, _)| file.symlink_metadata().is_ok()) {
        return Err(exists(there));
    }
    let Some((last, _)) = files().last() else { return Ok(()) };
    make_folder(folder)?;
    let mut progress = Progress::of_things(out, "writing scan", rows.len());
    for (file, part) in files() {
        let made = OpenOptions::new().write(true).create_new(true).open(file).map_err(|error| match error.kind() {
            ErrorKind::AlreadyExists => exists(file),
            _ => Failure::of(file, &error),
        })?;
        fill(made, file, device, part, out)?;
        progress.went_on(1);
    }
    sync_folder_of(last)
}

fn exists(file: &Path) -> Failure {
    Failure::Exists(format!("{} is there already: give another folder", shown::name(file)))
}

/// Makes the folder where it is not there; what is in it stays.
fn make_folder(folder: &Path) -> Result<(), Failure> {
    match fs::create_dir(folder) {
        Ok(()) => sync_folder_of(folder),
        Err(_) if folder.is_dir() => Ok(()),
        Err(error) if error.kind() == ErrorKind::AlreadyExists => {
            Err(Failure::Exists(format!("{} is a file: give the name of a folder", shown::name(folder))))
        }
        Err(error) => Err(Failure::of(folder, &error)),
    }
}

/// What there is to say.
struct Told<'a> {
    path: &'a Path,
    folder: Option<&'a Path>,
    sizes: Sizes,
    rows: Vec<Row>,
}

impl Told<'_> {
    fn text(&self) -> String {
        let lines: String = self.rows.iter().map(|row| row.text() + "\n").collect();
        lines + &form::marked(self.summary(), self.sizes.form) + &self.remedy()
    }

    /// How many, and where they were looked for.
    fn summary(&self) -> String {
        let Sizes { n, d, .. } = self.sizes;
        let found = match self.rows.len() {
            0 => "no scan found".to_string(),
            1 => "1 scan found".to_string(),
            found => format!("{found} scans found"),
        };
        match d {
            0 => format!("{found}: record 1 says that the file has no data records"),
            _ => format!("{found} in records {} to {}", n + 1, n + d),
        }
    }

    /// What to do next.
    fn remedy(&self) -> String {
        let file = shown::name(self.path);
        match (&self.rows[..], self.folder) {
            ([], _) => "; if it had scans, take it from a backup".to_string(),
            (_, None) => format!(
                "; `rinzo find {file} --out DIR` writes each to a file, which `rinzo keep NEW SCAN` puts into another SDD file"
            ),
            ([row, ..], Some(_)) => {
                let scan = row.written.as_deref().map_or_else(String::new, shown::name);
                format!("; `rinzo blank NEW` makes an SDD file, and `rinzo keep NEW {scan}` puts the first into it")
            }
        }
    }

    fn json(&self) -> Json {
        Json::Object(vec![
            ("file", Json::path(self.path)),
            form::field(self.sizes.form),
            ("from", Json::number(self.sizes.n + 1)),
            ("to", Json::number(self.sizes.n + self.sizes.d)),
            ("found", Json::number(self.rows.len() as u64)),
            ("finds", Json::List(self.rows.iter().map(Row::json).collect())),
        ])
    }
}

impl Row {
    fn records(&self) -> u64 {
        self.find.last - self.find.first + 1
    }

    fn text(&self) -> String {
        let Find { first, last, scan } = self.find;
        let records = if first == last { "record" } else { "records" };
        let (count, bytes, scan) = (self.records(), self.part.len(), in_words(scan));
        let written = self.written.as_deref().map_or_else(String::new, |file| format!("  {}", shown::name(file)));
        format!("{first} {last}  {count} {records}  {bytes} bytes  scan {scan}{written}")
    }

    fn json(&self) -> Json {
        let Find { first, last, scan } = self.find;
        let mut fields = vec![
            ("first", Json::number(first)),
            ("last", Json::number(last)),
            ("records", Json::number(self.records())),
            ("bytes", Json::number(self.part.len() as u64)),
            ("scan-number", Json::float(format!("{:016x}", scan.bits()), scan.value())),
        ];
        fields.extend(self.written.as_deref().map(|file| ("written", Json::path(file))));
        Json::Object(fields)
    }
}

/// A scan's number as a person reads it: 1234, 1234.01. It has the fewest digits that give the same Real*8, and a power of ten
/// only where they would be very many.
fn in_words(scan: Real8) -> String {
    match scan.value() {
        value if value.is_nan() => format!("not a number (bits {:016x})", scan.bits()),
        f64::INFINITY => "infinity".to_string(),
        f64::NEG_INFINITY => "minus infinity".to_string(),
        value if value == 0.0 || (1e-5..1e16).contains(&value.abs()) => format!("{value}"),
        value => format!("{value:e}"),
    }
}

#[cfg(test)]
mod tests {
    use super::in_words;
    use sdd::Real8;

    #[test]
    fn numbers_are_read_by_people() {
        let said = |value: f64| in_words(Real8::from_bits(value.to_bits()));
        assert_eq!(
            [1234.0, 1234.01, 0.0, -0.0, -7.5, 1e15].map(said),
            ["1234", "1234.01", "0", "-0", "-7.5", "1000000000000000"]
        );
        assert_eq!(
            [1e16, -1e300, 1.5e-6, f64::MIN_POSITIVE / 4.0].map(said),
            ["1e16", "-1e300", "1.5e-6", "5.562684646268003e-309"]
        );
        assert_eq!([f64::INFINITY, f64::NEG_INFINITY].map(said), ["infinity", "minus infinity"]);
        assert_eq!(in_words(Real8::from_bits(0x7ff8_0000_0000_0001)), "not a number (bits 7ff8000000000001)");
    }
}
