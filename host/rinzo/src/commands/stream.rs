//! `rinzo check -`: the verdict on standard input as it comes, of which no more is held than a piece.

use super::form;
use crate::file::incoming::Incoming;
use crate::say::failure::Failure;
use crate::say::json::Json;
use crate::say::out::Out;
use crate::say::progress::Progress;
use crate::say::refused::Refused;
use crate::say::shown::is_input;
use crate::words::args::Args;
use sdd::{Link, Refusal, Sizes};
use std::path::Path;

/// Whether the words of `check` go together, as far as standard input is concerned.
pub fn words(args: &Args) -> Result<(), Failure> {
    let named = args.paths().filter(|path| is_input(path)).count();
    match named {
        0 if args.has("length") => args.wrong("--length is that of standard input, and - is not among the files"),
        0 => Ok(()),
        1 if args.has("scans") => args.wrong(
            "the scans of standard input are passed over as they come: save it to a file, and check that with --scans",
        ),
        1 => Ok(()),
        _ => args.wrong("- is given twice, and standard input comes once"),
    }
}

/// What came, beside what was to come.
struct Came {
    bytes: u64,
    length: u64,
    /// The length was given, and not taken from the file.
    is_given: bool,
}

pub fn check(path: &Path, args: &Args, out: &Out) -> Result<(), Failure> {
    let given = args.count("length")?;
    let mut incoming = Incoming::open()?;
    let Some(length) = given.or_else(|| incoming.length()) else {
        return args.wrong(
            "standard input is no plain file, so that its length is not known before its bytes: give it with --length N",
        );
    };
    let mut link = Link::begin(length);
    let mut progress = Progress::of_bytes(out, "received");
    // to the end, also where the verdict is certain: whoever writes is not to be cut off
    let bytes = incoming.pieces(|piece| {
        link.take(piece);
        progress.went_on(piece.len() as u64);
    })?;
    drop(progress);
    let came = Came { bytes, length, is_given: given.is_some() };
    match link.finish() {
        Ok(sizes) => out.answer(|| text(&sizes, &came), || json(path, &sizes, &came)),
        Err(why) => Err(came.refused(path, why).into()),
    }
}

impl Came {
    /// What is to be said where more or less came than was to.
    fn difference(&self) -> Option<String> {
        let Came { bytes, length, .. } = *self;
        match bytes.abs_diff(length) {
            0 => None,
            less if bytes < length => Some(format!("{bytes} bytes came, {less} fewer than its length of {length}")),
            more => Some(format!("{bytes} bytes came, {more} more than its length of {length}")),
        }
    }

    /// A refusal, with what is known here beyond its number.
    fn refused(&self, path: &Path, why: Refusal) -> Refused {
        let refused = Refused::of_input(path, why);
        match why {
            Refusal::NotAllCame => refused.because(format!(
                "{} of {} bytes came, which is too little of the file to judge it: send it again from its first byte on",
                self.bytes, self.length
            )),
            Refusal::CutShort if self.is_given => refused
                .because(format!(
                    "--length says {} bytes, and its first record speaks of more: give its whole length, or where that is all there is, copy it again from its source",
                    self.length
                ))
                .beside(self.difference()),
            _ => refused.beside(self.difference()),
        }
    }
}

/// What was not looked at.
const NOT_LOOKED_AT: &str =
    "scans were not counted or read, and records of no scan not looked into: for that, check a file";

fn text(z: &Sizes, came: &Came) -> String {
    let what_came = match came.difference() {
        None => format!("all {} bytes came", came.bytes),
        Some(told) if came.bytes < came.length => format!("{told}: what is missing is no part of the index"),
        Some(told) => format!("{told}: these were not looked at"),
    };
    format!(
        "the index is good: {} slots; {NOT_LOOKED_AT}\n{}\n{} records in all; {what_came}",
        z.capacity,
        form::sizes(z),
        z.room
    )
}

/// The fields that `check` has of a file; of those that the verdict does not tell, `null`.
fn json(path: &Path, z: &Sizes, came: &Came) -> Json {
    let null = |name| (name, Json::Plain("null".to_string()));
    let mut fields = vec![("file", Json::path(path)), form::field(z.form)];
    fields.extend(form::numbers(z));
    fields.extend(["in-use", "free", "longest-free", "scans", "highest"].map(null));
    fields.push(("bytes", Json::number(came.length)));
    fields.extend(["gaps-zero", "records-not-zero", "broken", "not-version-one"].map(null));
    fields.push(("came", Json::number(came.bytes)));
    Json::Object(fields)
}
