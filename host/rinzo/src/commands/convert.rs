//! `rinzo convert`: a second file in the other form.

use super::second::{Second, say, scans_in_words};
use super::{cause, form};
use crate::file::beside::Beside;
use crate::file::device::Way;
use crate::file::lent::Lent;
use crate::job::interrupt;
use crate::say::failure::Failure;
use crate::say::json::Json;
use crate::say::out::Out;
use crate::say::refused::Refused;
use crate::say::shown;
use crate::words::args::Args;
use crate::words::table::FORMS;
use sdd::{Entry, Form, Refusal, Sizes};
use std::path::{Path, PathBuf};

pub fn run(args: &Args, out: &Out) -> Result<(), Failure> {
    let Some(to) = args.read("to", &FORMS.join(" or "), form::of)? else {
        return args.wrong("--to is missing: give --to old or --to current");
    };
    let path = match args.value("out").map(Path::new) {
        Some(path) if path.file_name().is_some() => path,
        _ => return args.wrong("--out is missing: give --out and the name of a new file"),
    };
    // locked as long as it is read: no job gets in between
    let lent = Lent::to_read(args.path(0), out)?;
    let head = converted(&lent, to)?;
    interrupt::watch();
    let beside = Beside::new(path, &lent.device, args.has("force"))?;
    let (sizes, scans) = (lent.sizes()?, lent.scans()?.len());
    let (file, bytes) = (lent.device.path().to_path_buf(), lent.window.len());
    let second = Second { lent, head, zeros: Vec::new(), doing: "converting", again: "convert", out };
    // the same sizes but the form, the same list, and the same entries but for the magic number
    let magic = if to == Form::Old { form::VERSION_ONE } else { 0 };
    let way = second.make(beside, |window, _| {
        let sizes = |sizes| Sizes { form: to, ..sizes };
        Ok(second.shows_the_same(window.bytes(), sizes, |entry| Entry { magic, ..entry }))
    })?;
    told(path, &Made { file, from: sizes.form, to, scans, bytes, way }, out)
}

/// Records 1 to N in the other form.
fn converted(lent: &Lent, to: Form) -> Result<Vec<u8>, Failure> {
    let sizes = lent.sizes()?;
    let mut head = vec![0; (sizes.n * sizes.l) as usize];
    let call = match to {
        Form::Old => sdd::to_old,
        Form::Current => sdd::to_current,
    };
    match call(lent.bytes(), &mut head) {
        Ok(()) => Ok(head),
        Err(why @ Refusal::NotConvertible) => {
            let refused = Refused::of(lent.device.path(), why);
            Err(match cause::of(lent, to)? {
                Some(cause) => refused.at(cause.slot).because(cause.sentence).into(),
                None => refused.into(),
            })
        }
        Err(why) => Err(lent.refused(why, None)),
    }
}

/// What was made.
struct Made {
    file: PathBuf,
    from: Form,
    to: Form,
    scans: usize,
    bytes: u64,
    way: Way,
}

fn told(path: &Path, made: &Made, out: &Out) -> Result<(), Failure> {
    let (from, to) = (form::name(made.from), form::name(made.to));
    let text = || {
        let (scans, bytes, name) = (scans_in_words(made.scans), made.bytes, shown::name(path));
        format!("converted: {from} to {to} form, {scans}, {bytes} bytes written to {name}, {}", made.way.sentence())
    };
    let json = || {
        Json::Object(vec![
            ("event", Json::text("converted")),
            ("file", Json::path(&made.file)),
            ("from", Json::text(from)),
            ("to", Json::text(to)),
            ("written", Json::path(path)),
            ("scans", Json::number(made.scans as u64)),
            ("bytes", Json::number(made.bytes)),
            ("read-back", Json::text(made.way.name())),
        ])
    };
    say(out, path, "converted", text, json)
}
