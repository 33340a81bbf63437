//! `rinzo show` and `rinzo read`: bytes out of a file.

use super::form;
use crate::file::device::Device;
use crate::file::lent::Lent;
use crate::file::pieces::pieces;
use crate::say::failure::Failure;
use crate::say::json::Json;
use crate::say::out::Out;
use crate::say::progress::Progress;
use crate::say::shown;
use crate::words::args::Args;
use sdd::Span;
use std::fs::{File, OpenOptions};
use std::io::{ErrorKind, Write};
use std::os::unix::fs::MetadataExt;
use std::path::Path;

pub fn show(args: &Args, out: &Out) -> Result<(), Failure> {
    write_out(args, out, |lent, slot| lent.shown(slot))
}

pub fn read(args: &Args, out: &Out) -> Result<(), Failure> {
    write_out(args, out, |lent, slot| lent.scan_of(slot)?.map_err(|why| lent.refused(why, Some(slot))))
}

/// Finds a part of the file by the window, and hands it on from the file in pieces: it may be as long as the file.
fn write_out(args: &Args, out: &Out, part: fn(&mut Lent, u64) -> Result<Span, Failure>) -> Result<(), Failure> {
    let slot = args.slot(1)?;
    let to = args.value("out").map(Path::new);
    if to.is_none() && out.json {
        return args.wrong("the bytes themselves are no JSON: give --out FILE with --json");
    }
    if to.is_none() && out.is_terminal() {
        return args.wrong("the bytes would go to the screen: give --out FILE, or send them to a file or a program");
    }
    let mut lent = Lent::to_read(args.path(0), out)?;
    let span = part(&mut lent, slot)?;
    let Some(to) = to else {
        return pieces(&lent.device, &span, Progress::of_bytes(out, "written"), |_, bytes| out.bytes(bytes));
    };
    let form = lent.sizes()?.form;
    write_file(&lent.device, to, args.has("force"), &span, out)?;
    out.answer(
        || form::marked(format!("{} bytes written to {}", span.len(), shown::name(to)), form),
        || {
            Json::Object(vec![
                ("written", Json::path(to)),
                form::field(form),
                ("from", Json::number(span.start as u64)),
                ("to", Json::number(span.end as u64)),
            ])
        },
    )
}

/// Writes a new file; one that is there only by force, and never the SDD file itself.
fn write_file(device: &Device, to: &Path, force: bool, part: &Span, out: &Out) -> Result<(), Failure> {
    let made = match OpenOptions::new().write(true).create_new(true).open(to) {
        Ok(made) => made,
        Err(error) if error.kind() == ErrorKind::AlreadyExists && force => overwrite(device, to)?,
        Err(error) if error.kind() == ErrorKind::AlreadyExists => {
            return Err(Failure::Exists(format!(
                "{} is there already: give another name, or --force to overwrite it",
                shown::name(to)
            )));
        }
        Err(error) => return Err(Failure::of(to, &error)),
    };
    fill(made, to, device, part, out)
}

/// Fills a file that was made with a part of the SDD file; one that is not whole does not stay.
pub fn fill(mut made: File, to: &Path, device: &Device, part: &Span, out: &Out) -> Result<(), Failure> {
    let failed = |error| {
        Failure::Io(format!("{}: it could not be written, and nothing of it is left: {error}", shown::name(to)))
    };
    let progress = Progress::of_bytes(out, "written");
    let written = pieces(device, part, progress, |_, bytes| made.write_all(bytes).map_err(failed));
    let written = written.and_then(|()| made.sync_all().map_err(failed));
    if written.is_err() && made.metadata().is_ok_and(|about| about.is_file()) {
        // half a scan is no scan
        let _ = std::fs::remove_file(to);
    }
    written
}

fn overwrite(device: &Device, to: &Path) -> Result<File, Failure> {
    let failed = |error| Failure::of(to, &error);
    let file = OpenOptions::new().write(true).open(to).map_err(failed)?;
    let (one, two) = (file.metadata().map_err(failed)?, device.file().metadata().map_err(failed)?);
    if (one.dev(), one.ino()) == (two.dev(), two.ino()) {
        return Err(Failure::Exists(format!("{} is the SDD file itself: give another name", shown::name(to))));
    }
    if file.metadata().is_ok_and(|about| about.is_file()) {
        file.set_len(0).map_err(failed)?;
    }
    Ok(file)
}
