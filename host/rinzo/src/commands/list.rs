//! `rinzo list`: the scans of a file, as the lister prints them; of an old file the first line says so.

use super::each::each;
use super::form;
use crate::file::lent::Lent;
use crate::say::failure::Failure;
use crate::say::json::Json;
use crate::say::out::Out;
use crate::say::progress::Progress;
use crate::say::shown;
use crate::words::args::Args;
use sdd::{Entry, Kind, Listed, Refusal, Sizes};
use std::path::Path;

pub fn run(args: &Args, out: &Out) -> Result<(), Failure> {
    each(args, out, |path| list(path, args.has("long"), out))
}

/// Lists a file.
pub fn list(path: &Path, long: bool, out: &Out) -> Result<(), Failure> {
    let mut lent = Lent::to_read(path, out)?;
    let (sizes, scans) = (lent.sizes()?, lent.scans()?);
    let mut progress = Progress::of_things(out, "looking into scan", if long { scans.len() } else { 0 });
    let mut rows = Vec::new();
    for scan in scans {
        let seen = if long { Some(look_into(&mut lent, &scan, sizes.l)?) } else { None };
        rows.push((scan, seen));
        progress.went_on(1);
    }
    drop(progress);
    out.answer(|| text(&sizes, &rows), || json(path, &sizes, &rows))
}

/// A scan, and for a long list what was seen of it.
type Row = (Listed, Option<Seen>);

/// An entry, and how many bytes its scan has or why it cannot be read.
type Seen = (Entry, Result<usize, Refusal>);

fn look_into(lent: &mut Lent, scan: &Listed, l: u64) -> Result<Seen, Failure> {
    let entry = lent.entry(u64::from(scan.slot))?;
    let bytes = lent.glance(scan, l)?.map(|span| span.len());
    Ok((entry, bytes))
}

/// The name of an entry's kind.
pub fn kind_name(kind: &Kind) -> &'static str {
    match kind {
        Kind::SpectralLine { .. } => "spectral-line",
        Kind::Continuum { .. } => "continuum",
        Kind::Other { .. } => "other",
    }
}

fn text(sizes: &Sizes, rows: &[Row]) -> String {
    let head = format!("slots {} used {} scans {}", sizes.capacity, sizes.u, rows.len());
    let mut text = form::marked(head, sizes.form);
    for (scan, seen) in rows {
        text += &format!("\n{} {} {}", scan.slot, scan.first, scan.last);
        if let Some((entry, bytes)) = seen {
            let bytes = match bytes {
                Ok(bytes) => format!("{bytes} bytes"),
                Err(Refusal::NotVersionOne) => format!("magic {}, not read", entry.magic),
                Err(_) => "unreadable".to_string(),
            };
            text += &format!("  {bytes}  {}  {}", kind_name(&entry.kind), shown::source(&entry.source));
        }
    }
    text
}

fn json(path: &Path, sizes: &Sizes, rows: &[Row]) -> Json {
    let scans = rows.iter().map(|(scan, seen)| {
        let mut fields = vec![
            ("slot", Json::number(scan.slot)),
            ("first", Json::number(scan.first)),
            ("last", Json::number(scan.last)),
        ];
        if let Some((entry, bytes)) = seen {
            let bytes = bytes.map_or(Json::Plain("null".to_string()), |bytes| Json::number(bytes as u64));
            fields.extend([("bytes", bytes), form::magic_field(entry, sizes.form)]);
            fields.push(("kind", Json::text(kind_name(&entry.kind))));
            fields.extend(Json::source(&entry.source));
        }
        Json::Object(fields)
    });
    Json::Object(vec![
        ("file", Json::path(path)),
        form::field(sizes.form),
        ("slots", Json::number(sizes.capacity)),
        ("used", Json::number(sizes.u)),
        ("scans", Json::List(scans.collect())),
    ])
}
