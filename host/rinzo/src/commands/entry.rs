//! `rinzo entry`: the index entry of a slot.

use super::form;
use super::list::kind_name;
use crate::file::lent::Lent;
use crate::say::failure::Failure;
use crate::say::json::Json;
use crate::say::out::Out;
use crate::say::shown;
use crate::words::args::Args;
use sdd::{Entry, Form, Kind, Real4, Real8};

pub fn run(args: &Args, out: &Out) -> Result<(), Failure> {
    let slot = args.slot(1)?;
    let lent = Lent::to_read(args.path(0), out)?;
    let (entry, form) = (lent.entry(slot)?, lent.sizes()?.form);
    out.answer(|| text(slot, &entry, form), || json(slot, &entry, form))
}

/// The names of the two fields that go by the kind, and what they hold.
fn measured(entry: &Entry) -> [(&'static str, Json, String); 2] {
    let (names, single, double) = match entry.kind {
        Kind::SpectralLine { resolution, rest_frequency } => {
            (["resolution", "rest-frequency"], resolution, rest_frequency)
        }
        Kind::Continuum { slew_rate, integration_time } => {
            (["slew-rate", "integration-time"], slew_rate, integration_time)
        }
        Kind::Other { single, double } => (["bytes-36-39", "bytes-40-47"], single, double),
    };
    [(names[0], json4(single), text4(single)), (names[1], json8(double), text8(double))]
}

fn text4(real: Real4) -> String {
    let value = real.value();
    if value.is_nan() { format!("NaN (bits {:08x})", real.bits()) } else { format!("{value:?}") }
}

fn text8(real: Real8) -> String {
    let value = real.value();
    if value.is_nan() { format!("NaN (bits {:016x})", real.bits()) } else { format!("{value:?}") }
}

/// The value as written in the shortest way that gives the same Real*4.
fn json4(real: Real4) -> Json {
    let value = format!("{:?}", real.value()).parse().unwrap_or(f64::NAN);
    Json::float(format!("{:08x}", real.bits()), value)
}

fn json8(real: Real8) -> Json {
    Json::float(format!("{:016x}", real.bits()), real.value())
}

fn text(slot: u64, e: &Entry, form: Form) -> String {
    let [single, double] = measured(e);
    let mut rows = vec![
        ("slot", slot.to_string()),
        ("form", form::name(form).to_string()),
        ("records", format!("{} to {}", e.first, e.last)),
        ("kind", format!("{} (mode {})", kind_name(&e.kind), e.mode)),
        ("source", shown::source(&e.source)),
        ("scan-number", text4(e.scan)),
        ("horizontal", text4(e.horizontal)),
        ("vertical", text4(e.vertical)),
        (single.0, single.2),
        (double.0, double.2),
        ("lst", text4(e.lst)),
        ("date", text4(e.date)),
        ("number", e.number.to_string()),
        ("position", e.position.to_string()),
    ];
    if form == Form::Old {
        rows.push(("magic", form::magic(e.magic)));
    }
    let lines: Vec<String> =
        rows.iter().map(|(name, value)| format!("{name:<17}{value}").trim_end().to_string()).collect();
    lines.join("\n")
}

fn json(slot: u64, e: &Entry, form: Form) -> Json {
    let ([single, double], [source, source_bytes]) = (measured(e), Json::source(&e.source));
    Json::Object(vec![
        ("slot", Json::number(slot)),
        form::field(form),
        ("first", Json::number(e.first)),
        ("last", Json::number(e.last)),
        ("kind", Json::text(kind_name(&e.kind))),
        ("mode", Json::number(e.mode)),
        source,
        source_bytes,
        ("scan-number", json4(e.scan)),
        ("horizontal", json4(e.horizontal)),
        ("vertical", json4(e.vertical)),
        (single.0, single.1),
        (double.0, double.1),
        ("lst", json4(e.lst)),
        ("date", json4(e.date)),
        ("number", Json::number(e.number)),
        ("position", Json::number(e.position)),
        form::magic_field(e, form),
    ])
}
