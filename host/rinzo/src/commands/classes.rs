//! `rinzo classes`: the parts of a slot's scan.

use super::form;
use crate::file::lent::Lent;
use crate::say::failure::Failure;
use crate::say::json::Json;
use crate::say::out::Out;
use crate::words::args::Args;
use sdd::{Form, Span};

pub fn run(args: &Args, out: &Out) -> Result<(), Failure> {
    let slot = args.slot(1)?;
    let mut lent = Lent::to_read(args.path(0), out)?;
    let span = lent.scan_of(slot)?.map_err(|why| lent.refused(why, Some(slot)))?;
    lent.look_into(span.clone())?;
    let scan = &lent.bytes()[span];
    let refused = |why| lent.refused(why, Some(slot));
    let (classes, data) = (sdd::classes(scan).map_err(refused)?, sdd::data(scan).map_err(refused)?);
    let form = lent.sizes()?.form;
    out.answer(|| text(form, &classes, &data), || json(form, &classes, &data))
}

fn text(form: Form, classes: &[Span], data: &Span) -> String {
    let row = |name: String, span: &Span| format!("{name:<9}{:>7}{:>7}{:>7}", span.start, span.end, span.len());
    let corner = if form == Form::Old { "old form" } else { "" };
    let mut rows = vec![format!("{corner:<9}{:>7}{:>7}{:>7}", "from", "to", "bytes")];
    rows.extend((1..).zip(classes).map(|(number, span)| row(format!("class {number}"), span)));
    rows.push(row("data".to_string(), data));
    rows.join("\n")
}

fn span_json(span: &Span) -> Json {
    Json::Object(vec![("from", Json::number(span.start as u64)), ("to", Json::number(span.end as u64))])
}

fn json(form: Form, classes: &[Span], data: &Span) -> Json {
    let classes = Json::List(classes.iter().map(span_json).collect());
    Json::Object(vec![form::field(form), ("classes", classes), ("data", span_json(data))])
}
