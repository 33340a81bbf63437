//! The form of a file and of its scans, and its sizes, for people and for programs.

use crate::say::json::Json;
use sdd::{Entry, Form, Sizes};

/// The magic number of a scan that is SDD version 1.
pub const VERSION_ONE: i16 = 2;

/// The form of this name.
pub fn of(word: &str) -> Option<Form> {
    [Form::Old, Form::Current].into_iter().find(|form| name(*form) == word)
}

/// One word for a form.
pub fn name(form: Form) -> &'static str {
    match form {
        Form::Old => "old",
        Form::Current => "current",
    }
}

/// A form as a field of an answer.
pub fn field(form: Form) -> (&'static str, Json) {
    ("form", Json::text(name(form)))
}

/// The sizes as a line.
pub fn sizes(z: &Sizes) -> String {
    let kind = if z.individual_records { "1 (individual records)" } else { "0 (data)" };
    let Sizes { n, d, l, m, u, counter, .. } = z;
    format!("N {n} D {d} L {l} M {m} U {u} counter {counter} type {kind}, {} form", name(z.form))
}

/// The sizes as fields of an answer.
pub fn numbers(z: &Sizes) -> [(&'static str, Json); 9] {
    let numbers = [
        ("n", z.n),
        ("d", z.d),
        ("l", z.l),
        ("m", z.m),
        ("u", z.u),
        ("counter", z.counter.into()),
        ("type", z.individual_records.into()),
        ("capacity", z.capacity),
        ("room", z.room),
    ];
    numbers.map(|(name, number)| (name, Json::number(number)))
}

/// Text with a word more where the file is old. The current form's lines are the lister's and stay as they are.
pub fn marked(text: String, form: Form) -> String {
    match form {
        Form::Old => format!("{text}, old form"),
        Form::Current => text,
    }
}

/// A magic number, with what it says of the scan.
pub fn magic(magic: i16) -> String {
    let meaning = match magic {
        1 => "IEEE KEEP, which is shown and not read",
        VERSION_ONE => "SDD version 1",
        _ => "of no known meaning, so the scan is shown and not read",
    };
    format!("{magic} ({meaning})")
}

/// The magic number of an entry as a field; the current form has none.
pub fn magic_field(entry: &Entry, form: Form) -> (&'static str, Json) {
    let magic = match form {
        Form::Old => Json::number(entry.magic),
        Form::Current => Json::Plain("null".to_string()),
    };
    ("magic", magic)
}
