//! The routines that a compiled library may ask for, and those that compute floats in software.

/// What the compiler may ask for to move, fill and compare bytes; every system for which C is compiled has them.
const BYTES: [&str; 5] = ["memcpy", "memmove", "memset", "memcmp", "bcmp"];

/// The compiler's letters for a float of 16, 32, 64, 80 and 128 bits, for a pair of them, and for an integer.
const FLOATS: [&str; 6] = ["hf", "bf", "sf", "df", "xf", "tf"];
const PAIRS: [&str; 5] = ["hc", "sc", "dc", "xc", "tc"];
const INTEGERS: [&str; 3] = ["si", "di", "ti"];

/// What is done, as these names have it, before the letters of what it is done with.
const DONE: [&str; 16] =
    ["add", "sub", "mul", "div", "neg", "powi", "cmp", "eq", "ne", "lt", "le", "gt", "ge", "unord", "extend", "trunc"];
const TO_INTEGER: [&str; 2] = ["fixuns", "fix"];
const FROM_INTEGER: [&str; 2] = ["floatun", "float"];

/// Whether it works on bytes alone.
pub fn is_of_bytes(name: &str) -> bool {
    BYTES.contains(&name)
}

/// Whether it computes floats in software: `__adddf3`, `__fixdfdi`, `__floatundidf` and their like, as the C compilers' own
/// libraries name them.
pub fn is_software_float(name: &str) -> bool {
    let Some(name) = name.strip_prefix("__") else { return false };
    let name = name.trim_end_matches(|end: char| end.is_ascii_digit());
    after(name, &DONE)
        .any(|rest| is_row(rest, &[&FLOATS]) || is_row(rest, &[&FLOATS, &FLOATS]) || is_row(rest, &[&PAIRS]))
        || after(name, &TO_INTEGER).any(|rest| is_row(rest, &[&FLOATS, &INTEGERS]))
        || after(name, &FROM_INTEGER).any(|rest| is_row(rest, &[&INTEGERS, &FLOATS]))
}

/// What follows one of these in a name.
fn after<'a>(name: &'a str, begins: &'a [&str]) -> impl Iterator<Item = &'a str> {
    begins.iter().filter_map(move |begin| name.strip_prefix(begin))
}

/// Whether it is one of the first letters, then one of the next, and so on to its end.
fn is_row(name: &str, letters: &[&[&str]]) -> bool {
    match letters {
        [] => name.is_empty(),
        [first, rest @ ..] => after(name, first).any(|name| is_row(name, rest)),
    }
}
