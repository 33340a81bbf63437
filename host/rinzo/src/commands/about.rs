//! An entry's bytes 8 to 61, from the command line and for people.

use crate::file::open::small_file;
use crate::say::failure::Failure;
use crate::say::shown;
use crate::words::args::Args;
use sdd::{About, NameTooLong};
use std::os::unix::ffi::OsStrExt;
use std::path::Path;

/// The options of the Real*4 fields with their places in the 54 bytes.
const SINGLES: [(&str, usize); 7] = [
    ("horizontal", 0),
    ("vertical", 4),
    ("scan-number", 24),
    ("resolution", 28),
    ("rate", 28),
    ("lst", 40),
    ("date", 44),
];
/// The Real*8 fields.
const DOUBLES: [(&str, usize); 2] = [("rest", 32), ("integration", 32)];
/// The Integer*2 fields.
const HALVES: [(&str, usize); 3] = [("mode", 48), ("number", 50), ("position", 52)];

/// What the command line says of the entry; zeros where it says nothing.
pub fn from(args: &Args) -> Result<About, Failure> {
    if let Some(path) = args.value("about") {
        return from_file(args, Path::new(path));
    }
    right_kind(args)?;
    let mut about = [0; 54];
    for (name, at) in SINGLES {
        if let Some(bits) = args.read(name, "a number that a Real*4 holds, or its bits as 0x and 8 digits", single)? {
            about[at..at + 4].copy_from_slice(&bits.to_be_bytes());
        }
    }
    for (name, at) in DOUBLES {
        if let Some(bits) = args.read(name, "a number that a Real*8 holds, or its bits as 0x and 16 digits", double)? {
            about[at..at + 8].copy_from_slice(&bits.to_be_bytes());
        }
    }
    for (name, at) in HALVES {
        if let Some(number) = args.read(name, "a number from -32768 to 32767", |text| text.parse::<i16>().ok())? {
            about[at..at + 2].copy_from_slice(&number.to_be_bytes());
        }
    }
    let about = About::of(&about);
    match args.value("source").map(|name| named(about, name.as_bytes())) {
        None => Ok(about),
        Some(Ok(about)) => Ok(about),
        Some(Err(why)) => args.wrong(&format!("--source: {why}; its bytes may also be given as 0x and 32 digits")),
    }
}

fn from_file(args: &Args, path: &Path) -> Result<About, Failure> {
    let fields = SINGLES.iter().chain(&DOUBLES).chain(&HALVES).map(|(name, _)| *name).chain(["source"]);
    if let Some(name) = fields.into_iter().find(|name| args.has(name)) {
        return args.wrong(&format!("--about gives the whole entry, so --{name} cannot stand beside it"));
    }
    match small_file(path, 54)?.try_into() {
        Ok(about) => Ok(About::of(&about)),
        Err(_) => args.wrong(&format!("--about wants a file of exactly 54 bytes, and {} is none", shown::name(path))),
    }
}

/// A spectral line has a resolution and a rest frequency, a continuum scan a rate and an
/// integration time; they share their places, so the two cannot be mixed.
fn right_kind(args: &Args) -> Result<(), Failure> {
    let spectral = args.has("resolution") || args.has("rest");
    let continuum = args.has("rate") || args.has("integration");
    let mode = args.read("mode", "a number from -32768 to 32767", |text| text.parse::<i16>().ok())?;
    if spectral && continuum {
        return args.wrong(
            "--resolution and --rest are a spectral line's, --rate and --integration a continuum scan's: give one pair",
        );
    }
    if spectral && mode.is_some_and(|mode| (256..=304).contains(&mode)) {
        return args.wrong("the mode is continuum: give --rate and --integration");
    }
    if continuum && mode.is_some_and(|mode| (512..=560).contains(&mode)) {
        return args.wrong("the mode is spectral line: give --resolution and --rest");
    }
    Ok(())
}

/// The bits of a number: as many hexadecimal digits as the field has.
fn bits(text: &str, digits: usize) -> Option<u64> {
    let is_all = text.len() == digits && text.bytes().all(|digit| digit.is_ascii_hexdigit());
    if is_all { u64::from_str_radix(text, 16).ok() } else { None }
}

/// Whether a number was read for what it says: neither an infinity nor a zero in the place of another number.
fn is_held(text: &str, value: f64) -> bool {
    let digits = text.split(['e', 'E']).next().unwrap_or_default();
    value.is_finite() && (value != 0.0 || !digits.contains(|digit: char| ('1'..='9').contains(&digit)))
}

fn single(text: &str) -> Option<u32> {
    match text.strip_prefix("0x") {
        Some(digits) => bits(digits, 8).map(|bits| bits as u32),
        None => text.parse::<f32>().ok().filter(|value| is_held(text, (*value).into())).map(f32::to_bits),
    }
}

fn double(text: &str) -> Option<u64> {
    match text.strip_prefix("0x") {
        Some(digits) => bits(digits, 16),
        None => text.parse::<f64>().ok().filter(|value| is_held(text, *value)).map(f64::to_bits),
    }
}

/// The entry with a source name: up to 16 bytes of any kind, or all 16 in hexadecimal.
fn named(about: About, name: &[u8]) -> Result<About, NameTooLong> {
    match std::str::from_utf8(name).ok().and_then(all_bytes) {
        Some(source) => Ok(About { source, ..about }),
        None => about.named(name),
    }
}

/// The 16 bytes of 0x and 32 digits, which is too long for a name.
fn all_bytes(text: &str) -> Option<[u8; 16]> {
    let digits = text.strip_prefix("0x").filter(|digits| digits.len() == 32 && digits.is_ascii())?;
    Some((u128::from(bits(&digits[..16], 16)?) << 64 | u128::from(bits(&digits[16..], 16)?)).to_be_bytes())
}

#[cfg(test)]
mod tests {
    use super::{double, named, single};
    use sdd::{About, NameTooLong};

    #[test]
    fn numbers_are_values_or_bits() {
        assert_eq!(single("1.5"), Some(0x3fc0_0000));
        assert_eq!(single("0x7fc00001"), Some(0x7fc0_0001));
        assert_eq!(double("-0"), Some(0x8000 << 48));
        assert_eq!(double("0x7ff8000000000001"), Some(0x7ff8_0000_0000_0001));
        assert_eq!((single("0e9"), single("1e-45"), single("-0.00")), (Some(0), Some(1), Some(0x8000 << 16)));
    }

    #[test]
    fn a_number_that_does_not_fit_is_none() {
        for text in ["x", "1e40", "-1e40", "1e-60", "inf", "nan", "0x123456789", "0x1", "0x+fc00001", "0x", ""] {
            assert_eq!(single(text), None, "{text}");
        }
        for text in ["1e400", "1e-400", "infinity", "0x7fc00001", "0x+ff8000000000001"] {
            assert_eq!(double(text), None, "{text}");
        }
        assert!(double("1e40").is_some());
    }

    #[test]
    fn a_source_is_any_sixteen_bytes() {
        let source = |name: &[u8]| named(About::default(), name).map(|about| about.source);
        assert_eq!(source(b"ORION"), Ok(*b"ORION           "));
        assert_eq!(source(&[0xff; 16]), Ok([0xff; 16]));
        assert_eq!(
            source(b"0x00010203040506070809fafbfcfdfeff"),
            Ok([0, 1, 2, 3, 4, 5, 6, 7, 8, 9, 250, 251, 252, 253, 254, 255])
        );
        assert_eq!(source(b"0x0001"), Ok(*b"0x0001          "));
        assert_eq!(source(b"seventeen letters"), Err(NameTooLong { bytes: 17 }));
    }
}
