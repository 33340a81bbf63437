//! The used number U beside the highest slot with a scan. They are the same after every confirmed job. After a cut U may
//! be higher, and a program that walks the index up to U then ends at an empty entry.

use sdd::{Form, Listed, Sizes};

/// The highest slot with a scan, or 0. The list is in slot order, and in a file that opens it has every scan there is.
pub fn highest(scans: &[Listed]) -> u64 {
    scans.last().map_or(0, |scan| scan.slot.into())
}

/// Where U is higher than that: a sentence, with what sets it right.
pub fn too_high(sizes: &Sizes, scans: &[Listed]) -> Option<String> {
    let (found, clear) = match highest(scans) {
        highest if highest == sizes.u => return None,
        // there is nothing to clear
        0 => ("no scan".to_string(), ""),
        highest => (format!("highest scan in slot {highest}"), " or clear"),
    };
    let remedy = match sizes.form {
        Form::Old => "an old file is not changed".to_string(),
        Form::Current => format!("the next save{clear} sets it right"),
    };
    Some(format!("used {}, {found}: {remedy}", sizes.u))
}
