//! What is left in records that belong to no scan, and how to be rid of it. No job zeroes it: jobs write zeros over the scan
//! that they replace or clear themselves, and over nothing else.

use super::shown;
use std::path::Path;

/// The line of a file of which so many records hold something that is left.
pub fn in_records(count: u64, path: &Path) -> String {
    let who = match count {
        1 => "1 data record that belongs to no scan still holds".to_string(),
        _ => format!("{count} data records that belong to no scan still hold"),
    };
    let of = "of a scan that was replaced or cleared, or of a save that was cut";
    format!("{who} old bytes, {of}: {}", how_to_remove(path))
}

/// What does not help, and what does.
pub fn how_to_remove(path: &Path) -> String {
    format!("to save or clear again does not remove them, and {}", copy_without(path))
}

/// What helps.
pub fn copy_without(path: &Path) -> String {
    format!("`rinzo sweep {} NEW` makes a copy of the file without them", shown::name(path))
}
