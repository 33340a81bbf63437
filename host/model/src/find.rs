//! "Finding scans when the index is lost": the data section is searched, and the index is not looked at.

use crate::bytes::double_word;
use crate::refusal::{Answer, refuse};
use crate::scan::{Purpose, rules};
use crate::sizes::{Sizes, bootstrap};

/// A scan that was found. "report as three 64-bit numbers the first record, the last by HEADLEN + DATALEN and class 1's
/// third word, SCAN".
#[derive(Clone, Copy, Debug, PartialEq, Eq)]
pub struct Find {
    /// Its first record.
    pub first: u64,
    /// Its last record.
    pub last: u64,
    /// The 64 bits of SCAN.
    pub scan: u64,
}

/// The elements that a search writes: first, last and SCAN for each find. "Refusals: 1 to 5, then 17", of which 2 "is
/// for changes alone"; 17 where `out_len` elements do not hold them.
pub fn find(file: &[u8], out_len: usize) -> Answer<Vec<u64>> {
    let sizes = bootstrap(file)?;
    let finds = finds(file, &sizes);
    if out_len < 3 * finds.len() {
        return refuse(17);
    }
    Ok(finds.iter().flat_map(|find| [find.first, find.last, find.scan]).collect())
}

/// "From record N+1 on": "Where they hold, report" and "go on after the last; where not, go to the next record".
pub fn finds(file: &[u8], sizes: &Sizes) -> Vec<Find> {
    let mut finds = Vec::new();
    let mut record = sizes.n + 1;
    while record <= sizes.n + sizes.d {
        match found_at(file, sizes, record) {
            Some(find) => {
                finds.push(find);
                record = find.last + 1;
            }
            None => record += 1,
        }
    }
    finds
}

/// "judge the run to the end of the data section by rules 1 to 5": the run "is records r to N+D". What an entry says of
/// these records is not asked, and so neither is an old entry's magic.
fn found_at(file: &[u8], sizes: &Sizes, record: u64) -> Option<Find> {
    let end = sizes.record_at(sizes.n + sizes.d + 1);
    let run = &file[sizes.record_at(record)..end];
    let shape = rules(run, Purpose::Reading).ok()?;
    let records = (shape.head + shape.data).div_ceil(sizes.l);
    Some(Find { first: record, last: record + records - 1, scan: third_word(run) })
}

/// The third Real*8 word of class 1, which begins at word 5 of the scan, counted from 1.
fn third_word(run: &[u8]) -> u64 {
    double_word(run, 8 * (5 - 1) + 8 * (3 - 1))
}
