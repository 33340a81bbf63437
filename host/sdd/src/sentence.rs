//! The sentence of each refusal: what is wrong, a colon, and what to do. `include/sdd_plain.h` has the same ones for C.

use crate::refusal::Refusal;
use std::fmt;

/// Of each refusal, by its number from 1 on; of 11 where nothing more is known.
const REFUSALS: [&str; 20] = [
    "the file has fewer than 512 bytes, so it is no SDD file: check that it was copied whole",
    "the file has the old form from before 1993, which is looked at here and not changed: convert it into a second file, of the current form, and work on that one",
    "the file is of no version that is known: check that it is an SDD file",
    "a number in the file's first record is outside its range: take the file from a backup, or blank a new one",
    "the file is shorter than its first record says: it was cut off, copy it again from its source",
    "the index entry names records that are no data records: the index is damaged, take the file from a backup",
    "the index entry is filled though it lies above the entries in use: the index is damaged, take the file from a backup",
    "the scan shares a record with one in a smaller slot: the index is damaged, take the file from a backup",
    "the file has no such slot: give one from 1 to its number of slots",
    "the slot is empty: list the file to see which slots have a scan",
    "the scan breaks a rule: take the scan again",
    "every slot has a scan: clear one, or save to a slot to replace its scan",
    "there are not enough free records in a row for the scan: clear a slot, or use a file with more room",
    "the job and the file disagree, something else changed the file or the scan: list the file, then begin the job again",
    "what was read back is not what was written: the scan is not confirmed, check the device and save it again to the same slot",
    "these sizes make no file: N is 2 to 513, L 512 to 4,096, M 64 to L and a divisor of L, with at most 4,096 slots, and N records must fit",
    "the answer does not fit into what was lent for it: lend three numbers for each scan of a list or a search, N records for a conversion, a row of 8,192 numbers for a file that comes in pieces",
    "the old file says that this scan is not of SDD version 1, so it is not read: show its records as they stand, or have the station convert it",
    "the file cannot be converted, it has the wanted form already, holds individual records, has a scan that is not of SDD version 1, or has a number too large for the old form: list and check it to see which of these it is, and work on the file as it is",
    "too little of the file has come to judge it: send the rest, or the whole file again from its first byte on",
];

/// Of refusal 11, by its rule from 1 on.
const RULES: [&str; 6] = [
    "the scan breaks rule 1, it must have at least 256 bytes, and at most 65,536 to be saved: take the scan again",
    "the scan breaks rule 2, it must have 13 to 15 classes: take the scan again",
    "the scan breaks rule 3, class 1 must start at word 5, class 2 at word 21 or later, and each class after the one before: take the scan again",
    "the scan breaks rule 4, HEADLEN must be a multiple of 8 that covers the last class, within the scan and at most 65,536: take the scan again",
    "the scan breaks rule 5, DATALEN must be a multiple of 4, at most 65,536, and end within the scan: take the scan again",
    "the scan breaks rule 6, HEADLEN and DATALEN together must be the scan's length to be saved: take the scan again",
];

impl Refusal {
    /// What is wrong and what to do, without the slot; the `Display` form names that too.
    pub fn sentence(self) -> &'static str {
        match self {
            Refusal::BadScan(rule) => RULES[rule.number() as usize - 1],
            _ => REFUSALS[self.number() as usize - 1],
        }
    }
}

impl fmt::Display for Refusal {
    fn fmt(&self, f: &mut fmt::Formatter) -> fmt::Result {
        match self {
            Refusal::BadEntry(slot) | Refusal::EntryAboveUsed(slot) | Refusal::SharedRecord(slot) => {
                write!(f, "slot {slot}: {}", self.sentence())
            }
            _ => f.write_str(self.sentence()),
        }
    }
}

impl std::error::Error for Refusal {}
