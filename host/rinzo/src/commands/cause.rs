//! Why a file cannot be converted: which of the causes of 19 it is. The library's number has no value to say so.

use super::form;
use crate::file::lent::Lent;
use crate::say::failure::Failure;
use sdd::{Form, Listed, Sizes};

/// The largest number that an old word and an old entry can have, and an old counter.
const MOST_OLD: u64 = 32_767;
const MOST_OLD_COUNTER: u64 = 65_535;

/// What is wrong and what to do, and the slot that it is about.
pub struct Cause {
    pub slot: Option<u64>,
    pub sentence: String,
}

/// The first cause that is found; none where the file has none that is known here.
pub fn of(lent: &Lent, to: Form) -> Result<Option<Cause>, Failure> {
    let (sizes, scans) = (lent.sizes()?, lent.scans()?);
    if let Some(sentence) = of_sizes(&sizes, to) {
        return Ok(Some(Cause { slot: None, sentence }));
    }
    match to {
        Form::Current => of_magic(lent, &scans),
        Form::Old => Ok(of_records(&scans)),
    }
}

fn of_sizes(sizes: &Sizes, to: Form) -> Option<String> {
    if sizes.form == to {
        return Some(format!("it has the {} form already: there is nothing to convert", form::name(to)));
    }
    if sizes.individual_records {
        return Some("it holds individual records (type 1), which are not converted: work on it as it is".to_string());
    }
    let too_large = [("D", sizes.d, MOST_OLD), ("the counter", sizes.counter.into(), MOST_OLD_COUNTER)]
        .into_iter()
        .find(|(_, number, most)| to == Form::Old && number > most);
    too_large.map(|(what, number, most)| format!("{what} is {number}, and {}", at_most(most)))
}

fn at_most(most: u64) -> String {
    format!("the old form has at most {most}: work on it in the current form")
}

/// A scan that is not SDD version 1.
fn of_magic(lent: &Lent, scans: &[Listed]) -> Result<Option<Cause>, Failure> {
    for slot in scans.iter().map(|scan| u64::from(scan.slot)) {
        let magic = lent.entry(slot)?.magic;
        if magic != form::VERSION_ONE {
            let sentence = format!(
                "slot {slot} has magic {}: have the station convert it, or read the scans of SDD version 1 and save them to a blank file",
                form::magic(magic)
            );
            return Ok(Some(Cause { slot: Some(slot), sentence }));
        }
    }
    Ok(None)
}

/// A scan that lies too far back. Its first record is no higher than its last.
fn of_records(scans: &[Listed]) -> Option<Cause> {
    let scan = scans.iter().find(|scan| u64::from(scan.last) > MOST_OLD)?;
    let (slot, last) = (u64::from(scan.slot), scan.last);
    let sentence = format!("slot {slot} has a scan that ends in record {last}, and {}", at_most(MOST_OLD));
    Some(Cause { slot: Some(slot), sentence })
}
