//! `rinzo save`, `keep` and `clear`: a job begun and run, once it is clear that nothing is lost or doubled by mistake.

use super::about;
use crate::file::lent::Lent;
use crate::file::open::small_file;
use crate::job::running::{Running, scan_in};
use crate::say::failure::Failure;
use crate::say::out::Out;
use crate::say::refused::Refused;
use crate::say::shown;
use crate::words::args::Args;
use sdd::{About, Entry, Refusal};
use std::path::Path;

/// The longest scan that can be saved.
const MOST: u64 = 65_536;

/// A scan that is to be saved, and where it comes from.
pub struct Given<'a> {
    pub path: &'a Path,
    pub bytes: Vec<u8>,
    pub about: About,
}

impl Given<'_> {
    fn from<'a>(args: &'a Args, place: usize) -> Result<Given<'a>, Failure> {
        let path = args.path(place);
        Ok(Given { path, bytes: small_file(path, MOST)?, about: about::from(args)? })
    }

    /// Whether a slot of the file has this very scan under this very entry. Its records are read in.
    fn is_in(&self, lent: &mut Lent, slot: u64) -> Result<bool, Failure> {
        if sdd::entry(lent.bytes(), slot).map(|entry| entry.about()) != Ok(self.about) {
            return Ok(false);
        }
        let (shown, l) = (lent.shown(slot)?, lent.sizes()?.l as usize);
        if shown.len() != self.bytes.len().next_multiple_of(l) {
            return Ok(false);
        }
        lent.look_into(shown.clone())?;
        let (scan, padding) = lent.bytes()[shown].split_at(self.bytes.len());
        Ok(scan == self.bytes && padding.iter().all(|byte| *byte == 0))
    }
}

pub fn save(args: &Args, out: &Out) -> Result<(), Failure> {
    let slot = args.slot(1)?;
    save_to(args.path(0), slot, &Given::from(args, 2)?, args.has("replace"), out)
}

pub fn keep(args: &Args, out: &Out) -> Result<(), Failure> {
    keep_in(args.path(0), &Given::from(args, 1)?, args.has("again"), out)
}

/// Saves to a slot; over another scan only where that is asked for.
pub fn save_to(path: &Path, slot: u64, given: &Given, replace: bool, out: &Out) -> Result<(), Failure> {
    let mut lent = Lent::to_change(path)?;
    let begun = sdd::save(lent.bytes(), slot, &given.bytes, &given.about);
    let job = begun.map_err(|why| refused(&lent, given, why, Some(slot)))?;
    if let Ok(entry) = sdd::entry(lent.bytes(), slot)
        && !replace
        && !given.is_in(&mut lent, slot)?
    {
        let what = format!("slot {slot} has {}: give --replace to lose that, or another slot", scan_in(&entry));
        return Err(Failure::Exists(format!("{}: {what}", shown::name(path))));
    }
    Running::new(lent, &given.bytes, job, out).run()
}

/// Saves to the lowest empty slot; a scan that the file has already only where that is asked for.
pub fn keep_in(path: &Path, given: &Given, again: bool, out: &Out) -> Result<(), Failure> {
    let mut lent = Lent::to_change(path)?;
    let begun = sdd::keep(lent.bytes(), &given.bytes, &given.about);
    // an old file is not changed, whatever it holds
    if !again
        && begun != Err(Refusal::OldForm)
        && let Some(slot) = its_slot(&mut lent, given)?
    {
        let what = format!("slot {slot} has this very scan already: give --again to keep it once more");
        return Err(Failure::Exists(format!("{}: {what}", shown::name(path))));
    }
    let job = begun.map_err(|why| refused(&lent, given, why, None))?;
    Running::new(lent, &given.bytes, job, out).run()
}

/// The lowest slot that has this scan under this entry. The 54 bytes are compared where they stand in the current form,
/// since to ask the library for an entry is to judge the index, and there may be 4,096 of them.
fn its_slot(lent: &mut Lent, given: &Given) -> Result<Option<u64>, Failure> {
    let (sizes, about) = (lent.sizes()?, given.about.bytes());
    for slot in lent.scans()?.iter().map(|scan| u64::from(scan.slot)) {
        let at = (sizes.l + (slot - 1) * sizes.m + 8) as usize;
        if lent.bytes()[at..at + about.len()] == about && given.is_in(lent, slot)? {
            return Ok(Some(slot));
        }
    }
    Ok(None)
}

/// A refusal to begin: of the scan where it breaks a rule, else of the file.
fn refused(lent: &Lent, given: &Given, why: Refusal, slot: Option<u64>) -> Failure {
    match why {
        Refusal::BadScan(_) => Refused::of(given.path, why).into(),
        _ => lent.refused(why, slot),
    }
}

pub fn clear(args: &Args, out: &Out) -> Result<(), Failure> {
    let slot = args.slot(1)?;
    let lent = Lent::to_change(args.path(0))?;
    let job = sdd::clear(lent.bytes(), slot).map_err(|why| lent.refused(why, Some(slot)))?;
    let entry = lent.entry(slot)?;
    if !args.has("yes") {
        agreed(args.path(0), slot, &entry, out)?;
    }
    Running::new(lent, &[], job, out).run()
}

/// A person says yes to a question; where nobody can be asked, it has to be an option.
fn agreed(path: &Path, slot: u64, entry: &Entry, out: &Out) -> Result<(), Failure> {
    let what = format!("{}: slot {slot} has {}", shown::name(path), scan_in(entry));
    match out.ask(&format!("{what}. Clear it? (yes/no) ")) {
        Some(true) => Ok(()),
        Some(false) => Err(Failure::Exists(format!("{what}, and it stays"))),
        None => Err(Failure::Exists(format!("{what}: give --yes to clear it"))),
    }
}
