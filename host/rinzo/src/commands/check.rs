//! `rinzo check`: judges files, and says what it has looked at. What comes on standard input is judged by `stream`.

use super::each::each;
use super::form;
use super::stream;
use crate::file::gaps::{Gaps, free_runs};
use crate::file::lent::Lent;
use crate::say::failure::Failure;
use crate::say::json::Json;
use crate::say::left;
use crate::say::out::Out;
use crate::say::progress::Progress;
use crate::say::shown;
use crate::say::used;
use crate::words::args::Args;
use sdd::{Listed, Refusal, Sizes};
use std::path::Path;

pub fn run(args: &Args, out: &Out) -> Result<(), Failure> {
    stream::words(args)?;
    each(args, out, |path| match shown::is_input(path) {
        true => stream::check(path, args, out),
        false => check(path, args.has("scans"), out),
    })
}

/// What a look at a file has found.
struct Found {
    sizes: Sizes,
    scans: Vec<Listed>,
    /// What the scans are like; none where they were not read.
    read: Option<Scans>,
    gaps: Gaps,
    len: usize,
}

/// The scans that were read and are not as most are, by their slots.
#[derive(Default)]
struct Scans {
    /// Those that break a rule, and which.
    broken: Vec<(u32, Refusal)>,
    /// Those that an old file says are not SDD version 1, with their magic numbers: the rules are not about them, so this is
    /// no damage.
    others: Vec<(u32, i16)>,
}

fn check(path: &Path, with_scans: bool, out: &Out) -> Result<(), Failure> {
    let mut lent = Lent::to_read(path, out)?;
    let (sizes, scans) = (lent.sizes()?, lent.scans()?);
    let read = if with_scans { Some(read_all(&mut lent, &scans, sizes.l, out)?) } else { None };
    let gaps = lent.gaps(out)?;
    let found = Found { sizes, scans, read, gaps, len: lent.bytes().len() };
    out.answer(|| found.text(path), || found.json(path))?;
    match found.read.iter().flat_map(|scans| &scans.broken).next() {
        // each was told in the answer
        Some((_, why)) => Err(Failure::Told(why.number() as u8)),
        None => Ok(()),
    }
}

/// Reads every scan, and answers those that break a rule or are not SDD version 1.
fn read_all(lent: &mut Lent, scans: &[Listed], l: u64, out: &Out) -> Result<Scans, Failure> {
    let mut progress = Progress::of_things(out, "reading scan", scans.len());
    let mut read = Scans::default();
    for scan in scans {
        match lent.glance(scan, l)? {
            Ok(_) => (),
            Err(Refusal::NotVersionOne) => read.others.push((scan.slot, lent.entry(scan.slot.into())?.magic)),
            Err(why) => read.broken.push((scan.slot, why)),
        }
        progress.went_on(1);
    }
    Ok(read)
}

impl Found {
    /// Records of bootstrap, index and scans.
    fn in_use(&self) -> u64 {
        self.sizes.n + self.scans.iter().map(|scan| u64::from(scan.last - scan.first) + 1).sum::<u64>()
    }

    /// The most free records in a row: the longest scan that a save takes.
    fn longest_free(&self) -> u64 {
        let free = free_runs(&self.scans, self.sizes.n, self.sizes.room).into_iter();
        free.map(|run| run.end - run.start).max().unwrap_or(0)
    }

    /// What is left in data records of no scan. Records past the data section are not asked about.
    fn left(&self, path: &Path) -> String {
        match self.gaps.zero {
            true => "every data record that belongs to no scan is zeros".to_string(),
            false => left::in_records(self.gaps.not_zero, path),
        }
    }

    /// What can be said of the file, and only that.
    fn verdict(&self) -> String {
        let scans = match self.scans.len() {
            1 => format!("1 scan in {} slots", self.sizes.capacity),
            scans => format!("{scans} scans in {} slots", self.sizes.capacity),
        };
        let Some(read) = &self.read else {
            return format!("the index is good: {scans}; the scans were not read (--scans reads them)");
        };
        let others = match read.others.len() {
            0 => String::new(),
            others => format!(", {others} not of SDD version 1 and so not judged"),
        };
        match read.broken.len() {
            0 if others.is_empty() => format!("good: {scans}, and every scan was read"),
            0 => format!("good: {scans}{others}, and every other scan was read{}", read.lines()),
            broken => format!("the index is good: {scans}, of which {broken} cannot be read{others}{}", read.lines()),
        }
    }

    fn text(&self, path: &Path) -> String {
        let z = &self.sizes;
        let used = used::too_high(z, &self.scans).map_or_else(String::new, |told| format!("\n{told}"));
        format!(
            "{}\n{}{used}\n{} of {} records are in use, {} are free, at most {} in a row; {} bytes in all\n{}",
            self.verdict(),
            form::sizes(z),
            self.in_use(),
            z.room,
            z.room - self.in_use(),
            self.longest_free(),
            self.len,
            self.left(path)
        )
    }

    fn json(&self, path: &Path) -> Json {
        let z = &self.sizes;
        let mut fields = vec![("file", Json::path(path)), form::field(z.form)];
        fields.extend(form::numbers(z));
        let more = [
            ("in-use", self.in_use()),
            ("free", z.room - self.in_use()),
            ("longest-free", self.longest_free()),
            ("scans", self.scans.len() as u64),
            ("highest", used::highest(&self.scans)),
            ("bytes", self.len as u64),
        ];
        fields.extend(more.map(|(name, number)| (name, Json::number(number))));
        fields.push(("gaps-zero", Json::truth(self.gaps.zero)));
        fields.push(("records-not-zero", Json::number(self.gaps.not_zero)));
        let of_scans =
            |list: fn(&Scans) -> Json| self.read.as_ref().map_or_else(|| Json::Plain("null".to_string()), list);
        fields.push(("broken", of_scans(Scans::broken_json)));
        fields.push(("not-version-one", of_scans(Scans::others_json)));
        Json::Object(fields)
    }
}

impl Scans {
    /// A line for each.
    fn lines(&self) -> String {
        let broken = self.broken.iter().map(|(slot, why)| format!("\nslot {slot}: {why}"));
        let others = self.others.iter().map(|(slot, magic)| format!("\nslot {slot}: magic {}", form::magic(*magic)));
        broken.chain(others).collect()
    }

    fn broken_json(&self) -> Json {
        let each = |(slot, why): &(u32, Refusal)| {
            Json::Object(vec![("slot", Json::number(*slot)), ("rule", Json::number(why.value()))])
        };
        Json::List(self.broken.iter().map(each).collect())
    }

    fn others_json(&self) -> Json {
        let each = |(slot, magic): &(u32, i16)| {
            Json::Object(vec![("slot", Json::number(*slot)), ("magic", Json::number(*magic))])
        };
        Json::List(self.others.iter().map(each).collect())
    }
}
