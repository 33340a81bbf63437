//! A job under way: run by the driver on the file, told record by record, and confirmed on what comes back.

use super::drill::Drill;
use super::interrupt;
use super::left;
use crate::file::device::{Device, Way};
use crate::file::lent::{Lent, cannot_be_read, read_back};
use crate::say::failure::Failure;
use crate::say::json::Json;
use crate::say::out::Out;
use crate::say::progress::Progress;
use crate::say::shown;
use crate::say::used;
use sdd::drive::{self, Confirmed, Doing, Dropped, Wrote};
use sdd::{Entry, Job};
use std::io;
use std::ops::ControlFlow;

/// A job and its file, which is locked as long as this lives.
pub struct Running<'a> {
    lent: Lent,
    scan: &'a [u8],
    job: Job,
    out: &'a Out,
    /// The file's length when the job began.
    len: u64,
    /// What the slot had before.
    before: Option<Entry>,
}

/// How much is read back at a time: a multiple of every block.
const PIECE: usize = 256 << 10;

/// The file as the driver sees it: it also notes how bytes were read back, and tells how far that has come.
struct Driven<'a> {
    device: &'a Device,
    way: Way,
    progress: Progress,
}

impl sdd::Device for Driven<'_> {
    type Error = io::Error;

    fn length(&mut self) -> io::Result<u64> {
        self.device.len()
    }

    fn read(&mut self, at: u64, into: &mut [u8]) -> io::Result<()> {
        self.device.read(at, into)
    }

    fn write(&mut self, at: u64, record: &[u8]) -> io::Result<()> {
        self.device.write(at, record)
    }

    fn flush(&mut self) -> io::Result<()> {
        self.device.flush()
    }

    fn read_back(&mut self, at: u64, into: &mut [u8]) -> io::Result<()> {
        for (i, piece) in into.chunks_mut(PIECE).enumerate() {
            self.way = self.way.max(self.device.read_back(at + (i * PIECE) as u64, piece)?);
            self.progress.went_on(piece.len() as u64);
        }
        Ok(())
    }
}

impl<'a> Running<'a> {
    /// A job that was begun on this file.
    pub fn new(lent: Lent, scan: &'a [u8], job: Job, out: &'a Out) -> Running<'a> {
        let before = sdd::entry(lent.bytes(), job.slot()).ok();
        let len = lent.window.len();
        Running { lent, scan, job, out, len, before }
    }

    /// Runs it to its end. Where it does not come there, it is dropped, and the failure says what the file shows.
    pub fn run(mut self) -> Result<(), Failure> {
        interrupt::watch();
        match self.drive() {
            Ok(confirmed) => self.tell(confirmed),
            Err(why) => Err(Failure::Dropped(Box::new(why), self.what_it_shows())),
        }
    }

    /// Hands the job to the driver, which writes each record durably and confirms on what the device gives back.
    fn drive(&mut self) -> Result<Confirmed, Failure> {
        let (job, out) = (self.job, self.out);
        let Lent { device, window } = &mut self.lent;
        let memory = window.lend_for(&job).map_err(|error| no_memory(device, &error))?;
        let drill = Drill::from_environment();
        drill.reached(0);
        if interrupt::noted() {
            return Err(Failure::Interrupted(device.path().to_path_buf()));
        }
        let progress = Progress::of_bytes(out, "reading back");
        let mut driven = Driven { device, way: Way::Direct, progress };
        let ended = drive::run(&mut driven, memory, self.scan, job, |wrote| {
            told(out, wrote, &job);
            drill.reached(wrote.written);
            if interrupt::noted() { ControlFlow::Break(()) } else { ControlFlow::Continue(()) }
        });
        let way = driven.way;
        drop(driven);
        let confirmed = ended.map_err(|dropped| self.failure(dropped))?;
        out.progress(
            || way.sentence().to_string(),
            || Json::Object(vec![("event", Json::text("read-back")), ("way", Json::text(way.name()))]),
        );
        Ok(confirmed)
    }

    /// Why the driver dropped the job.
    fn failure(&self, dropped: Dropped<io::Error>) -> Failure {
        let device = &self.lent.device;
        match dropped {
            Dropped::Refused(why) => self.lent.refused(why, Some(self.job.slot())),
            Dropped::Failed(Doing::Writing(record), error) => {
                let name = shown::name(device.path());
                Failure::Io(format!("{name}: record {record} could not be written: {error}"))
            }
            Dropped::Failed(_, error) => cannot_be_read(device, &error),
            Dropped::Stopped => Failure::Interrupted(device.path().to_path_buf()),
        }
    }

    /// The confirmation, which alone says that the job is done. Where nobody reads, it is done all the same.
    fn tell(&self, confirmed: Confirmed) -> Result<(), Failure> {
        let (event, fields) = match confirmed {
            Confirmed::Saved { slot, first, last } => ("saved", vec![("slot", slot), ("first", first), ("last", last)]),
            Confirmed::Cleared { slot } => ("cleared", vec![("slot", slot)]),
        };
        let held = if event == "saved" { "replaced" } else { "held" };
        let told = self.out.answer(
            || {
                let numbers: Vec<String> = fields.iter().map(|(name, number)| format!("{name} {number}")).collect();
                let before = self.before.as_ref().map_or(String::new(), |entry| format!(", {held} {}", scan_in(entry)));
                format!("{event}: {}{before}", numbers.join(" "))
            },
            || {
                let mut all = vec![("event", Json::text(event))];
                all.extend(fields.iter().map(|(name, number)| (*name, Json::number(*number))));
                all.extend(self.before.as_ref().map(|entry| (held, scan_json(entry))));
                Json::Object(all)
            },
        );
        match told {
            Err(Failure::Io(why)) => {
                let (name, slot) = (shown::name(self.lent.device.path()), self.job.slot());
                Err(Failure::Io(format!("{name}: slot {slot} is {event} and confirmed, but {why}")))
            }
            _ => Ok(()),
        }
    }

    /// What the file shows after a job that was dropped, what is left of the job in it, and what to do. No step writes into
    /// the records of a listed scan, so a slot that has the entry it had shows what it did.
    fn what_it_shows(&self) -> String {
        let slot = self.job.slot();
        let Ok((window, _)) = read_back(&self.lent.device, self.out) else {
            return "the file cannot be read now".to_string();
        };
        let length = match window.len() {
            len if len == self.len => String::new(),
            len => format!("the file had {} bytes when the job began and has {len} now, and ", self.len),
        };
        if let Err(why) = sdd::open(window.bytes()) {
            return format!("{length}the file no longer opens, refused {}: {why}", why.number());
        }
        let now = sdd::entry(window.bytes(), slot).ok();
        let is_reached = now != self.before;
        let shows = match (is_reached, now) {
            (false, Some(_)) => format!("slot {slot} shows the scan that it had before: do it again"),
            (false, None) => format!("slot {slot} is empty as before: do it again"),
            (true, Some(_)) => format!(
                "slot {slot} shows the new scan, which is not confirmed: list the file, and save the scan to slot {slot} once more; to keep it again would put it into two slots"
            ),
            (true, None) => {
                format!("slot {slot} is empty now, which is not confirmed: list the file{}", used_in(window.bytes()))
            }
        };
        let device = &self.lent.device;
        let left = if is_reached {
            left::of_old_scan(device, &window, &self.job)
        } else {
            left::of_new_scan(device, &window, &self.job)
        };
        format!("{length}{shows}{left}")
    }
}

/// What is left to be set right by another job: a clear that is dropped after its index record may not have lowered U.
fn used_in(file: &[u8]) -> String {
    let (Ok(sizes), Ok(scans)) = (sdd::open(file), sdd::list(file)) else { return String::new() };
    used::too_high(&sizes, &scans).map_or_else(String::new, |told| format!("; {told}"))
}

fn no_memory(device: &Device, error: &io::Error) -> Failure {
    Failure::Io(format!("{}: there is no memory for the job's records: {error}", shown::name(device.path())))
}

/// A record that is on the device. The last writes of a job are the zeros over the scan that it replaces or clears.
fn told(out: &Out, Wrote { record, written, of }: Wrote, job: &Job) {
    let zeros = written + job.old_count() > of;
    out.progress(
        || {
            let what = if zeros { "with zeros over the old scan " } else { "" };
            format!("record {record} written {what}({written} of {of})")
        },
        || {
            let numbers = [("record", record), ("written", written), ("of", of)];
            let mut fields = vec![("event", Json::text("record"))];
            fields.extend(numbers.map(|(name, number)| (name, Json::number(number))));
            fields.push(("zeros", Json::truth(zeros)));
            Json::Object(fields)
        },
    );
}

/// The scan of an entry, in words: its source and its records.
pub fn scan_in(entry: &Entry) -> String {
    let source = match shown::source(&entry.source) {
        source if source.is_empty() => "a scan without a source name".to_string(),
        source => format!("the scan of {source}"),
    };
    match (entry.first, entry.last) {
        (first, last) if first == last => format!("{source} in record {first}"),
        (first, last) => format!("{source} in records {first} to {last}"),
    }
}

fn scan_json(entry: &Entry) -> Json {
    let mut fields = Vec::from(Json::source(&entry.source));
    fields.extend([("first", Json::number(entry.first)), ("last", Json::number(entry.last))]);
    Json::Object(fields)
}
