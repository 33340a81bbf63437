//! "A save, record by record": blank, save, keep, clear and step.

use crate::bytes::{Write, word_bytes};
use crate::index::{Run, highest, open, unlisted};
use crate::look::occupied;
use crate::refusal::{Answer, refuse};
use crate::scan::{Purpose, rules};
use crate::sizes::{Form, Sizes, bootstrap, may_change, room};

/// An entry's bytes 8 to 61.
pub type About = [u8; 54];

/// A save (also a keep) or a clear under way.
#[derive(Clone, Copy, Debug, PartialEq, Eq)]
pub struct Job {
    /// 1 a save, 0 a clear.
    pub saves: u64,
    /// The slot saved to, or cleared.
    pub slot: u64,
    /// The scan's length.
    pub scan_len: u64,
    /// The file's length.
    pub file_len: u64,
    /// The first of the scan's records, r.
    pub first: u64,
    /// Records written so far.
    pub written: u64,
    /// Of a clear: 1 where it "gets a third write, record 1 again". Of a save 0 and 1 mean the same.
    pub lowers: u64,
    /// The first record of "the scan replaced or cleared".
    pub old_first: u64,
    /// How many records that scan has: "0, 0 where the slot held nothing".
    pub old_count: u64,
    /// The first 32 bytes as the job was begun on or last wrote them.
    pub boot: [u8; 32],
    /// The entry's bytes 8 to 61.
    pub about: About,
}

/// What a step did.
#[derive(Clone, Copy, Debug, PartialEq, Eq)]
pub enum Done {
    /// It wrote this record.
    Wrote(u64),
    /// It confirmed a save.
    Saved,
    /// It confirmed a clear.
    Cleared,
}

/// An accepted step: what it did, the change it makes, and the job after it.
#[derive(Clone, Debug, PartialEq, Eq)]
pub struct Stepped {
    /// What it did.
    pub done: Done,
    /// The one change of memory, if any.
    pub write: Option<Write>,
    /// The job handed back.
    pub job: Job,
}

/// "Blank writes N records, D = U = counter = type = 0, zeros after word 8".
pub fn blank(file_len: u64, n: u64, l: u64, m: u64) -> Answer<Write> {
    let sizes = Sizes { n, d: 0, l, m, u: 0, counter: 0, kind: 0, form: Form::Current };
    if !sizes.shape_in_range() || n * l > file_len {
        return refuse(16);
    }
    let mut bytes = vec![0; (n * l) as usize];
    bytes[..32].copy_from_slice(&sizes.current_words());
    Ok(Write { at: 0, bytes })
}

/// "Let k be S / L rounded up."
fn records_of(scan_len: u64, sizes: &Sizes) -> u64 {
    scan_len.div_ceil(sizes.l)
}

/// "the lowest record r >= N+1 where r to r+k-1 lie within the room and belong to no listed scan".
fn lowest_place(file: &[u8], sizes: &Sizes, k: u64) -> Option<u64> {
    let room = room(file.len() as u64, sizes);
    let free = unlisted(file, sizes, room);
    (sizes.n + 1..=room).find(|r| (*r..r + k).all(|record| record <= room && free[record as usize]))
}

/// Begins a save to a slot.
pub fn save(file: &[u8], slot: u64, scan: &[u8], about: &About) -> Answer<Job> {
    may_change(file)?;
    let sizes = open(file)?;
    if !sizes.has_slot(slot) {
        return refuse(9);
    }
    begin_save(file, &sizes, slot, scan, about)
}

/// Begins a save to the lowest empty slot.
pub fn keep(file: &[u8], scan: &[u8], about: &About) -> Answer<Job> {
    may_change(file)?;
    let sizes = open(file)?;
    match (1..=sizes.capacity()).find(|slot| Run::of(file, &sizes, *slot).is_empty()) {
        None => refuse(12),
        Some(slot) => begin_save(file, &sizes, slot, scan, about),
    }
}

/// What save and keep have in common: refusals 11 and 13, and the job.
fn begin_save(file: &[u8], sizes: &Sizes, slot: u64, scan: &[u8], about: &About) -> Answer<Job> {
    rules(scan, Purpose::Saving)?;
    let scan_len = scan.len() as u64;
    let Some(first) = lowest_place(file, sizes, records_of(scan_len, sizes)) else {
        return refuse(13);
    };
    Ok(Job { saves: 1, slot, scan_len, first, about: *about, ..job_over(file, &Run::of(file, sizes, slot)) })
}

/// Begins a clear. "A clear of that highest slot gets a third write"; which slot that is, is asked here and not again.
pub fn clear(file: &[u8], slot: u64) -> Answer<Job> {
    may_change(file)?;
    let (sizes, run) = occupied(file, slot)?;
    let lowers = if slot == highest(file, &sizes) { 1 } else { 0 };
    Ok(Job { slot, lowers, ..job_over(file, &run) })
}

/// A job on this file whose slot has this run, with everything else zero. "A job carries that old run".
fn job_over(file: &[u8], old: &Run) -> Job {
    Job {
        saves: 0,
        slot: 0,
        scan_len: 0,
        file_len: file.len() as u64,
        first: 0,
        written: 0,
        lowers: 0,
        old_first: old.first,
        old_count: if old.is_empty() { 0 } else { old.last - old.first + 1 },
        boot: file[..32].try_into().unwrap(),
        about: [0; 54],
    }
}

/// The sizes where job, file and scan agree; none of the sentence "A step checks 14 first" applies then, and the file
/// is not old: "a step on an old file gets 14".
fn agree(file: &[u8], scan: &[u8], job: &Job) -> Option<Sizes> {
    if scan.len() as u64 != job.scan_len || file.len() as u64 != job.file_len {
        return None;
    }
    let sizes = bootstrap(file).ok()?;
    if sizes.form == Form::Old {
        return None;
    }
    if file[..32] != job.boot {
        return None;
    }
    // "a value other than 0 and 1 is 14 as for `saves`"
    if job.lowers > 1 || !old_run_in_room(&sizes, job) {
        return None;
    }
    if !sizes.has_slot(job.slot) || job.written > turns(&sizes, job).len() as u64 {
        return None;
    }
    match job.saves {
        0 => Some(sizes),
        1 => (!scan.is_empty() && data_records_in_room(&sizes, job)).then_some(sizes),
        _ => None,
    }
}

/// One of the records that a job has to write.
#[derive(Clone, Copy)]
enum Turn {
    /// The scan's record number i, counted from 0.
    Data(u64),
    /// Record 1.
    Bootstrap,
    /// The slot's index record.
    Index,
    /// "record 1 again with U lowered to what is left".
    Lowered,
    /// Zeros over this record "of the scan replaced or cleared".
    Zeros(u64),
}

/// All that the job has to write, in order: the k data records, record 1 and the index record; of a clear the last two,
/// and where it lowers U "a third write"; then "zeros over each record of the scan replaced or cleared, lowest first".
fn turns(sizes: &Sizes, job: &Job) -> Vec<Turn> {
    let mut turns: Vec<Turn> = (0..data_records(sizes, job)).map(Turn::Data).collect();
    turns.extend([Turn::Bootstrap, Turn::Index]);
    if job.saves == 0 && job.lowers == 1 {
        turns.push(Turn::Lowered);
    }
    turns.extend(old_records(job).map(Turn::Zeros));
    turns
}

/// The old run's records, lowest first; of a job whose old run lies in the room.
fn old_records(job: &Job) -> impl Iterator<Item = u64> {
    (0..job.old_count).map(|i| job.old_first + i)
}

/// Whether no record of the old run "lies outside N+1 to the room". "With old_count 0, old_first is not looked at", and
/// "sums of forged numbers must not wrap", so they are formed where they cannot.
fn old_run_in_room(sizes: &Sizes, job: &Job) -> bool {
    let room = u128::from(room(job.file_len, sizes));
    let after_last = u128::from(job.old_first) + u128::from(job.old_count);
    job.old_count == 0 || (sizes.n < job.old_first && after_last <= room + 1)
}

/// k, or 0 for a clear.
fn data_records(sizes: &Sizes, job: &Job) -> u64 {
    if job.saves == 1 { records_of(job.scan_len, sizes) } else { 0 }
}

/// Whether all of r to r+k-1 lie in N+1 to the room.
fn data_records_in_room(sizes: &Sizes, job: &Job) -> bool {
    let room = room(job.file_len, sizes);
    sizes.n < job.first && job.first <= room && job.first - 1 + data_records(sizes, job) <= room
}

/// One step of a job.
pub fn step(file: &[u8], scan: &[u8], job: &Job) -> Answer<Stepped> {
    let Some(sizes) = agree(file, scan, job) else {
        return refuse(14);
    };
    let Some(turn) = turns(&sizes, job).get(job.written as usize).copied() else {
        return confirm(file, scan, job);
    };
    let next = Job { written: job.written + 1, ..*job };
    Ok(match turn {
        Turn::Data(i) => {
            let at = sizes.record_at(job.first + i);
            wrote(job.first + i, at, padded(scan, &sizes, i), next)
        }
        Turn::Bootstrap => wrote_words(&renewed(file, &sizes, job), next),
        Turn::Index => wrote(sizes.home_record(job.slot), sizes.home(job.slot), entry_bytes(&sizes, job), next),
        Turn::Lowered => wrote_words(&lowered(file, &sizes), next),
        Turn::Zeros(record) => wrote(record, sizes.record_at(record), vec![0; sizes.l as usize], next),
    })
}

/// A step that wrote these bytes into this record.
fn wrote(record: u64, at: usize, bytes: Vec<u8>, job: Job) -> Stepped {
    Stepped { done: Done::Wrote(record), write: Some(Write { at, bytes }), job }
}

/// A step that wrote these sizes to record 1: the first 32 bytes "the job last wrote there" are then these.
fn wrote_words(sizes: &Sizes, job: Job) -> Stepped {
    let boot = sizes.current_words();
    wrote(1, 0, boot.to_vec(), Job { boot, ..job })
}

/// The bytes of the scan's record number i, counted from 0, the last padded with zeros.
fn padded(scan: &[u8], sizes: &Sizes, i: u64) -> Vec<u8> {
    let l = sizes.l as usize;
    let from = i as usize * l;
    let mut record = scan[from..scan.len().min(from + l)].to_vec();
    record.resize(l, 0);
    record
}

/// "D = max(D, r+k-1-N)" of a save, "and the counter one higher"; and "the bootstrap write sets U to the highest slot
/// with a scan, the one being saved or cleared counted".
fn renewed(file: &[u8], sizes: &Sizes, job: &Job) -> Sizes {
    let counter = (sizes.counter + 1) % (1 << 32);
    let u = highest(file, sizes).max(job.slot);
    if job.saves == 0 {
        return Sizes { u, counter, ..*sizes };
    }
    let last = job.first + data_records(sizes, job) - 1;
    Sizes { d: sizes.d.max(last - sizes.n), u, counter, ..*sizes }
}

/// "record 1 again with U lowered to what is left, or 0; its counter isn't raised twice".
fn lowered(file: &[u8], sizes: &Sizes) -> Sizes {
    Sizes { u: highest(file, sizes), ..*sizes }
}

/// The entry's M bytes as the job gives them: first, last, about and zeros; of a clear M zeros.
fn entry_bytes(sizes: &Sizes, job: &Job) -> Vec<u8> {
    let mut entry = vec![0; sizes.m as usize];
    if job.saves == 1 {
        let last = job.first + data_records(sizes, job) - 1;
        entry[0..4].copy_from_slice(&word_bytes(job.first));
        entry[4..8].copy_from_slice(&word_bytes(last));
        entry[8..62].copy_from_slice(&job.about);
    }
    entry
}

/// The step after the last write: judges the file, then compares, and "also requires the zeros, else 15".
fn confirm(file: &[u8], scan: &[u8], job: &Job) -> Answer<Stepped> {
    let sizes = open(file)?;
    let entry_stands = sizes.entry(file, job.slot) == entry_bytes(&sizes, job);
    let records_stand =
        (0..data_records(&sizes, job)).all(|i| sizes.record(file, job.first + i) == padded(scan, &sizes, i));
    let old_is_zeros = old_records(job).all(|record| sizes.record(file, record).iter().all(|byte| *byte == 0));
    if !entry_stands || !records_stand || !old_is_zeros {
        return refuse(15);
    }
    let done = if job.saves == 1 { Done::Saved } else { Done::Cleared };
    Ok(Stepped { done, write: None, job: *job })
}
