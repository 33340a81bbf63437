//! The calls that change a file, one record at a time.

use crate::about::About;
use crate::linked::calls;
use crate::look::accepted;
use crate::refusal::Refusal;
use face::done;

/// A save, keep or clear under way. It is a value: copy it freely. A job that
/// is stepped no more is dropped; the file stays good wherever it stopped.
///
/// To begin a job on a file is to drop every other one on it: two that are
/// stepped by turns can take the same records, and a scan is lost.
#[derive(Clone, Copy, Debug, PartialEq, Eq)]
pub struct Job(face::Job);

impl Job {
    /// Whether it saves (or keeps); else it clears.
    pub fn saves(&self) -> bool {
        self.0.saves == 1
    }

    /// The slot that is saved to or cleared.
    pub fn slot(&self) -> u64 {
        self.0.slot
    }

    /// The first of the scan's new records, 0 for a clear.
    pub fn first(&self) -> u64 {
        self.0.first
    }

    /// Bytes of the scan, 0 for a clear.
    pub fn scan_len(&self) -> u64 {
        self.0.scan_len
    }

    /// Records written so far.
    pub fn written(&self) -> u64 {
        self.0.written
    }

    /// Whether it is a clear of the highest slot with a scan, which writes record 1 once more to lower U.
    pub fn lowers(&self) -> bool {
        self.0.saves == 0 && self.0.lowers == 1
    }

    /// The first record of the scan that is replaced or cleared, 0 where there is none.
    pub fn old_first(&self) -> u64 {
        self.0.old_first
    }

    /// How many records that scan has, 0 where there is none. The job's last writes put zeros over them.
    pub fn old_count(&self) -> u64 {
        self.0.old_count
    }

    /// Records that the job writes in all, where a record has L bytes: the scan's, record 1 and an index record; of a
    /// clear that lowers U, record 1 again; and zeros over each record of the old scan.
    pub fn records(&self, l: u64) -> u64 {
        self.0.scan_len.div_ceil(l) + 2 + u64::from(self.lowers()) + self.0.old_count
    }
}

/// What a step did to the bytes that it was lent.
#[derive(Clone, Copy, Debug, PartialEq, Eq)]
pub enum Step {
    /// It wrote this record of the lent file, and nothing else.
    Wrote {
        /// The record.
        record: u64,
        /// Records written so far.
        written: u64,
    },
    /// It wrote nothing, judged the lent bytes and found the save as it should be in them.
    Saved {
        /// Records written in all.
        written: u64,
    },
    /// It wrote nothing, judged the lent bytes and found the slot cleared in them.
    Cleared {
        /// Records written in all.
        written: u64,
    },
}

/// Makes a file without scans, of the current form, of the first N records: refusal 16. The bytes after them stay.
pub fn blank(file: &mut [u8], n: u64, l: u64, m: u64) -> Result<(), Refusal> {
    // SAFETY: the pointer and the length are those of a slice borrowed for writing.
    let why = unsafe { (calls().blank)(file.as_mut_ptr(), file.len(), n, l, m) };
    accepted(why, ())
}

/// Begins to save a scan to a slot: refusals 1 to 9, 11, 13. A scan that the slot has is zeroed at the job's end
/// ([`Job::old_count`]).
pub fn save(file: &[u8], slot: u64, scan: &[u8], about: &About) -> Result<Job, Refusal> {
    let about = about.bytes();
    // SAFETY: pointers and lengths are those of slices, and `about` is 54 bytes.
    let begun = unsafe { (calls().save)(file.as_ptr(), file.len(), slot, scan.as_ptr(), scan.len(), about.as_ptr()) };
    accepted(begun.why, Job(begun.job))
}

/// Begins to save a scan to the lowest empty slot: refusals 1 to 8, 12, 11, 13.
pub fn keep(file: &[u8], scan: &[u8], about: &About) -> Result<Job, Refusal> {
    let about = about.bytes();
    // SAFETY: as in `save`.
    let begun = unsafe { (calls().keep)(file.as_ptr(), file.len(), scan.as_ptr(), scan.len(), about.as_ptr()) };
    accepted(begun.why, Job(begun.job))
}

/// Begins to clear a slot: refusals 1 to 10. The highest slot with a scan takes one record more ([`Job::lowers`]), and
/// the scan's records are zeroed at the job's end ([`Job::old_count`]).
pub fn clear(file: &[u8], slot: u64) -> Result<Job, Refusal> {
    // SAFETY: as in `save`.
    let begun = unsafe { (calls().clear)(file.as_ptr(), file.len(), slot) };
    accepted(begun.why, Job(begun.job))
}

/// Does the next step: refusals 14 (always on an old file), and for the confirming step 1, 3 to 8 and 15.
/// The scan is the one the job was begun with, empty for a clear. The job moves
/// on where the step is accepted and stays as it was where it is refused.
///
/// **A step does no input or output.** Write the record that it names to the
/// device and make it durable before the next step. Run the confirming step on
/// bytes **read back** from the device, records 1 to N, the scan's and the old
/// scan's: on the memory that the steps themselves wrote it answers Saved
/// whatever became of the file. [`drive`](crate::drive) does both.
///
/// A confirmed job stepped again is judged again, so one that replaced a scan is
/// refused with 15 once a later save has put its data into those records, and
/// with 14 once that save has written record 1.
pub fn step(file: &mut [u8], scan: &[u8], job: &mut Job) -> Result<Step, Refusal> {
    // SAFETY: as in `save`; the file is borrowed for writing.
    let stepped = unsafe { (calls().step)(file.as_mut_ptr(), file.len(), scan.as_ptr(), scan.len(), job.0) };
    let written = stepped.written;
    let step = match stepped.done {
        done::WROTE => Step::Wrote { record: stepped.record, written },
        done::SAVED => Step::Saved { written },
        _ => Step::Cleared { written },
    };
    *job = Job(stepped.job);
    accepted(stepped.why, step)
}
