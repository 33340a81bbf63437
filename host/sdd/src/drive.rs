//! A job run to its end on a device, and confirmed on what the device gives back.
//!
//! [`step`] alone works on memory: it answers Saved of the bytes that it is lent, whether or not a device
//! has ever seen them. Here each record that a step names is written and flushed before the next step, and the
//! confirming step runs on bytes read back. So [`Confirmed`] speaks of the device.
//!
//! [`save`], [`keep`] and [`clear`] do all of it. Who lends memory of their own, or wants to watch the records
//! go by, begins a job by hand and calls [`run`].

use crate::about::About;
use crate::device::Device;
use crate::head::Head;
use crate::job::{self, Job, Step, step};
use crate::look::open;
use crate::refusal::Refusal;
use std::fmt;
use std::ops::{ControlFlow, Range};

/// A job that is done: the device gave back what it should.
#[derive(Clone, Copy, Debug, PartialEq, Eq)]
pub enum Confirmed {
    /// The slot shows this scan.
    Saved {
        /// The slot.
        slot: u64,
        /// The scan's first record.
        first: u64,
        /// Its last.
        last: u64,
    },
    /// The slot is empty.
    Cleared {
        /// The slot.
        slot: u64,
    },
}

/// A job that is not confirmed. The file opens all the same: the slot shows what it did before or, where the index
/// record was written, what the job was to leave there. Records of no scan may hold what it has left.
#[derive(Clone, Copy, Debug, PartialEq, Eq)]
pub enum Dropped<E> {
    /// The library refused.
    Refused(Refusal),
    /// The device failed.
    Failed(Doing, E),
    /// Who watched the records stopped it.
    Stopped,
}

/// What the device was asked for when it failed.
#[derive(Clone, Copy, Debug, PartialEq, Eq)]
pub enum Doing {
    /// To tell its length, or to read records 1 to N.
    Reading,
    /// To write this record and to make it durable.
    Writing(u64),
    /// To give back what was written.
    ReadingBack,
}

/// A record that was written and is durable.
#[derive(Clone, Copy, Debug, PartialEq, Eq)]
pub struct Wrote {
    /// The record.
    pub record: u64,
    /// Records written so far.
    pub written: u64,
    /// Records that the job writes in all.
    pub of: u64,
}

/// Saves a scan to a slot: refusals 1 to 9, 11, 13, 14, 15.
pub fn save<D: Device>(device: &mut D, slot: u64, scan: &[u8], about: &About) -> Result<Confirmed, Dropped<D::Error>> {
    let mut file = look(device)?;
    let job = job::save(&file, slot, scan, about)?;
    run(device, &mut file, scan, job, go_on)
}

/// Saves a scan to the lowest empty slot: refusals 1 to 8, 11 to 15.
pub fn keep<D: Device>(device: &mut D, scan: &[u8], about: &About) -> Result<Confirmed, Dropped<D::Error>> {
    let mut file = look(device)?;
    let job = job::keep(&file, scan, about)?;
    run(device, &mut file, scan, job, go_on)
}

/// Clears a slot: refusals 1 to 10, 14, 15.
pub fn clear<D: Device>(device: &mut D, slot: u64) -> Result<Confirmed, Dropped<D::Error>> {
    let mut file = look(device)?;
    let job = job::clear(&file, slot)?;
    run(device, &mut file, &[], job, go_on)
}

fn go_on(_: Wrote) -> ControlFlow<()> {
    ControlFlow::Continue(())
}

/// Memory of the file's length in which records 1 to N stand and all else is zeros. That is enough to judge the
/// file, to list it and to begin any job: no call looks at data records but those that read or confirm a scan, or ask
/// of the gaps.
pub fn look<D: Device>(device: &mut D) -> Result<Vec<u8>, Dropped<D::Error>> {
    let failed = |error| Dropped::Failed(Doing::Reading, error);
    // zeroed memory that is never touched costs nothing on the systems this runs on
    let mut file = vec![0; device.length().map_err(failed)? as usize];
    let words = Head::WORDS.min(file.len());
    device.read(0, &mut file[..words]).map_err(failed)?;
    let head = Head::of(&file).map_or(words, Head::bytes).min(file.len());
    device.read(0, &mut file[..head]).map_err(failed)?;
    Ok(file)
}

/// Runs a job to its confirmation. `file` is the memory that the job was begun on, of the file's whole length, with at
/// least records 1 to N read into it. `watch` sees each record once it is durable, and may stop the job there.
pub fn run<D: Device>(
    device: &mut D,
    file: &mut [u8],
    scan: &[u8],
    mut job: Job,
    mut watch: impl FnMut(Wrote) -> ControlFlow<()>,
) -> Result<Confirmed, Dropped<D::Error>> {
    let sizes = open(file)?;
    let of = job.records(sizes.l);
    while job.written() < of {
        same_length(device, file.len(), Doing::Reading)?;
        let Step::Wrote { record, written } = step(file, scan, &mut job)? else { break };
        let at = (record - 1) * sizes.l;
        let bytes = &file[at as usize..][..sizes.l as usize];
        let durable = device.write(at, bytes).and_then(|()| device.flush());
        durable.map_err(|error| Dropped::Failed(Doing::Writing(record), error))?;
        if watch(Wrote { record, written, of }).is_break() {
            return Err(Dropped::Stopped);
        }
    }
    let head = 0..(sizes.n * sizes.l) as usize;
    confirm(device, file, scan, job, [head, data(&job, sizes.l), old(&job, sizes.l)])
}

/// Refuses a file that something else has made shorter or longer, as a step does that is lent another length.
fn same_length<D: Device>(device: &mut D, len: usize, doing: Doing) -> Result<(), Dropped<D::Error>> {
    let now = device.length().map_err(|error| Dropped::Failed(doing, error))?;
    if now == len as u64 { Ok(()) } else { Err(Dropped::Refused(Refusal::JobDisagrees)) }
}

/// The bytes of the records that a save writes its scan to; none for a clear.
fn data(job: &Job, l: u64) -> Range<usize> {
    let from = job.first().saturating_sub(1) * l;
    from as usize..(from + job.scan_len().next_multiple_of(l)) as usize
}

/// The bytes of the records that a job zeroes; none where there was no scan.
fn old(job: &Job, l: u64) -> Range<usize> {
    let from = job.old_first().saturating_sub(1) * l;
    from as usize..(from + job.old_count() * l) as usize
}

/// The confirming step, on these parts of the file as the device gives them back. They are the ones that it looks at.
fn confirm<D: Device>(
    device: &mut D,
    file: &mut [u8],
    scan: &[u8],
    mut job: Job,
    parts: [Range<usize>; 3],
) -> Result<Confirmed, Dropped<D::Error>> {
    let failed = |error| Dropped::Failed(Doing::ReadingBack, error);
    same_length(device, file.len(), Doing::ReadingBack)?;
    if parts.iter().any(|part| part.end > file.len()) {
        return Err(Dropped::Refused(Refusal::JobDisagrees));
    }
    for part in parts.into_iter().filter(|part| !part.is_empty()) {
        // a device that fills nothing in must not be believed for what memory still held; and since zeros are what an
        // old scan's records should hold, every bit is turned over, and not cleared
        file[part.clone()].iter_mut().for_each(|byte| *byte = !*byte);
        device.read_back(part.start as u64, &mut file[part]).map_err(failed)?;
    }
    let (slot, first) = (job.slot(), job.first());
    match step(file, scan, &mut job)? {
        // beside the scan's records it has written record 1, the index record and the zeros
        Step::Saved { written } => Ok(Confirmed::Saved { slot, first, last: first + written - job.old_count() - 3 }),
        Step::Cleared { .. } => Ok(Confirmed::Cleared { slot }),
        Step::Wrote { .. } => unreachable!("a job that has written all its records writes no more"),
    }
}

impl<E> From<Refusal> for Dropped<E> {
    fn from(why: Refusal) -> Dropped<E> {
        Dropped::Refused(why)
    }
}

impl<E: fmt::Display> fmt::Display for Dropped<E> {
    fn fmt(&self, f: &mut fmt::Formatter) -> fmt::Result {
        match self {
            Dropped::Refused(why) => write!(f, "refused {}: {why}", why.number()),
            Dropped::Failed(Doing::Reading, error) => write!(f, "the file could not be read: {error}"),
            Dropped::Failed(Doing::Writing(record), error) => {
                write!(f, "record {record} could not be written: {error}")
            }
            Dropped::Failed(Doing::ReadingBack, error) => {
                write!(f, "what was written could not be read back, so it is not confirmed: {error}")
            }
            Dropped::Stopped => write!(f, "the job was stopped between two records"),
        }
    }
}

impl<E: fmt::Debug + fmt::Display> std::error::Error for Dropped<E> {}
