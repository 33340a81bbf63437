//! What became of the old runs of jobs, and what was answered to the question whether the gaps are zeros.

use crate::call::{Answer, Call, Lent, to_model};
use face::{Job, Stepped};
use model::{Form, Sizes};

/// A call with its answer, and what is lent after it.
struct Seen<'a> {
    call: &'a Call,
    answer: &'a Answer,
    lent: &'a Lent<'a>,
}

/// A name, and whether what is seen is such a thing.
type Fact = (&'static str, fn(&Seen) -> bool);

const FACTS: [Fact; 42] = [
    ("a save begun over a scan", |seen| matches!(seen.call, Call::Save { .. }) && seen.begun(|old| old > 0)),
    ("a save begun on an empty slot", |seen| matches!(seen.call, Call::Save { .. }) && seen.begun(|old| old == 0)),
    ("a keep begun, which has no old run", |seen| matches!(seen.call, Call::Keep) && seen.begun(|old| old == 0)),
    ("a clear begun, of one record", |seen| matches!(seen.call, Call::Clear { .. }) && seen.begun(|old| old == 1)),
    ("a clear begun, of several records", |seen| matches!(seen.call, Call::Clear { .. }) && seen.begun(|old| old > 1)),
    ("a record zeroed by a save", |seen| seen.zeroed(|_, job, _| job.saves == 1)),
    ("a record zeroed by a clear that lowers U", |seen| seen.zeroed(|_, job, _| lowers(job))),
    ("a record zeroed by a clear that does not", |seen| seen.zeroed(|_, job, _| job.saves == 0 && job.lowers == 0)),
    ("record N+1 zeroed", |seen| seen.zeroed(|z, _, record| record == z.n + 1)),
    ("the last record of the room zeroed", |seen| seen.zeroed(|z, job, record| record == model::room(job.file_len, z))),
    ("a record past the data zeroed", |seen| seen.zeroed(|z, _, record| record > z.n + z.d)),
    ("a record of another slot's scan zeroed", |seen| seen.zeroed_of(|slot, job| slot != job.slot)),
    ("a record of the job's new scan zeroed", |seen| seen.zeroed_of(|slot, job| slot == job.slot)),
    ("Saved after zeros", |seen| seen.confirmed(1) && seen.old_count() > 0),
    ("Saved without zeros", |seen| seen.confirmed(1) && seen.old_count() == 0),
    ("Cleared after zeros", |seen| seen.confirmed(2) && seen.old_count() > 0),
    ("Saved, and a gap elsewhere is not zeros", |seen| seen.confirmed(1) && !seen.gaps_are_zeros()),
    ("Cleared, and a gap elsewhere is not zeros", |seen| seen.confirmed(2) && !seen.gaps_are_zeros()),
    ("15 for the old run alone", |seen| seen.fails_for_old()),
    ("15 for the old run alone, in its first byte", |seen| seen.fails_for_old() && seen.spoilt() == Some((0, 1))),
    ("15 for the old run alone, in its last byte", |seen| {
        seen.fails_for_old() && seen.spoilt().is_some_and(|(first, bytes)| bytes == 1 && first + 1 == seen.old_bytes())
    }),
    ("6 to 8, and the old run is not zeros", |seen| seen.refused(6..=8) && seen.spoilt().is_some()),
    ("14 for an old run from N on", |seen| seen.bad_run(|n, _, job| job.old_first == n)),
    ("14 for an old run one past the room", |seen| seen.bad_run(|_, room, job| end(job) == u128::from(room) + 2)),
    ("14 for an old run past the room altogether", |seen| seen.bad_run(|_, room, job| job.old_first == room + 1)),
    ("14 for an old run whose end wraps into the room", |seen| {
        seen.bad_run(|_, room, job| end(job) > u128::from(u64::MAX) && wrapped_end(job) <= room + 1)
    }),
    ("14 for an old run of 2^64-1 records", |seen| seen.bad_run(|_, _, job| job.old_count == u64::MAX)),
    ("14 for an old run from 2^64-1 on", |seen| seen.bad_run(|_, _, job| job.old_first == u64::MAX)),
    ("14 for one record too many after zeros", |seen| seen.one_too_many()),
    ("a step taken, no old run, its first past the room", |seen| seen.taken_without(|_, room, first| first > room)),
    ("a step taken, no old run, its first in the index", |seen| {
        seen.taken_without(|n, _, first| 0 < first && first <= n)
    }),
    ("yes, of a file without data records", |seen| seen.asked(true, |z, gaps| z.d == 0 && gaps == 0)),
    ("yes, of a file without gaps", |seen| seen.asked(true, |z, gaps| z.d > 0 && gaps == 0)),
    ("yes, of a file with gaps", |seen| seen.asked(true, |z, gaps| gaps > 0 && z.form == Form::Current)),
    ("yes, of an old file with gaps", |seen| seen.asked(true, |z, gaps| gaps > 0 && z.form == Form::Old)),
    ("yes, and bytes stand past the data", |seen| seen.asked(true, |_, _| true) && seen.tail_is_filled()),
    ("no, of a file", |seen| seen.asked(false, |z, _| z.form == Form::Current)),
    ("no, of an old file", |seen| seen.asked(false, |z, _| z.form == Form::Old)),
    ("no, of a file whose U is 0", |seen| seen.asked(false, |z, _| z.u == 0)),
    ("no, for the first byte of the data alone", |seen| seen.no_for_one(|at, _, _| at == 0)),
    ("no, for the last byte of the data alone", |seen| seen.no_for_one(|at, len, _| at + 1 == len)),
    ("no, for the last byte of another record alone", |seen| {
        seen.no_for_one(|at, len, l| (at + 1).is_multiple_of(l) && at + 1 < len)
    }),
];

/// Whether it is a clear that writes record 1 a second time.
fn lowers(job: &Job) -> bool {
    job.saves == 0 && job.lowers == 1
}

/// The record after the old run's last, which 64 bits need not hold.
fn end(job: &Job) -> u128 {
    u128::from(job.old_first) + u128::from(job.old_count)
}

/// The same in 64 bits.
fn wrapped_end(job: &Job) -> u64 {
    job.old_first.wrapping_add(job.old_count)
}

/// How many records a job writes before it zeroes any.
fn before_zeros(job: &Job, l: u64) -> u64 {
    let k = if job.saves == 1 { job.scan_len.div_ceil(l) } else { 0 };
    k + 2 + u64::from(lowers(job))
}

impl Seen<'_> {
    /// A save, keep or clear that was begun, with such a count of old records.
    fn begun(&self, such: fn(u64) -> bool) -> bool {
        matches!(self.answer, Answer::Begun(begun) if begun.why.number == 0 && such(begun.job.old_count))
    }

    /// The job that was lent to a step, and the step's answer.
    fn step(&self) -> Option<(&Job, &Stepped)> {
        match (self.call, self.answer) {
            (Call::Step { job }, Answer::Stepped(stepped)) => Some((job, stepped)),
            _ => None,
        }
    }

    /// The sizes where the bootstrap is right.
    fn sizes(&self) -> Option<Sizes> {
        model::bootstrap(self.lent.file).ok()
    }

    /// A step that zeroed such a record.
    fn zeroed(&self, such: fn(&Sizes, &Job, u64) -> bool) -> bool {
        let Some((job, stepped)) = self.step() else { return false };
        let Some(sizes) = self.sizes().filter(|_| stepped.why.number == 0 && stepped.record > 0) else { return false };
        job.written >= before_zeros(job, sizes.l) && such(&sizes, job, stepped.record)
    }

    /// A step that zeroed a record of the scan of such a slot, in a file that opens.
    fn zeroed_of(&self, such: fn(u64, &Job) -> bool) -> bool {
        let Some((job, stepped)) = self.step().filter(|_| self.zeroed(|_, _, _| true)) else { return false };
        let Ok(sizes) = model::open(self.lent.file) else { return false };
        let runs = model::listed(self.lent.file, &sizes);
        runs.iter().any(|(slot, run)| (run.first..=run.last).contains(&stepped.record) && such(*slot, job))
    }

    /// A step that confirmed a save (1) or a clear (2).
    fn confirmed(&self, done: u64) -> bool {
        self.step().is_some_and(|(_, stepped)| stepped.done == done)
    }

    fn old_count(&self) -> u64 {
        self.step().map_or(0, |(job, _)| job.old_count)
    }

    fn gaps_are_zeros(&self) -> bool {
        model::gaps_zero(self.lent.file) != Ok(false)
    }

    /// A step refused with one of these numbers.
    fn refused(&self, numbers: std::ops::RangeInclusive<u32>) -> bool {
        self.step().is_some_and(|(_, stepped)| numbers.contains(&stepped.why.number))
    }

    /// What a step would be answered were the job another one.
    fn otherwise(&self, job: &Job) -> u32 {
        model::step(self.lent.file, self.lent.scan, &to_model(job)).err().map_or(0, |why| why.number)
    }

    /// A confirming step refused with 15 that would be none where the job had no old run.
    fn fails_for_old(&self) -> bool {
        let Some((job, _)) = self.step().filter(|_| self.refused(15..=15)) else { return false };
        job.old_count > 0 && self.otherwise(&Job { old_count: 0, written: job.written - job.old_count, ..*job }) == 0
    }

    /// How many bytes the old run has.
    fn old_bytes(&self) -> usize {
        self.sizes().map_or(0, |sizes| (self.old_count() * sizes.l) as usize)
    }

    /// Where in the old run of a step's job the first byte stands that is no zero, and how many there are.
    fn spoilt(&self) -> Option<(usize, usize)> {
        let ((job, _), sizes) = (self.step()?, self.sizes()?);
        let from = (job.old_first.checked_sub(1)? * sizes.l) as usize;
        filled(self.lent.file.get(from..from + self.old_bytes())?)
    }

    /// A step refused with 14 for where its old run lies, given N and the room, and for nothing else.
    fn bad_run(&self, such: fn(u64, u64, &Job) -> bool) -> bool {
        let Some((job, _)) = self.step().filter(|_| self.refused(14..=14)) else { return false };
        let Some(sizes) = self.sizes().filter(|_| job.old_count > 0) else { return false };
        such(sizes.n, model::room(job.file_len, &sizes), job) && self.otherwise(&Job { old_count: 0, ..*job }) != 14
    }

    /// A step refused with 14 because its job has zeroed one record more than it has to, and for nothing else.
    fn one_too_many(&self) -> bool {
        let Some((job, _)) = self.step().filter(|_| self.refused(14..=14)) else { return false };
        let Some(sizes) = self.sizes().filter(|_| job.old_count > 0) else { return false };
        let total = before_zeros(job, sizes.l).saturating_add(job.old_count);
        job.written == total.saturating_add(1) && self.otherwise(&Job { written: total, ..*job }) != 14
    }

    /// A step accepted whose job has no old run but such a first record of one, given N and the room.
    fn taken_without(&self, such: fn(u64, u64, u64) -> bool) -> bool {
        let Some((job, _)) = self.step().filter(|_| self.refused(0..=0)) else { return false };
        let Some(sizes) = self.sizes().filter(|_| job.old_count == 0) else { return false };
        such(sizes.n, model::room(job.file_len, &sizes), job.old_first)
    }

    /// The records that belong to no scan, of a file that was asked for its gaps and answered this.
    fn gaps(&self, yes: bool) -> Option<(Sizes, Vec<u64>)> {
        let Answer::YesNo(answer) = self.answer else { return None };
        let sizes = model::open(self.lent.file).ok().filter(|_| (answer.yes == 1) == yes)?;
        let runs = model::listed(self.lent.file, &sizes);
        let is_free = |record: &u64| !runs.iter().any(|(_, run)| (run.first..=run.last).contains(record));
        // a file with very many records and scans would take long, and nothing here is counted of it alone
        let last = (sizes.n + sizes.d).min(sizes.n + 1_000);
        let gaps = (sizes.n + 1..=last).filter(is_free).collect();
        Some((sizes, gaps))
    }

    /// A file asked for its gaps and answered this, with such a number of them.
    fn asked(&self, yes: bool, such: fn(&Sizes, usize) -> bool) -> bool {
        self.gaps(yes).is_some_and(|(sizes, gaps)| such(&sizes, gaps.len()))
    }

    /// Whether a byte past the data is no zero.
    fn tail_is_filled(&self) -> bool {
        let data = self.sizes().map_or(0, |sizes| ((sizes.n + sizes.d) * sizes.l) as usize);
        filled(&self.lent.file[data..]).is_some()
    }

    /// A file answered no for one byte, at such a place of so many bytes of data, given L.
    fn no_for_one(&self, such: fn(usize, usize, usize) -> bool) -> bool {
        let Some((sizes, gaps)) = self.gaps(false) else { return false };
        let l = sizes.l as usize;
        let record = |record: &u64| &self.lent.file[(*record as usize - 1) * l..][..l];
        let mut spoilt = gaps.iter().filter_map(|gap| Some((gap, filled(record(gap))?)));
        let Some((gap, (at, 1))) = spoilt.next() else { return false };
        let from_data = (gap - 1 - sizes.n) as usize * l + at;
        spoilt.next().is_none() && such(from_data, sizes.d as usize * l, l)
    }
}

/// Where the first byte stands that is no zero, and how many there are.
fn filled(bytes: &[u8]) -> Option<(usize, usize)> {
    let mut places = bytes.iter().enumerate().filter(|(_, byte)| **byte != 0);
    places.next().map(|(first, _)| (first, 1 + places.count()))
}

/// The counts of what became of old runs, and of what was answered of gaps.
#[derive(Clone, PartialEq, Eq)]
pub struct Gaps([u64; FACTS.len()]);

impl Default for Gaps {
    fn default() -> Gaps {
        Gaps([0; FACTS.len()])
    }
}

impl Gaps {
    /// Counts a call.
    pub fn count(&mut self, call: &Call, answer: &Answer, lent: &Lent) {
        if !matches!(answer, Answer::Begun(_) | Answer::Stepped(_) | Answer::YesNo(_)) {
            return;
        }
        let seen = Seen { call, answer, lent };
        for (count, (_, is_so)) in self.0.iter_mut().zip(FACTS) {
            *count += u64::from(is_so(&seen));
        }
    }

    /// The counts in a row.
    pub fn numbers(&self) -> impl Iterator<Item = &u64> {
        self.0.iter()
    }

    /// The same, to add to.
    pub fn numbers_mut(&mut self) -> impl Iterator<Item = &mut u64> {
        self.0.iter_mut()
    }

    /// The names of the counts, in the same order.
    pub fn names() -> impl Iterator<Item = &'static str> {
        FACTS.iter().map(|(name, _)| *name)
    }
}
