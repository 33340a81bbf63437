//! What jobs did to U: which write of record 1 set it, and to what; and what was made of jobs that say other things of
//! lowering it than they were begun with.

use crate::call::{Answer, Call, Lent, to_model};
use crate::cases::shape::get32;
use face::{Job, Stepped};

/// A clear that was begun, or a step of a job, and what is lent after it.
struct Seen<'a> {
    /// The job that was begun, or that was lent to the step.
    job: Job,
    /// The step's answer; none where a clear was begun.
    stepped: Option<Stepped>,
    lent: &'a Lent<'a>,
}

/// A name, and whether what is seen is such a thing.
type Fact = (&'static str, fn(&Seen) -> bool);

const FACTS: [Fact; 26] = [
    ("a clear of the highest slot begun, which is U", |seen| seen.begun(1) && seen.before() == seen.job.slot),
    ("a clear of the highest slot begun, below U", |seen| seen.begun(1) && seen.before() > seen.job.slot),
    ("a clear of another slot begun", |seen| seen.begun(0)),
    ("U raised by a save", |seen| seen.first_write(1) && seen.after() > seen.before()),
    ("U raised by a save, past its slot", |seen| {
        seen.first_write(1) && seen.after() > seen.before().max(seen.job.slot)
    }),
    ("U lowered by a save", |seen| seen.first_write(1) && seen.after() < seen.before()),
    ("U raised by a clear's first write", |seen| seen.first_write(0) && seen.after() > seen.before()),
    ("U lowered by a clear's first write", |seen| seen.first_write(0) && seen.after() < seen.before()),
    ("U at an entry with first 0", |seen| seen.sets_u_at(|first, last| first == 0 && last != 0)),
    ("U at an entry with last 0", |seen| seen.sets_u_at(|first, last| first != 0 && last == 0)),
    ("U at an entry far out of range", |seen| seen.sets_u_at(|first, last| first.min(last) > 1_000_000)),
    ("a third write, U lowered to 0", |seen| seen.third_write() && seen.before() > 0 && seen.after() == 0),
    ("a third write, U lowered by one slot", |seen| seen.third_write() && seen.after() + 1 == seen.before()),
    ("a third write, U lowered past a gap", |seen| {
        seen.third_write() && seen.after() > 0 && seen.after() + 1 < seen.before()
    }),
    ("a third write, U as it was", |seen| seen.third_write() && seen.after() == seen.before()),
    ("a third write, U raised", |seen| seen.third_write() && seen.after() > seen.before()),
    ("Cleared after two records and the zeros", |seen| seen.confirmed(2) && seen.before_zeros() == 2),
    ("Cleared after three records and the zeros", |seen| seen.confirmed(2) && seen.before_zeros() == 3),
    ("Cleared, U too high", |seen| seen.confirmed(2) && seen.before() > seen.highest()),
    ("Saved, U too high", |seen| seen.confirmed(1) && seen.before() > seen.highest()),
    ("Saved, a job that says it lowers U", |seen| seen.confirmed(1) && seen.job.lowers == 1),
    ("14, a save that says neither 0 nor 1", |seen| seen.job.saves == 1 && seen.says_neither()),
    ("14, a clear that says neither 0 nor 1", |seen| seen.job.saves == 0 && seen.says_neither()),
    ("14, a clear that lowers no U after three records", |seen| seen.one_too_many(0, 0, 2)),
    ("14, a clear that lowers U after four records", |seen| seen.one_too_many(0, 1, 3)),
    ("14, a save that says it lowers U after k + 3 records", |seen| {
        let l = get32(&seen.job.boot, 8).max(1);
        seen.one_too_many(1, 1, seen.job.scan_len.div_ceil(l) + 2)
    }),
];

/// U by a file's first 32 bytes.
fn u_of(boot: &[u8; 32]) -> u64 {
    get32(boot, 16)
}

impl Seen<'_> {
    /// A clear that was begun with this word on lowering U.
    fn begun(&self, lowers: u64) -> bool {
        self.stepped.is_none() && self.job.lowers == lowers
    }

    /// U before it.
    fn before(&self) -> u64 {
        u_of(&self.job.boot)
    }

    /// U after it.
    fn after(&self) -> u64 {
        self.stepped.map_or(self.before(), |stepped| u_of(&stepped.job.boot))
    }

    /// A step that wrote record 1.
    fn wrote_record_1(&self) -> bool {
        self.stepped.is_some_and(|stepped| stepped.why.number == 0 && stepped.record == 1)
    }

    /// A step that wrote record 1 after a clear's index record.
    fn third_write(&self) -> bool {
        self.wrote_record_1() && self.job.saves == 0 && self.job.written == 2
    }

    /// A step that wrote record 1 before the index record, of a save (1) or a clear (0).
    fn first_write(&self, saves: u64) -> bool {
        self.wrote_record_1() && self.job.saves == saves && !self.third_write()
    }

    /// A step that set U to a slot other than the job's own, whose first and last are such ones.
    fn sets_u_at(&self, such: fn(u64, u64) -> bool) -> bool {
        let (u, file) = (self.after(), self.lent.file);
        if !self.wrote_record_1() || u == 0 || u == self.job.slot {
            return false;
        }
        let at = (get32(file, 8) + (u - 1) * get32(file, 12)) as usize;
        such(get32(file, at), get32(file, at + 4))
    }

    /// A step that confirmed a save (1) or a clear (2).
    fn confirmed(&self, done: u64) -> bool {
        self.stepped.is_some_and(|stepped| stepped.done == done)
    }

    /// How many records a confirmed job wrote before it zeroed any.
    fn before_zeros(&self) -> u64 {
        self.job.written - self.job.old_count
    }

    /// The highest slot with a scan in a file whose bootstrap is right.
    fn highest(&self) -> u64 {
        model::bootstrap(self.lent.file).map_or(0, |sizes| model::highest(self.lent.file, &sizes))
    }

    /// A step refused with 14 that is answered otherwise where the job is this one.
    fn refused_but_not(&self, other: Job) -> bool {
        let refused = self.stepped.is_some_and(|stepped| stepped.why.number == 14);
        let answered = || model::step(self.lent.file, self.lent.scan, &to_model(&other));
        refused && answered().err().is_none_or(|why| why.number != 14)
    }

    /// A step refused for what the job says of lowering U, and for nothing else.
    fn says_neither(&self) -> bool {
        self.job.lowers > 1 && self.refused_but_not(Job { lowers: 0, ..self.job })
    }

    /// A step of such a job refused because it has written one record more than it has to write, the zeros not counted,
    /// and for nothing else.
    fn one_too_many(&self, saves: u64, lowers: u64, writes: u64) -> bool {
        let job = self.job;
        let writes = job.old_count.saturating_add(writes);
        (job.saves, job.lowers) == (saves, lowers)
            && job.written == writes.saturating_add(1)
            && self.refused_but_not(Job { written: writes, ..job })
    }
}

/// The counts of what jobs did to U.
#[derive(Clone, Default, PartialEq, Eq)]
pub struct Used([u64; FACTS.len()]);

impl Used {
    /// Counts a call where it began a clear or was a step.
    pub fn count(&mut self, call: &Call, answer: &Answer, lent: &Lent) {
        let (job, stepped) = match (call, answer) {
            (Call::Clear { .. }, Answer::Begun(begun)) if begun.why.number == 0 => (begun.job, None),
            (Call::Step { job }, Answer::Stepped(stepped)) => (*job, Some(*stepped)),
            _ => return,
        };
        let seen = Seen { job, stepped, lent };
        for (count, (_, is_so)) in self.0.iter_mut().zip(FACTS) {
            *count += u64::from(is_so(&seen));
        }
    }

    /// The counts in a row.
    pub fn numbers(&self) -> impl Iterator<Item = &u64> {
        self.0.iter()
    }

    /// The same, to add to.
    pub fn numbers_mut(&mut self) -> impl Iterator<Item = &mut u64> {
        self.0.iter_mut()
    }

    /// The names of the counts, in the same order.
    pub fn names() -> impl Iterator<Item = &'static str> {
        FACTS.iter().map(|(name, _)| *name)
    }
}
