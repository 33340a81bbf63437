//! What was reached: calls, refusals and reasons, the refusals of old files once more by themselves, conversions, what
//! jobs did to U, what became of their old runs and of the gaps, what searches came upon, and verdicts over the link.

use crate::call::{Answer, Call, Lent, NAMES};
use crate::finds::Finds;
use crate::gaps::Gaps;
use crate::links::Links;
use crate::moves::Moves;
use crate::used::Used;
use std::fmt;

/// The numbers of refusals, and 0.
const NUMBERS: usize = face::refused::HIGHEST as usize + 1;

/// What an old file can be answered with, by what is done with it: 0 is that the call is accepted.
const OLD: [(&str, &[usize]); 3] = [
    ("a look at an old file", &[0, 1, 3, 4, 5, 6, 7, 8, 9, 10, 11, 17, 18]),
    ("a change of an old file", &[1, 2, 3]),
    ("a step on an old file", &[14]),
];

/// The counts of a run.
#[derive(Clone, Default, PartialEq, Eq)]
pub struct Tally {
    /// By call, in the header's order.
    pub calls: [u64; NAMES.len()],
    /// By refusal; the element at 0 counts accepted calls.
    pub refusals: [u64; NUMBERS],
    /// By the reason in refusal 11; the element at 0 is not used.
    pub reasons: [u64; 7],
    /// Steps that answered Saved, and Cleared.
    pub confirmed: [u64; 2],
    /// By refusal, of the calls on files made in the old form: looks, changes and steps.
    pub old: [[u64; NUMBERS]; 3],
    /// Conversions.
    pub(crate) moves: Moves,
    /// What jobs did to U.
    used: Used,
    /// What became of old runs, and what was answered of gaps.
    gaps: Gaps,
    /// What searches for scans came upon.
    finds: Finds,
    /// What pieces over the link came to, and what was answered then.
    links: Links,
}

/// Which of the rows of `OLD` a call counts for; none where the file's form does not matter to it.
fn old_row(call: &Call) -> Option<usize> {
    match call {
        Call::Open | Call::List { .. } | Call::Entry { .. } | Call::Show { .. } | Call::Read { .. } => Some(0),
        Call::GapsZero | Call::Find { .. } => Some(0),
        Call::Save { .. } | Call::Keep | Call::Clear { .. } => Some(1),
        Call::Step { .. } => Some(2),
        Call::Class { .. } | Call::Data | Call::Blank { .. } => None,
        // these have their own rows, for either form
        Call::ToCurrent | Call::ToOld => None,
        Call::LinkBegin { .. } | Call::LinkTake { .. } | Call::LinkFinish { .. } => None,
    }
}

impl Tally {
    /// Counts one call, with what was lent to it as it is after it; the file is old or not.
    pub(crate) fn count(&mut self, call: &Call, answer: &Answer, old: bool, lent: &Lent) {
        let why = answer.why();
        self.calls[call.number()] += 1;
        self.refusals[why.number as usize] += 1;
        if let Some(row) = old_row(call).filter(|_| old) {
            self.old[row][why.number as usize] += 1;
        }
        if why.number == 11 {
            self.reasons[why.value as usize] += 1;
        }
        if let Answer::Stepped(stepped) = answer
            && stepped.done > 0
        {
            self.confirmed[stepped.done as usize - 1] += 1;
        }
        self.moves.count(call, why.number, lent.file);
        self.used.count(call, answer, lent);
        self.gaps.count(call, answer, lent);
        self.finds.count(call, answer, old, lent);
        self.links.count(call, answer, old, lent);
    }

    /// All calls.
    pub fn cases(&self) -> u64 {
        self.calls.iter().sum()
    }

    /// The counts as one line of numbers, to hand from a process to another.
    pub fn line(&self) -> String {
        let all = self.numbers().map(|number| number.to_string()).collect::<Vec<_>>();
        format!("tally {}", all.join(" "))
    }

    /// Adds the counts of such a line; whether it was one.
    pub fn add_line(&mut self, line: &str) -> bool {
        let Some(numbers) = line.strip_prefix("tally ") else { return false };
        let numbers: Vec<u64> = numbers.split(' ').map(|number| number.parse().unwrap()).collect();
        assert_eq!(numbers.len(), self.numbers().count());
        let counts =
            self.calls.iter_mut().chain(&mut self.refusals).chain(&mut self.reasons).chain(&mut self.confirmed);
        let counts = counts.chain(self.old.iter_mut().flatten()).chain(self.moves.numbers_mut());
        let counts = counts.chain(self.used.numbers_mut()).chain(self.gaps.numbers_mut());
        let counts = counts.chain(self.finds.numbers_mut()).chain(self.links.numbers_mut());
        counts.zip(numbers).for_each(|(count, number)| *count += number);
        true
    }

    fn numbers(&self) -> impl Iterator<Item = u64> {
        let counts = self.calls.iter().chain(&self.refusals).chain(&self.reasons).chain(&self.confirmed);
        let counts = counts.chain(self.old.iter().flatten()).chain(self.moves.numbers());
        let counts = counts.chain(self.used.numbers()).chain(self.gaps.numbers()).chain(self.finds.numbers());
        counts.chain(self.links.numbers()).copied()
    }

    /// Refusals, reasons and confirmations that no case reached, of an old file what it can be answered with, and of
    /// conversions, of U, of gaps, of searches and of the link all that is counted.
    pub fn unreached(&self) -> Vec<String> {
        let mut missing = Vec::new();
        let mut look = |name: &str, counts: &[u64], from: usize| {
            for (number, count) in counts.iter().enumerate().skip(from) {
                if *count == 0 {
                    missing.push(format!("{name} {number}"));
                }
            }
        };
        look("refusal", &self.refusals, 0);
        look("reason", &self.reasons, 1);
        look("confirmed", &self.confirmed, 0);
        look("call", &self.calls, 0);
        for ((name, numbers), counts) in OLD.iter().zip(&self.old) {
            missing.extend(numbers.iter().filter(|n| counts[**n] == 0).map(|n| format!("{name}, {n}")));
        }
        missing
            .extend(Moves::names().zip(self.moves.numbers()).filter(|(_, count)| **count == 0).map(|(name, _)| name));
        let used = Used::names().zip(self.used.numbers()).filter(|(_, count)| **count == 0);
        let gaps = Gaps::names().zip(self.gaps.numbers()).filter(|(_, count)| **count == 0);
        missing.extend(used.chain(gaps).map(|(name, _)| name.to_string()));
        missing
            .extend(Finds::names().zip(self.finds.numbers()).filter(|(_, count)| **count == 0).map(|(name, _)| name));
        missing
            .extend(Links::names().zip(self.links.numbers()).filter(|(_, count)| **count == 0).map(|(name, _)| name));
        missing
    }
}

impl fmt::Display for Tally {
    fn fmt(&self, f: &mut fmt::Formatter) -> fmt::Result {
        writeln!(f, "{} calls compared", self.cases())?;
        for (name, count) in NAMES.iter().zip(self.calls) {
            writeln!(f, "  {name:<11} {count:>9}")?;
        }
        writeln!(f, "answers")?;
        writeln!(
            f,
            "  accepted   {:>9}  (Saved {}, Cleared {})",
            self.refusals[0], self.confirmed[0], self.confirmed[1]
        )?;
        for (number, count) in self.refusals.iter().enumerate().skip(1) {
            write!(f, "  {number:<10} {count:>9}")?;
            if number == 11 {
                write!(f, "  (by rule: {:?})", &self.reasons[1..])?;
            }
            writeln!(f)?;
        }
        for ((name, _), counts) in OLD.iter().zip(&self.old) {
            let reached = counts.iter().enumerate().filter(|(_, count)| **count > 0);
            let reached: Vec<String> = reached.map(|(number, count)| format!("{number}: {count}")).collect();
            writeln!(f, "{name} ({})", reached.join(", "))?;
        }
        table(f, "conversions", Moves::names(), self.moves.numbers())?;
        table(f, "U", Used::names(), self.used.numbers())?;
        table(f, "old runs and gaps", Gaps::names(), self.gaps.numbers())?;
        table(f, "searches", Finds::names(), self.finds.numbers())?;
        table(f, "the link", Links::names(), self.links.numbers())
    }
}

/// A heading, and below it each count with its name.
fn table<'a>(
    f: &mut fmt::Formatter,
    heading: &str,
    names: impl Iterator<Item = impl fmt::Display>,
    counts: impl Iterator<Item = &'a u64>,
) -> fmt::Result {
    writeln!(f, "{heading}")?;
    for (name, count) in names.zip(counts) {
        writeln!(f, "  {count:>9}  {name}")?;
    }
    Ok(())
}
