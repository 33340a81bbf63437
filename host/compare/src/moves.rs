//! What conversions came upon: how each direction was answered, each cause of 19 by itself and at its very edge, what
//! stands just inside, and the ways there and home again.

use crate::call::Call;
use model::{Form, Hindrance, Sizes};

/// The numbers that a conversion can be answered with; 0 is that it is accepted.
pub const ANSWERS: [u32; 10] = [0, 1, 3, 4, 5, 6, 7, 8, 17, 19];

/// The directions, by the form that is wanted.
const WANTED: [(&str, Form); 2] = [("to the current form", Form::Current), ("to the old form", Form::Old)];

/// Where a way there and home again begins, and what was on it.
const WAYS: [&str; 4] = [
    "there and home from the old form",
    "there and home from the current form",
    "there and home from the old form, byte for byte",
    "there and home from the current form, byte for byte",
];

/// One conversion of a file that opens.
struct Seen<'a> {
    wanted: Form,
    number: u32,
    file: &'a [u8],
    sizes: Sizes,
    hindrances: Vec<Hindrance>,
}

/// What is counted beside the numbers: a name, and whether a conversion is such a one.
type Fact = (&'static str, fn(&Seen) -> bool);

const FACTS: [Fact; 19] = [
    ("19, already current", |seen| seen.refused(Form::Current, &[Hindrance::AlreadySo])),
    ("19, magic 1", |seen| seen.refused(Form::Current, &[Hindrance::OtherMagic]) && seen.odd_magics() == [1]),
    ("19, magic 3", |seen| seen.refused(Form::Current, &[Hindrance::OtherMagic]) && seen.odd_magics() == [3]),
    ("taken, another magic in an empty entry", |seen| seen.taken(Form::Current) && seen.empty_with_a_magic()),
    ("17, already current", |seen| seen.too_short(Form::Current, &[Hindrance::AlreadySo])),
    ("17, another magic", |seen| seen.too_short(Form::Current, &[Hindrance::OtherMagic])),
    ("19, already old", |seen| seen.refused(Form::Old, &[Hindrance::AlreadySo])),
    ("19, type 1", |seen| seen.refused(Form::Old, &[Hindrance::TypeOne])),
    ("19, D 32,768", |seen| seen.refused(Form::Old, &[Hindrance::DataRecords]) && seen.sizes.d == 32_768),
    ("19, last 32,768", |seen| seen.refused(Form::Old, &[Hindrance::Last]) && seen.farthest().1 == 32_768),
    // the last is never below the first, so that no first is too high by itself
    ("19, first and last 32,768", |seen| {
        seen.refused(Form::Old, &[Hindrance::First, Hindrance::Last]) && seen.farthest() == (32_768, 32_768)
    }),
    ("19, counter 65,536", |seen| seen.refused(Form::Old, &[Hindrance::Counter]) && seen.sizes.counter == 65_536),
    ("17, already old", |seen| seen.too_short(Form::Old, &[Hindrance::AlreadySo])),
    ("17, type 1", |seen| seen.too_short(Form::Old, &[Hindrance::TypeOne])),
    ("17, counter too high", |seen| seen.too_short(Form::Old, &[Hindrance::Counter])),
    ("taken, D 32,767", |seen| seen.taken(Form::Old) && seen.sizes.d == 32_767),
    ("taken, last 32,767", |seen| seen.taken(Form::Old) && seen.farthest().1 == 32_767),
    ("taken, first 32,767", |seen| seen.taken(Form::Old) && seen.farthest().0 == 32_767),
    ("taken, counter 65,535", |seen| seen.taken(Form::Old) && seen.sizes.counter == 65_535),
];

impl Seen<'_> {
    fn taken(&self, wanted: Form) -> bool {
        self.wanted == wanted && self.number == 0
    }

    /// Refused with 19, for these causes and no others.
    fn refused(&self, wanted: Form, causes: &[Hindrance]) -> bool {
        self.wanted == wanted && self.number == 19 && self.hindrances == causes
    }

    /// Refused with 17, where a longer buffer would have got 19 for these causes.
    fn too_short(&self, wanted: Form, causes: &[Hindrance]) -> bool {
        self.wanted == wanted && self.number == 17 && self.hindrances == causes
    }

    /// The highest first and the highest last.
    fn farthest(&self) -> (u64, u64) {
        let scans = model::listed(self.file, &self.sizes);
        scans.iter().fold((0, 0), |(first, last), (_, run)| (first.max(run.first), last.max(run.last)))
    }

    /// The magic in an old file's slot, whether it has a scan or not.
    fn magic(&self, slot: u64) -> u16 {
        let at = (self.sizes.l + (slot - 1) * self.sizes.m) as usize + 4;
        u16::from_be_bytes([self.file[at], self.file[at + 1]])
    }

    /// The magics of scans that are not 2, each once.
    fn odd_magics(&self) -> Vec<u16> {
        let scans = model::listed(self.file, &self.sizes);
        let mut odd: Vec<u16> = scans.iter().map(|(slot, _)| self.magic(*slot)).filter(|magic| *magic != 2).collect();
        odd.sort_unstable();
        odd.dedup();
        odd
    }

    /// Whether an empty entry says that its scan is not version 1.
    fn empty_with_a_magic(&self) -> bool {
        let scans = model::listed(self.file, &self.sizes);
        let empty = |slot: &u64| scans.iter().all(|(other, _)| other != slot);
        (1..=self.sizes.capacity()).filter(empty).any(|slot| ![0, 2].contains(&self.magic(slot)))
    }
}

/// The counts of conversions.
#[derive(Clone, Default, PartialEq, Eq)]
pub struct Moves {
    /// By direction and answer.
    answers: [[u64; ANSWERS.len()]; 2],
    facts: [u64; FACTS.len()],
    ways: [u64; WAYS.len()],
}

impl Moves {
    /// Counts a call where it is a conversion.
    pub fn count(&mut self, call: &Call, number: u32, file: &[u8]) {
        let direction = match call {
            Call::ToCurrent => 0,
            Call::ToOld => 1,
            _ => return,
        };
        if let Some(answer) = ANSWERS.iter().position(|answer| *answer == number) {
            self.answers[direction][answer] += 1;
        }
        let Ok(sizes) = model::open(file) else { return };
        let wanted = WANTED[direction].1;
        let seen = Seen { wanted, number, file, sizes, hindrances: model::hindrances(file, &sizes, wanted) };
        for (count, (_, is_so)) in self.facts.iter_mut().zip(FACTS) {
            *count += u64::from(is_so(&seen));
        }
    }

    /// Counts a way there and home again, after which the bytes were the same or need not have been.
    pub fn count_way(&mut self, from_current: bool, byte_for_byte: bool) {
        self.ways[usize::from(from_current) + 2 * usize::from(byte_for_byte)] += 1;
    }

    /// The counts in a row.
    pub fn numbers(&self) -> impl Iterator<Item = &u64> {
        self.answers.iter().flatten().chain(&self.facts).chain(&self.ways)
    }

    /// The same, to add to.
    pub fn numbers_mut(&mut self) -> impl Iterator<Item = &mut u64> {
        self.answers.iter_mut().flatten().chain(&mut self.facts).chain(&mut self.ways)
    }

    /// The names of the counts, in the same order.
    pub fn names() -> impl Iterator<Item = String> {
        let answers = WANTED.iter().flat_map(|(name, _)| ANSWERS.map(|number| format!("{name}, {number}")));
        answers.chain(FACTS.iter().map(|(name, _)| name.to_string())).chain(WAYS.map(str::to_string))
    }
}
