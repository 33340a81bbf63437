//! What searches for scans came upon: how they were answered in either form, what was found and where, what was not
//! found and why, and the rows that were lent. From the ground up: `missed`, `seen`.

mod missed;
mod seen;

use crate::call::{Answer, Call, Lent};
use model::Form;
use seen::Seen;

/// The numbers that a search can be answered with; 0 is that it is accepted.
const ANSWERS: [u32; 6] = [0, 1, 3, 4, 5, 17];

/// Where is searched.
const FORMS: [&str; 2] = ["a search in a current file", "a search in an old file"];

/// A name, and whether what is seen is such a thing.
type Fact = (&'static str, fn(&Seen) -> bool);

const FACTS: [Fact; 66] = [
    // the file
    ("found in a file that opens", |seen| seen.found_where_open_is(0)),
    ("found under an index refused with 6", |seen| seen.found_where_open_is(6)),
    ("found under an index refused with 7", |seen| seen.found_where_open_is(7)),
    ("found under an index refused with 8", |seen| seen.found_where_open_is(8)),
    ("found in an old file that does not open", |seen| {
        seen.found_in(|z| z.form == Form::Old) && !seen.found_where_open_is(0)
    }),
    ("found, though an old file's index has another magic there", |seen| seen.found_another_magic()),
    ("found in a file of type 1", |seen| seen.found_in(|z| z.kind == 1)),
    ("found in a file whose U is 0", |seen| seen.found_in(|z| z.u == 0)),
    ("found nothing, without data records", |seen| seen.found_nothing(|z| z.d == 0)),
    ("found nothing in data records", |seen| seen.found_nothing(|z| z.d > 0)),
    ("found a scan that a file that opens does not list", |seen| seen.found_unlisted()),
    ("found the listed runs, of a file that keeps the premises", |seen| seen.found_listed(|_| true)),
    ("found the listed runs, which slot order has otherwise", |seen| seen.found_listed(|firsts| !firsts.is_sorted())),
    ("found a listed run shorter than the index has it", |seen| seen.found_other_last(|found, listed| found < listed)),
    ("found a listed run longer than the index has it", |seen| seen.found_other_last(|found, listed| found > listed)),
    // where
    ("a find at record N+1", |seen| seen.any(|z, find| find.first == z.n + 1)),
    ("a find that ends with record N+D", |seen| seen.any(|z, find| find.first < find.last && find.last == z.n + z.d)),
    ("a find in record N+D alone", |seen| seen.any(|z, find| find.first == find.last && find.last == z.n + z.d)),
    ("two finds back to back", |seen| seen.apart(0)),
    ("two finds with one record between", |seen| seen.apart(1)),
    ("a find past record 32,767 of an old file", |seen| seen.any(|z, find| z.form == Form::Old && find.first > 32_767)),
    ("a find that ends with record 1,000,000", |seen| seen.any(|_, find| find.last == 1_000_000)),
    ("a scan in record N, which is not looked at", |seen| seen.scan_in_record_n()),
    ("a scan past record N+D, which is not looked at", |seen| seen.scan_past_the_data()),
    // how long
    ("a find that fills its records", |seen| seen.longer_than_records_by(0)),
    ("a find that fills its records but 4 bytes", |seen| seen.longer_than_records_by(-4)),
    ("a find that fills its records but 8 bytes", |seen| seen.longer_than_records_by(-8)),
    ("a find with 4 bytes in its last record", |seen| seen.longer_than_records_by(4)),
    ("a find with 8 bytes in its last record", |seen| seen.longer_than_records_by(8)),
    ("a find without data", |seen| seen.of_lengths(|_, _, data| data == 0)),
    ("a find whose last record has data alone", |seen| {
        seen.of_lengths(|l, head, data| head.div_ceil(l) < (head + data).div_ceil(l))
    }),
    ("a find longer than a scan that can be saved", |seen| seen.of_lengths(|_, head, data| head + data > 65_536)),
    ("a find with both lengths 65,536", |seen| seen.of_lengths(|_, head, data| (head, data) == (65_536, 65_536))),
    // inside
    ("a scan inside a find, which is not looked at", |seen| seen.inside(|inner, outer| inner <= outer)),
    ("a scan that reaches out of a find, which is not looked at", |seen| seen.inside(|inner, outer| inner > outer)),
    ("a find right after a record that breaks rule 2", |seen| seen.found_after(2)),
    ("a find right after a record that breaks rule 3", |seen| seen.found_after(3)),
    ("a find right after a record that breaks rule 4", |seen| seen.found_after(4)),
    ("a find right after a record that breaks rule 5", |seen| seen.found_after(5)),
    // what is nearly a scan
    ("none, 12 classes", |seen| seen.missed(|it| it.has_classes(12))),
    ("none, 16 classes", |seen| seen.missed(|it| it.has_classes(16))),
    ("none, class 1 at word 4 or 6", |seen| seen.missed(|it| it.has_start_1(4) || it.has_start_1(6))),
    ("none, class 2 at word 20", |seen| seen.missed(|it| it.has_start_2(20))),
    ("none, two classes at one word", |seen| seen.missed(|it| it.has_equal_starts())),
    ("none, HEADLEN 8 bytes too low", |seen| seen.missed(|it| it.head_is_but(|head| head + 8.0))),
    ("none, HEADLEN no multiple of 8", |seen| seen.missed(|it| it.head_is_but(|head| head - 4.0))),
    ("none, HEADLEN with a fraction", |seen| seen.missed(|it| it.head_is_but(|head| head - 0.5))),
    ("none, HEADLEN negative", |seen| seen.missed(|it| it.head_is_but(|head| -head))),
    ("none, HEADLEN 65,544", |seen| seen.missed(|it| it.head() == 65_544.0 && it.head_is_but(|head| head - 8.0))),
    ("none, DATALEN minus zero", |seen| seen.missed(|it| it.data().to_bits() == 1 << 63 && it.data_is_but(|_| 0.0))),
    ("none, DATALEN no multiple of 4", |seen| seen.missed(|it| it.data_is_but(|data| data - 2.0))),
    ("none, DATALEN with a fraction", |seen| seen.missed(|it| it.data_is_but(|data| data - 0.5))),
    ("none, DATALEN 65,540", |seen| seen.missed(|it| it.data() == 65_540.0 && it.data_is_but(|data| data - 4.0))),
    ("none, 4 bytes past the data", |seen| seen.missed(|it| it.goes_past_by(4.0) && it.data_is_but(|data| data - 4.0))),
    ("none, HEADLEN past the data, the bytes are lent", |seen| seen.past_the_data(4)),
    ("none, DATALEN past the data, the bytes are lent", |seen| seen.past_the_data(5)),
    // the word SCAN
    ("SCAN 0", |seen| seen.any(|_, find| find.scan == 0)),
    ("SCAN the lowest bit alone", |seen| seen.any(|_, find| find.scan == 1)),
    ("SCAN minus zero", |seen| seen.any(|_, find| find.scan == 1 << 63)),
    ("SCAN all ones", |seen| seen.any(|_, find| find.scan == u64::MAX)),
    // the row
    ("taken, the finds fill the row", |seen| seen.row(0, |lent, filled| filled > 0 && lent == filled)),
    ("taken, one element is left", |seen| seen.row(0, |lent, filled| filled > 0 && lent == filled + 1)),
    ("taken, a row of none", |seen| seen.row(0, |lent, _| lent == 0)),
    ("17, one element too few", |seen| seen.row(17, |lent, filled| lent + 1 == filled)),
    ("17, a row of none", |seen| seen.row(17, |lent, _| lent == 0)),
    ("17, room for a find and not for all", |seen| seen.row(17, |lent, _| lent >= 3)),
];

/// The counts of searches.
#[derive(Clone, PartialEq, Eq)]
pub struct Finds {
    /// By form and answer.
    answers: [[u64; ANSWERS.len()]; 2],
    /// The same of those that were lent a row of no elements.
    empty_rows: [[u64; ANSWERS.len()]; 2],
    facts: [u64; FACTS.len()],
}

impl Default for Finds {
    fn default() -> Finds {
        Finds { answers: Default::default(), empty_rows: Default::default(), facts: [0; FACTS.len()] }
    }
}

impl Finds {
    /// Counts a call where it is a search; the file is old or not.
    pub fn count(&mut self, call: &Call, answer: &Answer, old: bool, lent: &Lent) {
        let Call::Find { out_len } = *call else { return };
        let number = answer.why().number;
        if let Some(place) = ANSWERS.iter().position(|answer| *answer == number) {
            self.answers[usize::from(old)][place] += 1;
            self.empty_rows[usize::from(old)][place] += u64::from(out_len == 0);
        }
        let Some(seen) = Seen::of(number, out_len, lent.file) else { return };
        for (count, (_, is_so)) in self.facts.iter_mut().zip(FACTS) {
            *count += u64::from(is_so(&seen));
        }
    }

    /// The counts in a row.
    pub fn numbers(&self) -> impl Iterator<Item = &u64> {
        self.answers.iter().chain(&self.empty_rows).flatten().chain(&self.facts)
    }

    /// The same, to add to.
    pub fn numbers_mut(&mut self) -> impl Iterator<Item = &mut u64> {
        self.answers.iter_mut().chain(&mut self.empty_rows).flatten().chain(&mut self.facts)
    }

    /// The names of the counts, in the same order.
    pub fn names() -> impl Iterator<Item = String> {
        let rows = ["", " with an empty row"].into_iter().flat_map(|row| FORMS.map(|form| format!("{form}{row}")));
        let answers = rows.flat_map(|name| ANSWERS.map(|number| format!("{name}, {number}")));
        answers.chain(FACTS.iter().map(|(name, _)| name.to_string()))
    }
}
