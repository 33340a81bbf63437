//! What verdicts over the link came upon: where the pieces were cut, what they brought, the rows that were lent, links made
//! by hand, and how each call was answered. From the ground up: `seen`.

mod seen;

use crate::call::{Answer, Call, Lent};
use model::{Form, ROW};
use seen::Seen;

/// The numbers that a beginning or a piece can be answered with; 0 is that it is accepted.
const ANSWERS: [u32; 2] = [0, 17];

/// Those of a finish.
const FINISHED: [u32; 10] = [0, 1, 3, 4, 5, 6, 7, 8, 17, 20];

/// How long a first piece is: every cut of the bootstrap, and some past it.
const FIRST_CUTS: usize = 37;

/// Before which of an entry's first bytes a piece ends: those of its two numbers, and two more.
const ENTRY_CUTS: [(&str, Form, usize); 2] = [("a current entry", Form::Current, 10), ("an old entry", Form::Old, 6)];
const ALL_ENTRY_CUTS: usize = ENTRY_CUTS[0].2 + ENTRY_CUTS[1].2;

/// A name, and whether what is seen is such a thing.
type Fact = (&'static str, fn(&Seen) -> bool);

const FACTS: [Fact; 80] = [
    // where pieces end
    ("all that is judged in one piece", |seen| {
        seen.took_of(|seen, after, z| seen.before.came == 0 && after.came == z.n * z.l)
    }),
    ("a piece that goes from the bootstrap into an entry", |seen| {
        seen.took_of(|seen, after, z| seen.before.came < 32 && z.l < after.came)
    }),
    ("a piece that ends with record 1", |seen| seen.took_of(|seen, after, z| seen.bytes > 0 && after.came == z.l)),
    ("a piece that goes from an index record into the next", |seen| {
        seen.took_of(|seen, after, z| {
            z.l <= seen.before.came && seen.before.came / z.l < after.came.max(1).div_ceil(z.l) - 1
        })
    }),
    ("a piece that ends a byte before the index", |seen| {
        seen.took_of(|seen, _, z| seen.bytes > 0 && seen.upto() == z.n * z.l - 1)
    }),
    ("a piece that ends with the index", |seen| seen.took_of(|seen, _, z| seen.bytes > 0 && seen.upto() == z.n * z.l)),
    ("a piece that ends a byte past the index", |seen| {
        seen.took_of(|seen, _, z| seen.bytes > 1 && seen.upto() == z.n * z.l + 1)
    }),
    ("a piece past the index", |seen| seen.took_of(|seen, _, z| seen.bytes > 0 && seen.before.came == z.n * z.l)),
    ("more bytes in one piece than the length has", |seen| {
        seen.took_of(|seen, after, _| seen.before.came == 0 && seen.bytes > after.length)
    }),
    ("bytes of a length below 512", |seen| {
        seen.took(|seen, after| seen.bytes > 0 && after.length < 512 && *after == seen.before)
    }),
    ("an empty piece before any byte", |seen| seen.took(|seen, after| seen.bytes == 0 && after.came == 0)),
    ("an empty piece within the bootstrap", |seen| {
        seen.took(|seen, after| seen.bytes == 0 && (1..32).contains(&after.came))
    }),
    ("an empty piece within the index", |seen| {
        seen.took_of(|seen, after, z| seen.bytes == 0 && z.l < after.came && after.came < z.n * z.l)
    }),
    ("an empty piece after the index", |seen| {
        seen.took_of(|seen, after, z| seen.bytes == 0 && after.came == z.n * z.l)
    }),
    // what they bring
    ("the end of a bootstrap refused with 3", |seen| seen.ended_boot(3)),
    ("the end of a bootstrap refused with 4", |seen| seen.ended_boot(4)),
    ("the end of a bootstrap refused with 5", |seen| seen.ended_boot(5)),
    ("a piece after a bootstrap refused with 3", |seen| seen.took_after(3)),
    ("a piece after a bootstrap refused with 4", |seen| seen.took_after(4)),
    ("a piece after a bootstrap refused with 5", |seen| seen.took_after(5)),
    ("a current number of 2^24 or more", |seen| seen.brought(Form::Current, |run| run.iter().any(|x| *x >= 1 << 24))),
    ("a current number of 256 to 65,535", |seen| {
        seen.brought(Form::Current, |run| run.iter().any(|x| (256..65_536).contains(x)))
    }),
    ("a current run of several records", |seen| seen.brought(Form::Current, |run| 0 < run[0] && run[0] < run[1])),
    ("an old number of 256 or more", |seen| {
        seen.brought(Form::Old, |run| run.iter().any(|x| (256..32_768).contains(x)))
    }),
    ("an old number below zero", |seen| seen.brought(Form::Old, |run| run.iter().any(|x| *x >= 0xffff_8000))),
    ("an old run of several records", |seen| seen.brought(Form::Old, |run| 0 < run[0] && run[0] < run[1])),
    ("the row's last element, of a current file", |seen| {
        seen.took_of(|seen, after, z| z.form == Form::Current && seen.brings_last_of(4_096, after, z))
    }),
    ("the row's last element, of an old file", |seen| {
        seen.took_of(|seen, after, z| z.form == Form::Old && seen.brings_last_of(4_096, after, z))
    }),
    // links made by hand take pieces
    ("by hand, byte 31 is to come", |seen| seen.took_by_hand(|before, after| before.came == 31 && after.came > 31)),
    ("by hand, byte 32 is to come", |seen| seen.took_by_hand(|before, after| before.came == 32 && after.came > 32)),
    ("by hand, byte 33 is to come", |seen| seen.took_by_hand(|before, after| before.came == 33 && after.came > 33)),
    ("by hand, an index_end before the bootstrap came", |seen| {
        seen.took_by_hand(|before, after| before.came < 31 && before.index_end > 0 && after.index_end == 0)
    }),
    ("by hand, bytes that count of a length below 512", |seen| {
        seen.took_by_hand(|before, after| before.length < 512 && before.came < after.came)
    }),
    ("by hand, length 511 and the bootstrap does not come", |seen| {
        seen.took_by_hand(|before, after| before.length == 511 && before.came < 32 && before.boot == after.boot)
    }),
    ("by hand, length 512 and the bootstrap comes", |seen| {
        seen.took_by_hand(|before, after| before.length == 512 && before.came < 32 && before.came < after.came)
    }),
    ("by hand, length 2^64-1", |seen| {
        seen.took_by_hand(|before, after| before.length == u64::MAX && before.came < after.came)
    }),
    ("by hand, the last byte up to index_end", |seen| {
        seen.took_by_hand(|before, after| {
            before.index_end.checked_sub(before.came) == Some(1) && after.came > before.came
        })
    }),
    ("by hand, came at index_end", |seen| {
        seen.bytes > 0 && seen.took_by_hand(|before, after| before.came == before.index_end && before == after)
    }),
    ("by hand, came past index_end", |seen| {
        seen.bytes > 0 && seen.took_by_hand(|before, after| before.came > before.index_end && before == after)
    }),
    ("by hand, came to 2^64-1", |seen| {
        seen.took_by_hand(|before, after| before.came < after.came && after.came == u64::MAX)
    }),
    ("by hand, came at 2^64-1", |seen| seen.bytes > 0 && seen.took_by_hand(|before, _| before.came == u64::MAX)),
    ("by hand, past the last slot", |seen| {
        seen.came_by_hand(|before, said| said.has_slots() && before.came >= said.n * said.l)
    }),
    ("by hand, the index ends within N x L", |seen| {
        seen.came_by_hand(|before, said| said.has_slots() && said.l < before.came && before.index_end < said.n * said.l)
    }),
    ("by hand, M is 0", |seen| seen.came_by_hand(|_, said| said.m == 0)),
    ("by hand, L is 0", |seen| seen.came_by_hand(|_, said| said.l == 0)),
    ("by hand, N is 0", |seen| seen.came_by_hand(|_, said| said.n == 0)),
    ("by hand, M is no divisor of L", |seen| seen.came_by_hand(|_, said| said.is_uneven())),
    ("by hand, more than 4,096 slots", |seen| seen.came_by_hand(|_, said| said.has_too_many_slots())),
    ("by hand, D is out of range and entries come", |seen| {
        seen.came_by_hand(|before, said| {
            said.has_slots() && said.d > 1_000_000 && said.l < before.came && before.came < said.n * said.l
        })
    }),
    ("by hand, of no version that is known", |seen| {
        seen.came_by_hand(|before, said| said.has_slots() && said.version > 1 && said.l <= before.came)
    }),
    // finish
    ("20, nothing came", |seen| seen.finished(20, |link| link.came == 0)),
    ("20, 31 bytes came", |seen| seen.finished(20, |link| link.came == 31)),
    ("20, 32 bytes came", |seen| seen.finished(20, |link| link.came == 32)),
    ("20, a byte of the index is missing", |seen| seen.finished_of(20, |link, z| link.came + 1 == z.n * z.l)),
    ("20, of 512 bytes", |seen| seen.finished(20, |link| link.length == 512)),
    ("1, of 511 bytes", |seen| seen.finished(1, |link| link.length == 511)),
    ("1, of no bytes", |seen| seen.finished(1, |link| link.length == 0)),
    ("3, of 512 bytes", |seen| seen.finished(3, |link| link.length == 512)),
    ("5, a byte is missing", |seen| seen.finished_over(5, |link, said| (said.n + said.d) * said.l == link.length + 1)),
    ("taken, no byte beyond what is in use", |seen| {
        seen.finished_over(0, |link, said| (said.n + said.d) * said.l == link.length)
    }),
    ("taken, room for more than 1,000,000 records", |seen| {
        seen.finished_of(0, |link, z| link.length / z.l > 1_000_000)
    }),
    ("taken, length 2^64-1", |seen| seen.finished(0, |link| link.length == u64::MAX)),
    ("taken, 4,096 slots", |seen| seen.finished_of(0, |_, z| z.capacity() == 4_096)),
    ("6 in slot 1", |seen| seen.finished_at(6, |_, slot| slot == 1)),
    ("6 in slot U", |seen| seen.finished_at(6, |z, slot| slot == z.u)),
    ("7 in the slot above U", |seen| seen.finished_at(7, |z, slot| slot == z.u + 1)),
    ("7 in the last slot", |seen| seen.finished_at(7, |z, slot| slot == z.capacity())),
    ("8 in slot 2", |seen| seen.finished_at(8, |_, slot| slot == 2)),
    ("8 in slot U", |seen| seen.finished_at(8, |z, slot| slot == z.u)),
    ("by hand, taken", |seen| seen.finished_by_hand(0)),
    ("by hand, 5", |seen| seen.finished_by_hand(5)),
    ("by hand, 6", |seen| seen.finished_by_hand(6)),
    ("by hand, 7", |seen| seen.finished_by_hand(7)),
    ("by hand, 8", |seen| seen.finished_by_hand(8)),
    ("by hand, 20", |seen| seen.finished_by_hand(20)),
    // the row
    ("17, a beginning with a row of none", |seen| seen.row(0, 17, |len| len == 0)),
    ("17, a beginning with an element too few", |seen| seen.row(0, 17, |len| len + 1 == ROW)),
    ("17, a piece with an element too few", |seen| seen.row(1, 17, |len| len + 1 == ROW) && seen.bytes > 0),
    ("17, a finish with an element too few", |seen| seen.row(2, 17, |len| len + 1 == ROW)),
    ("taken, with elements past the row", |seen| seen.longer_row(1) && seen.bytes > 0),
];

/// The counts of verdicts over the link.
#[derive(Clone, PartialEq, Eq)]
pub struct Links {
    /// Of a beginning and of a piece, by answer.
    answers: [[u64; ANSWERS.len()]; 2],
    /// Of a finish by the file's form and by answer.
    finished: [[u64; FINISHED.len()]; 2],
    first_cuts: [u64; FIRST_CUTS],
    entry_cuts: [u64; ALL_ENTRY_CUTS],
    facts: [u64; FACTS.len()],
}

impl Default for Links {
    fn default() -> Links {
        Links {
            answers: Default::default(),
            finished: Default::default(),
            first_cuts: [0; FIRST_CUTS],
            entry_cuts: [0; ALL_ENTRY_CUTS],
            facts: [0; FACTS.len()],
        }
    }
}

/// Every cut of an entry of either form.
fn entry_cuts() -> impl Iterator<Item = (&'static str, Form, usize)> {
    ENTRY_CUTS.iter().flat_map(|(name, form, bytes)| (0..*bytes).map(move |byte| (*name, *form, byte)))
}

impl Links {
    /// Counts a call where it is one of the three; the file is old or not.
    pub fn count(&mut self, call: &Call, answer: &Answer, old: bool, lent: &Lent) {
        let Some(seen) = Seen::of(call, answer, lent) else { return };
        let number = answer.why().number;
        let (counts, numbers): (&mut [u64], &[u32]) = match call {
            Call::LinkBegin { .. } => (&mut self.answers[0], &ANSWERS),
            Call::LinkTake { .. } => (&mut self.answers[1], &ANSWERS),
            _ => (&mut self.finished[usize::from(old)], &FINISHED),
        };
        if let Some(place) = numbers.iter().position(|answer| *answer == number) {
            counts[place] += 1;
        }
        for (bytes, count) in self.first_cuts.iter_mut().enumerate() {
            *count += u64::from(seen.cut_first(bytes as u64));
        }
        for (count, (_, form, byte)) in self.entry_cuts.iter_mut().zip(entry_cuts()) {
            *count += u64::from(seen.cut_entry(form, byte as u64));
        }
        for (count, (_, is_so)) in self.facts.iter_mut().zip(FACTS) {
            *count += u64::from(is_so(&seen));
        }
    }

    /// The counts in a row.
    pub fn numbers(&self) -> impl Iterator<Item = &u64> {
        let answers = self.answers.iter().flatten().chain(self.finished.iter().flatten());
        answers.chain(&self.first_cuts).chain(&self.entry_cuts).chain(&self.facts)
    }

    /// The same, to add to.
    pub fn numbers_mut(&mut self) -> impl Iterator<Item = &mut u64> {
        let answers = self.answers.iter_mut().flatten().chain(self.finished.iter_mut().flatten());
        answers.chain(&mut self.first_cuts).chain(&mut self.entry_cuts).chain(&mut self.facts)
    }

    /// The names of the counts, in the same order.
    pub fn names() -> impl Iterator<Item = String> {
        let answers =
            ["a beginning", "a piece"].into_iter().flat_map(|name| ANSWERS.map(|number| format!("{name}, {number}")));
        let forms = ["a finish of a current file", "a finish of an old file"];
        let finished = forms.into_iter().flat_map(|name| FINISHED.map(|number| format!("{name}, {number}")));
        let first = (0..FIRST_CUTS).map(|bytes| format!("a first piece of {bytes} bytes"));
        let entries = entry_cuts().map(|(name, _, byte)| format!("a cut before byte {byte} of {name}"));
        let facts = FACTS.iter().map(|(name, _)| name.to_string());
        answers.chain(finished).chain(first).chain(entries).chain(facts)
    }
}
