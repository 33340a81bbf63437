//! The files that are measured on.

use crate::map::Map;
use std::fmt;
use std::ops::Range;

/// Bytes per index entry, but for some conversions; a record has eight entries in every file here.
pub const M: usize = 64;

/// Which bootstrap and index a file has.
#[derive(Clone, Copy, Debug, PartialEq, Eq)]
pub enum Form {
    Old,
    Current,
}

impl Form {
    /// Both.
    pub const ALL: [Form; 2] = [Form::Old, Form::Current];

    /// Bytes of a word of the bootstrap, and of an entry's first and last.
    pub fn word(self) -> usize {
        match self {
            Form::Old => 2,
            Form::Current => 4,
        }
    }
}

/// How the runs of the slots follow each other.
#[derive(Clone, Copy, Debug, PartialEq, Eq)]
pub enum Order {
    /// Each run lies past those of the smaller slots.
    Rising,
    /// As dice say, the same dice at each run.
    Random,
    /// Each run lies before those of the smaller slots.
    Falling,
    /// Rising but for the last slot, which lies before all others.
    Late,
}

impl Order {
    /// All four.
    pub const ALL: [Order; 4] = [Order::Rising, Order::Random, Order::Falling, Order::Late];
}

impl fmt::Display for Order {
    fn fmt(&self, f: &mut fmt::Formatter) -> fmt::Result {
        f.write_str(match self {
            Order::Rising => "rising",
            Order::Random => "random",
            Order::Falling => "falling",
            Order::Late => "late",
        })
    }
}

/// What the data records hold where scans are looked for in them without the index.
#[derive(Clone, Copy, Debug, PartialEq, Eq)]
pub enum Fill {
    /// Zeros.
    Zeros,
    /// The scans of the index, each in all of its records, with its slot as its number.
    Scans,
    /// Bytes by chance.
    Junk,
    /// In every record the beginning of a scan that breaks rule 5, the last that is asked of it.
    Broken,
}

/// What a file is like.
#[derive(Clone, Copy, Debug)]
pub struct Plan {
    /// The capacity, a multiple of eight.
    pub slots: usize,
    /// Bytes per index entry.
    pub m: usize,
    /// How many of them, from the first on, hold a scan.
    pub used: usize,
    /// Records per scan.
    pub run: usize,
    /// Free records after each scan.
    pub gap: usize,
    pub order: Order,
    /// The records that the lent memory has room for.
    pub room: usize,
    pub form: Form,
}

impl Plan {
    /// Records of bootstrap and index.
    pub fn n(&self) -> usize {
        self.slots / 8 + 1
    }

    /// Bytes per record.
    pub fn l(&self) -> usize {
        8 * self.m
    }

    /// Where a slot's entry begins.
    pub fn home(&self, slot: usize) -> usize {
        self.l() + (slot - 1) * self.m
    }

    fn place(&self, dice: &[usize], slot: usize) -> usize {
        match self.order {
            Order::Rising => slot - 1,
            Order::Random => dice[slot - 1],
            Order::Falling => self.used - slot,
            Order::Late => slot % self.used,
        }
    }
}

/// A file in memory of its own.
pub struct File {
    pub plan: Plan,
    pub map: Map,
}

impl File {
    /// The file of a plan. The scan of each slot stands at the front of its records in the middle slot alone, which is
    /// the one that is shown and read.
    pub fn new(plan: Plan) -> File {
        let l = plan.l();
        let mut map = Map::new(plan.room * l);
        let dice = shuffled(plan.used);
        let n = plan.n();
        let mut highest = n;
        let bytes = map.bytes();
        // an index that was never written would stand on one page of zeros, which caches treat in their own way
        bytes[..n * l].fill(0);
        for slot in 1..=plan.used {
            let first = n + 1 + plan.place(&dice, slot) * (plan.run + plan.gap);
            let last = first + plan.run - 1;
            highest = highest.max(last);
            put_run(bytes, &plan, slot, first, last);
            let entry = &mut bytes[plan.home(slot)..][..plan.m];
            entry[16..32].copy_from_slice(b"ORION A         ");
            entry[56..58].copy_from_slice(&520u16.to_be_bytes());
        }
        assert!(highest <= plan.room, "no room for {plan:?}");
        for (i, number) in [n, highest - n, l, plan.m, plan.used, 7].into_iter().enumerate() {
            put(bytes, plan.form, plan.form.word() * i, number);
        }
        bytes[31] = u8::from(plan.form == Form::Current);
        let mut file = File { plan, map };
        if plan.used > 0 {
            let (first, last) = file.run(file.middle());
            let len = ((last - first + 1) * l).min(65_536);
            file.map.bytes()[(first - 1) * l..][..len].copy_from_slice(&sample::scan(len, 1));
        }
        file
    }

    /// The slot in the middle of those in use.
    pub fn middle(&self) -> usize {
        self.plan.used.div_ceil(2)
    }

    /// First and last record of a slot.
    pub fn run(&mut self, slot: usize) -> (usize, usize) {
        let size = self.plan.form.word();
        let home = self.plan.home(slot);
        let entry = &self.map.bytes()[home..];
        (number(&entry[..size]), number(&entry[size..2 * size]))
    }

    /// The bytes of a slot's records, none where it is empty.
    pub fn records(&mut self, slot: usize) -> Range<usize> {
        let l = self.plan.l();
        match self.run(slot) {
            (0, _) => 0..0,
            (first, last) => (first - 1) * l..last * l,
        }
    }

    /// The bytes of the data records that belong to no scan, lowest first.
    pub fn gaps(&mut self) -> Vec<Range<usize>> {
        let mut scans: Vec<Range<usize>> = (1..=self.plan.used).map(|slot| self.records(slot)).collect();
        scans.sort_unstable_by_key(|scan| scan.start);
        let mut next = self.plan.n() * self.plan.l();
        let between = scans.into_iter().map(|scan| {
            let gap = next..scan.start;
            next = scan.end;
            gap
        });
        // the last data record is a scan's in every file here
        between.filter(|gap| !gap.is_empty()).collect()
    }

    /// Writes zeros there, so that they have pages of their own, as the bytes of a file that was read.
    pub fn touch_gaps(&mut self) {
        for gap in self.gaps() {
            self.map.bytes()[gap].fill(0);
        }
    }

    /// The bytes of all data records.
    pub fn data(&mut self) -> Range<usize> {
        let (n, l, word) = (self.plan.n(), self.plan.l(), self.plan.form.word());
        n * l..(n + number(&self.map.bytes()[word..2 * word])) * l
    }

    /// Fills the data records for a search. A file without scans gets as many of them as it has room for. All of them have
    /// pages of their own, as the bytes of a file that was read; but of a scan the first record is enough.
    pub fn fill(&mut self, what: Fill) {
        let Plan { room, used, run, form, .. } = self.plan;
        let l = self.plan.l();
        if used == 0 {
            put(self.map.bytes(), form, form.word(), room - self.plan.n());
        }
        let data = self.data();
        match what {
            Fill::Zeros => self.map.bytes()[data].fill(0),
            Fill::Junk => fill_by_chance(&mut self.map.bytes()[data]),
            Fill::Broken => {
                let mut scan = sample::scan(l, 9);
                scan[40..48].copy_from_slice(&(-8f64).to_be_bytes());
                self.map.bytes()[data].chunks_exact_mut(l).for_each(|record| record.copy_from_slice(&scan));
            }
            Fill::Scans => {
                let mut scan = sample::scan(run * l, 9);
                for slot in 1..=used {
                    scan[48..56].copy_from_slice(&(slot as f64).to_be_bytes());
                    let at = self.records(slot).start;
                    self.map.bytes()[at..at + l].copy_from_slice(&scan[..l]);
                }
            }
        }
    }

    /// Makes the last slot in use share a record with the first one.
    pub fn share(mut self) -> File {
        let (first, last) = self.run(1);
        put_run(self.map.bytes(), &self.plan, self.plan.used, first, last);
        self
    }
}

/// A big-endian number.
fn number(bytes: &[u8]) -> usize {
    bytes.iter().fold(0, |word, byte| word << 8 | usize::from(*byte))
}

/// Puts a word of the form.
fn put(bytes: &mut [u8], form: Form, at: usize, number: usize) {
    match form {
        Form::Old => {
            let number = i16::try_from(number).expect("an old file has no such number");
            bytes[at..at + 2].copy_from_slice(&number.to_be_bytes());
        }
        Form::Current => bytes[at..at + 4].copy_from_slice(&(number as u32).to_be_bytes()),
    }
}

/// Puts a slot's first and last, and of an old one that its scan is version 1.
fn put_run(bytes: &mut [u8], plan: &Plan, slot: usize, first: usize, last: usize) {
    let (at, form) = (plan.home(slot), plan.form);
    put(bytes, form, at, first);
    put(bytes, form, at + form.word(), last);
    if form == Form::Old {
        put(bytes, form, at + 4, 2);
    }
}

/// 0 to `n` - 1 in random order.
fn shuffled(n: usize) -> Vec<usize> {
    let mut all: Vec<usize> = (0..n).collect();
    let mut dice = dice();
    for i in (1..n).rev() {
        all.swap(i, (dice() % (i as u64 + 1)) as usize);
    }
    all
}

fn fill_by_chance(bytes: &mut [u8]) {
    let mut dice = dice();
    bytes.chunks_exact_mut(8).for_each(|chunk| chunk.copy_from_slice(&dice().to_be_bytes()));
}

/// Numbers by chance, the same at each run.
fn dice() -> impl FnMut() -> u64 {
    let mut state = 0x9e37_79b9_7f4a_7c15_u64;
    move || {
        state ^= state << 13;
        state ^= state >> 7;
        state ^= state << 17;
        state
    }
}
