//! One line of the table: a call on a file, by the library, by plain Rust, and the limit of its bytes.

use crate::call::{Call, Stage};
use crate::clock::{Contender, Spread, contest, turns};
use crate::file::{File, Fill, Form, M, Plan};
use crate::limit;
use crate::link::handed_back;
use face::Calls;
use std::cell::RefCell;
use std::hint::black_box;
use std::ops::Range;
use std::time::Duration;

/// A call on a file.
#[derive(Clone, Copy, Debug)]
pub struct Case {
    pub call: Call,
    pub plan: Plan,
    /// The last slot in use shares a record with the first.
    pub shares: bool,
}

/// What one run of a case took, in microseconds.
#[derive(Clone, Copy, Debug)]
pub struct Times {
    pub library: f64,
    pub plain: f64,
    /// The decoding passes that the call cannot do without, and one copy of the scan, one fill of N records or of the old
    /// scan's, or one pass of C's memcmp over the gaps; of a search one look at each data record; of a piece of a file
    /// that comes in pieces a call that hands the link back.
    pub limit: f64,
    /// An open of the same file by the library.
    pub open: f64,
    /// The scan copied record by record, and compared.
    pub copies: f64,
}

impl Case {
    /// The file, in words.
    pub fn file(&self) -> String {
        let Plan { slots, used, run, order, room, form, m, .. } = self.plan;
        let old = if form == Form::Old { "old, " } else { "" };
        let runs = if used == 0 { "empty".to_string() } else { format!("{used} used {order}, runs of {run}") };
        let shares = if self.shares { ", refused 8" } else { "" };
        let wide = if m == M { String::new() } else { format!(", M {m}") };
        format!("{old}{slots} slots{wide}, {runs}{shares}, {room} records")
    }

    /// Call and file.
    pub fn name(&self) -> String {
        format!("{}, {}", self.call, self.file())
    }

    /// How often a call judges the index: at its beginning, and a whole job once more when it is confirmed.
    fn judgements(&self) -> usize {
        match self.call {
            Call::Blank | Call::Find(_) | Call::Take(_) => 0,
            job if job.is_job() => 2,
            _ => 1,
        }
    }

    /// The file, and what the call needs beside it.
    pub fn stage(&self) -> Stage {
        let file = File::new(self.plan);
        Stage::new(if self.shares { file.share() } else { file }, self.call)
    }

    /// Looks whether library and plain Rust do the same: opens, and where it is one the conversion or the whole job.
    fn agree(&self, stage: &mut Stage, library: &Calls, plain: &Calls) {
        assert_eq!(stage.opened(library), stage.opened(plain), "{}: the two do not do the same", self.name());
        if self.call.is_move() {
            let same = stage.converted(library, self.call) == stage.converted(plain, self.call);
            assert!(same, "{}: the two do not write the same", self.name());
        }
        if self.call == Call::Gaps {
            let asked = [library, plain].map(|calls| stage.asked(calls));
            assert!(asked[0] == asked[1] && asked[0].yes == 1, "{}: {asked:?}", self.name());
        }
        if let Call::Find(what) = self.call {
            let found = [library, plain].map(|calls| stage.found(calls));
            let scans = if what == Fill::Scans { self.plan.used } else { 0 };
            let fine = found[0] == found[1] && found[0].0.scans == scans as u64 && found[0].0.why.number == 0;
            assert!(fine, "{}: {:?} and {:?}, and {scans} scans are there", self.name(), found[0].0, found[1].0);
        }
        if let Call::Link(part) = self.call {
            let judged = [library, plain].map(|calls| stage.lending.judged(calls, &stage.file, part));
            assert!(judged[0] == judged[1], "{}: the two do not judge the same", self.name());
            assert_eq!(judged[0].0, stage.opened(plain), "{}: the verdict is not the file's", self.name());
        }
        if let Call::Take(_) = self.call {
            let taken = [library, plain].map(|calls| stage.lending.taken(calls, &stage.file));
            assert!(taken[0] == taken[1], "{}: the two do not take the same", self.name());
        }
        if self.call.is_job() {
            let done = [library, plain].map(|calls| stage.done(calls, self.call));
            assert_eq!(done[0], done[1], "{}: the two do not end the same", self.name());
        }
    }

    /// The one pass over bytes that the call cannot do without, beside its judgements: of these gaps, of the data
    /// records' beginnings, of a scan that is copied to its place and of the old one's records, of N records.
    fn pass(&self, stage: &mut Stage, gaps: &[Range<usize>], place: usize, copied: &[u8]) {
        let (file, l) = (stage.file.map.bytes(), self.plan.l());
        match self.call {
            Call::Find(_) => {
                let data = stage.file.data();
                black_box(limit::beginnings(&stage.file.map.bytes()[data], l));
            }
            Call::Blank => file[..self.plan.n() * l].fill(0),
            Call::Gaps => assert!(limit::zeros(file, l, gaps)),
            Call::ToCurrent | Call::ToOld => stage.second.bytes().fill(0),
            Call::Take(_) => _ = black_box(handed_back(black_box(stage.lending.link))),
            _ => {
                file[place..place + copied.len()].copy_from_slice(copied);
                file[stage.old.clone()].fill(0);
            }
        }
    }

    /// One run.
    pub fn run(&self, budget: Duration) -> Times {
        let (library, plain) = (sdd::calls(), plain::calls());
        let mut stage = self.stage();
        self.agree(&mut stage, &library, &plain);
        let l = self.plan.l();
        let place = (stage.free_place(&plain).max(1) - 1) * l;
        let copied = if self.call.saves() { stage.scan.clone() } else { Vec::new() };
        let gaps = if self.call == Call::Gaps { stage.file.gaps() } else { Vec::new() };
        let mut row = vec![0u32; 2 * self.plan.slots];
        let stage = RefCell::new(stage);
        let mut contenders: Vec<Contender> = vec![
            turns(|| stage.borrow_mut().make(&library, self.call)),
            turns(|| stage.borrow_mut().make(&plain, self.call)),
            turns(|| {
                let stage = &mut *stage.borrow_mut();
                for _ in 0..self.judgements() {
                    limit::decode(stage.file.map.bytes(), &self.plan, &mut row);
                }
                self.pass(stage, &gaps, place, &copied);
            }),
            turns(|| stage.borrow_mut().make(&library, Call::Open)),
            turns(|| {
                let mut stage = stage.borrow_mut();
                let file = stage.file.map.bytes();
                limit::copy(file, l, place, &copied);
                assert!(limit::same(file, place, &copied));
            }),
        ];
        contenders.truncate(match self.call {
            Call::Save(_) => 5,
            Call::Link(_) => 4,
            _ => 3,
        });
        let least = contest(&mut contenders, budget);
        let more = |i: usize| least.get(i).copied().unwrap_or(f64::NAN);
        Times { library: least[0], plain: least[1], limit: least[2], open: more(3), copies: more(4) }
    }
}

/// All runs of a case.
pub struct Line {
    pub case: Case,
    pub runs: Vec<Times>,
}

impl Line {
    /// The spread over the runs of something made of a run's times.
    pub fn spread(&self, of: impl Fn(&Times) -> f64) -> Spread {
        Spread::of(self.runs.iter().map(of))
    }

    /// The library's time over plain Rust's.
    pub fn beside_plain(&self) -> Spread {
        self.spread(|t| t.library / t.plain)
    }

    /// The library's time over that of an open of the same file, where that was taken.
    pub fn beside_open(&self) -> Option<Spread> {
        let spread = self.spread(|t| t.library / t.open);
        (!spread.middle.is_nan()).then_some(spread)
    }

    /// The library's time over the limit.
    pub fn beside_limit(&self) -> Spread {
        self.spread(|t| t.library / t.limit)
    }
}
