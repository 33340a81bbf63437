//! How the cost of a call grows: with the slots, and with the records.

use crate::call::{Call, Stage};
use crate::clock::{Contender, contest, turns};
use crate::file::{File, Fill, Form, M, Order, Plan};
use crate::limit;
use crate::suite::{MOST, OLD_MOST, OLD_RUN};
use face::Calls;
use std::time::Duration;

/// How many slots growth is measured with.
const SLOTS: [usize; 5] = [256, 512, 1024, 2048, 4096];

/// A scan that goes past every gap.
const LONG: Call = Call::BeginSave(65_536);

/// One line of growth: what, and the time of each size in microseconds.
#[derive(Debug)]
pub struct Growth {
    pub what: String,
    pub by: &'static str,
    pub sizes: Vec<usize>,
    pub times: Vec<f64>,
}

impl Growth {
    /// The slope of the line through the logarithms, by least squares. None where a time is not above nothing, which
    /// a difference of two times may be.
    pub fn exponent(&self) -> Option<f64> {
        if self.times.iter().any(|time| *time <= 0.0) {
            return None;
        }
        let n = self.sizes.len() as f64;
        let x: Vec<f64> = self.sizes.iter().map(|size| (*size as f64).ln()).collect();
        let y: Vec<f64> = self.times.iter().map(|time| time.ln()).collect();
        let (mx, my) = (x.iter().sum::<f64>() / n, y.iter().sum::<f64>() / n);
        let top: f64 = x.iter().zip(&y).map(|(x, y)| (x - mx) * (y - my)).sum();
        let bottom: f64 = x.iter().map(|x| (x - mx) * (x - mx)).sum();
        Some(top / bottom)
    }
}

/// The least times of each kind of call on each of the plans, which have their turns one after the other: what slows the
/// machine for a while meets them all, also where two of the times are to be subtracted.
fn times<const KINDS: usize>(
    calls: &Calls,
    kinds: [Call; KINDS],
    plans: &[Plan],
    budget: Duration,
) -> [Vec<f64>; KINDS] {
    let each = |call: Call| plans.iter().map(move |plan| (call, Stage::new(File::new(*plan), call)));
    let mut stages: Vec<(Call, Stage)> = kinds.into_iter().flat_map(each).collect();
    let mut contenders: Vec<Contender> =
        stages.iter_mut().map(|(call, stage)| turns(move || stage.make(calls, *call))).collect();
    let least = contest(&mut contenders, budget * KINDS as u32);
    std::array::from_fn(|kind| least[kind * plans.len()..][..plans.len()].to_vec())
}

/// The least times of the decoding pass.
fn decoding(plans: &[Plan], budget: Duration) -> Vec<f64> {
    let mut files: Vec<File> = plans.iter().map(|plan| File::new(*plan)).collect();
    let mut contenders: Vec<Contender> = files
        .iter_mut()
        .map(|file| {
            let mut row = vec![0; 2 * file.plan.slots];
            let plan = file.plan;
            turns(move || limit::decode(file.map.bytes(), &plan, &mut row))
        })
        .collect();
    contest(&mut contenders, budget)
}

/// The lines of one kind of growth, for files of these plans. The free place is what a save's beginning takes beyond an
/// open; an old file is only looked at.
fn lines(who: &str, calls: &Calls, plans: &[Plan], by: &'static str, budget: Duration) -> Vec<Growth> {
    let sizes: Vec<usize> = plans.iter().map(|plan| if by == "slots" { plan.slots } else { plan.room }).collect();
    let Plan { order, form, .. } = plans[0];
    let old = if form == Form::Old { ", old" } else { "" };
    let line = |name: &str, times: Vec<f64>| Growth {
        what: format!("{who}: {name}, {order}{old}"),
        by,
        sizes: sizes.clone(),
        times,
    };
    if form == Form::Old {
        let [open, list] = times(calls, [Call::Open, Call::List], plans, budget);
        return vec![line("open", open), line("list", list)];
    }
    let [open, list, begin] = times(calls, [Call::Open, Call::List, LONG], plans, budget);
    let place = begin.iter().zip(&open).map(|(begin, open)| begin - open).collect();
    vec![line("open", open), line("list", list), line("save's beginning", begin), line("free place", place)]
}

/// With the slots, 256 to 4,096 of them, all full, in each order: a record is free between any two scans, and the scan
/// to be saved fits in none of these gaps.
pub fn with_slots(who: &str, calls: &Calls, budget: Duration) -> Vec<Growth> {
    let mut all = Vec::new();
    for order in [Order::Rising, Order::Random, Order::Falling] {
        all.extend(lines(who, calls, &slot_plans(order), "slots", budget));
        all.extend(lines(who, calls, &old_slot_plans(order), "slots", budget));
    }
    all
}

fn slot_plans(order: Order) -> Vec<Plan> {
    let plan = Plan { slots: 0, m: M, used: 0, run: 8, gap: 1, order, room: MOST, form: Form::Current };
    SLOTS.map(|slots| Plan { slots, used: slots, ..plan }).to_vec()
}

/// The same in the old form, as far as it can name the records.
fn old_slot_plans(order: Order) -> Vec<Plan> {
    let plan = Plan { slots: 0, m: M, used: 0, run: OLD_RUN - 1, gap: 1, order, room: OLD_MOST, form: Form::Old };
    SLOTS.map(|slots| Plan { slots, used: slots, ..plan }).to_vec()
}

/// With the records, 4,000 to 1,000,000 of them, over which 1,024 scans are spread.
pub fn with_records(who: &str, calls: &Calls, budget: Duration) -> Vec<Growth> {
    let plans = [4_000, 20_000, 100_000, 500_000, MOST].map(|room| {
        let empty =
            Plan { slots: 1024, m: M, used: 1024, run: 1, gap: 0, order: Order::Random, room, form: Form::Current };
        Plan { gap: (room - empty.n() - 200) / 1024 - 1, ..empty }
    });
    lines(who, calls, &plans, "records", budget)
}

/// The search without the index with the data records, 4,096 to 65,536 of them, in each of which it has every rule to ask.
pub fn of_find(who: &str, calls: &Calls, budget: Duration) -> Growth {
    let none = Plan { slots: 8, m: M, used: 0, run: 1, gap: 0, order: Order::Rising, room: 0, form: Form::Current };
    let plans = SLOTS.map(|size| Plan { room: 16 * size, ..none });
    let sizes = plans.iter().map(|plan| plan.room).collect();
    let [times] = times(calls, [Call::Find(Fill::Broken)], &plans, budget);
    Growth { what: format!("{who}: find"), by: "records", sizes, times }
}

/// The decoding pass with the slots, for comparison: caches alone make it no straight line.
pub fn of_limit(budget: Duration) -> Growth {
    let plans = slot_plans(Order::Rising);
    let sizes = plans.iter().map(|plan| plan.slots).collect();
    Growth { what: "decoding pass".to_string(), by: "slots", sizes, times: decoding(&plans, budget) }
}
