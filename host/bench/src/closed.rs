//! No call walks what is not its own of the data section: those pages are closed, and the calls are made. One that reads or writes there ends the
//! process, so this runs in a process of its own.

use crate::call::{Call, Stage};
use crate::file::{File, Fill, Form, M, Order, Plan};
use crate::link::Part;
use crate::suite::{self, MOST, OLD_RUN};
use face::Calls;
use std::process::Command;

/// The word that makes the program do this and nothing else.
pub const WORD: &str = "--closed";

fn stage(call: Call, order: Order) -> Stage {
    let plan = Plan { slots: 4096, m: M, used: 4000, run: 128, gap: 1, order, room: MOST, form: Form::Current };
    Stage::new(File::new(plan), call)
}

/// The same in the old form.
fn old_stage(call: Call, order: Order) -> Stage {
    Stage::new(File::new(Plan { used: 4000, ..suite::old(order, OLD_RUN) }), call)
}

/// All data records.
fn close_data(stage: &Stage) {
    stage.file.map.close(stage.file.plan.n() * stage.file.plan.l()..stage.file.map.size());
}

/// A conversion of a file of this form, which has to be accepted: a refusal might come before it walks.
fn convert(calls: &Calls, call: Call, form: Form, order: Order) {
    let plan = Plan { used: 4000, form, ..suite::old(order, OLD_RUN) };
    let mut stage = Stage::new(File::new(plan), call);
    close_data(&stage);
    stage.converted(calls, call);
}

/// Makes every call with closed pages: all data records for the calls that need none of them, all but the first of its
/// own for a read, all but its own and the old scan's for a job, all but the gaps for the question of these; for the search
/// without an index the index, and all but the first record of each scan; and for a file that comes in pieces all data.
pub fn make(calls: &Calls) {
    let needs_none = [
        Call::Open,
        Call::List,
        Call::Entry,
        Call::Show,
        Call::Blank,
        Call::BeginSave(65_536),
        Call::BeginKeep(65_536),
        Call::BeginClear,
    ];
    for order in Order::ALL {
        for call in needs_none {
            let mut stage = stage(call, order);
            close_data(&stage);
            stage.make(calls, call);
        }
        read(calls, stage(Call::Read, order));
        for call in [Call::Open, Call::List, Call::Entry, Call::Show] {
            let mut stage = old_stage(call, order);
            close_data(&stage);
            stage.make(calls, call);
        }
        read(calls, old_stage(Call::Read, order));
        convert(calls, Call::ToCurrent, Form::Old, order);
        convert(calls, Call::ToOld, Form::Current, order);
        for call in [Call::Save(65_536), Call::Replace(65_536), Call::Clear(65_536), Call::ClearMiddle] {
            job(calls, stage(call, order), call);
        }
        for form in Form::ALL {
            gaps(calls, order, form);
            find(calls, order, form);
            link(calls, order, form);
        }
    }
}

/// A file that comes in pieces of 512 bytes, and one that comes as one piece, with all data records closed: these are
/// passed over unseen.
fn link(calls: &Calls, order: Order, form: Form) {
    let plan = Plan { used: 4000, room: 16_384, form, ..suite::old(order, 2) };
    let mut stage = Stage::new(File::new(plan), Call::Link(Part::Whole));
    let opened = stage.opened(calls);
    close_data(&stage);
    let Stage { lending, file, .. } = &mut stage;
    assert!(lending.judge(calls, file, Part::Whole) == opened, "the verdict is not the file's");
    let link = lending.take_whole(calls, file);
    assert!(lending.finish(calls, link) == opened, "the verdict is not the file's");
}

/// A whole job with all records closed but those that it writes its scan to, and those of the scan that the slot had.
fn job(calls: &Calls, mut stage: Stage, call: Call) {
    let place = (stage.free_place(calls) - 1) * stage.file.plan.l();
    close_data(&stage);
    if call.saves() {
        stage.file.map.open(place..place + 65_536);
    }
    if !stage.old.is_empty() {
        stage.file.map.open(stage.old.clone());
    }
    stage.make(calls, call);
}

/// The question of the gaps, with the records of all scans closed and those past the last data record. A record is a page
/// long where pages have 4,096 bytes.
fn gaps(calls: &Calls, order: Order, form: Form) {
    let plan = Plan { slots: 4096, m: 512, used: 4000, run: 2, gap: 1, order, room: 16_384, form };
    let mut stage = Stage::new(File::new(plan), Call::Gaps);
    close_data(&stage);
    for gap in stage.file.gaps() {
        stage.file.map.open(gap);
    }
    assert!(stage.asked(calls).yes == 1, "the gaps are zeros");
}

/// The search without an index, with the index closed, all records of the scans but their first ones, and those past the
/// last data record. A record is a page long, as above.
fn find(calls: &Calls, order: Order, form: Form) {
    let plan = Plan { slots: 4096, m: 512, used: 4000, run: 2, gap: 1, order, room: 16_384, form };
    let (mut stage, l) = (Stage::new(File::new(plan), Call::Find(Fill::Scans)), plan.l());
    let gaps = stage.file.gaps();
    let firsts: Vec<_> = (1..=plan.used).map(|slot| stage.file.records(slot).start).collect();
    stage.file.map.close(l..stage.file.map.size());
    gaps.into_iter().chain(firsts.into_iter().map(|at| at..at + l)).for_each(|part| stage.file.map.open(part));
    let (listed, _) = stage.found(calls);
    assert!(listed.scans == plan.used as u64, "{listed:?}");
}

/// A read with all records closed but the first of its own.
fn read(calls: &Calls, mut stage: Stage) {
    let (first, _) = stage.file.run(stage.file.middle());
    close_data(&stage);
    let l = stage.file.plan.l();
    stage.file.map.open((first - 1) * l..first * l);
    stage.make(calls, Call::Read);
}

/// Whether this program, at `path`, comes through that.
pub fn is_left_alone(path: &std::path::Path) -> bool {
    Command::new(path).arg(WORD).status().is_ok_and(|status| status.success())
}
