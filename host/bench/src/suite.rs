//! What is measured: the lines of the table.

use crate::call::Call;
use crate::case::Case;
use crate::file::{Fill, Form, M, Order, Plan};
use crate::link::{PIECE, Part, Piece};

/// The most records that a file has.
pub const MOST: usize = 1_000_000;
/// What an old entry can name, and the records of a scan with which 4,096 of them fill nearly all of it.
pub const OLD_MOST: usize = 32_767;
pub const OLD_RUN: usize = 7;

/// A full index.
fn full(slots: usize, order: Order, run: usize) -> Plan {
    Plan { slots, m: M, used: slots, run, gap: 0, order, room: MOST, form: Form::Current }
}

/// A full index of 4,096 slots in the old form.
pub fn old(order: Order, run: usize) -> Plan {
    Plan { room: OLD_MOST, form: Form::Old, ..full(4096, order, run) }
}

fn case(call: Call, plan: Plan) -> Case {
    Case { call, plan, shares: false }
}

/// Open: an index that is empty, full in each order, and refused for its last slot.
fn opens(slots: usize) -> Vec<Case> {
    let mut cases = vec![case(Call::Open, Plan { used: 0, ..full(slots, Order::Rising, 1) })];
    for order in Order::ALL {
        cases.extend([1, 8, 128].map(|run| case(Call::Open, full(slots, order, run))));
    }
    cases.push(Case { shares: true, ..case(Call::Open, full(slots, Order::Random, 8)) });
    cases
}

/// The old form: open as in the current one, and the calls that look.
fn olds() -> Vec<Case> {
    let mut cases = vec![case(Call::Open, Plan { used: 0, ..old(Order::Rising, 1) })];
    for order in Order::ALL {
        cases.extend([1, OLD_RUN].map(|run| case(Call::Open, old(order, run))));
    }
    cases.push(Case { shares: true, ..case(Call::Open, old(Order::Random, OLD_RUN)) });
    for order in [Order::Rising, Order::Random, Order::Falling] {
        let plan = Plan { used: 4095, ..old(order, OLD_RUN) };
        cases.extend([Call::List, Call::Entry, Call::Show, Call::Read].map(|call| case(call, plan)));
    }
    cases
}

/// Conversions, of full indexes and of an empty one, with entries of 64, 128 and 512 bytes: either form into the other.
fn moves() -> Vec<Case> {
    let mut cases = Vec::new();
    for (call, form) in [(Call::ToCurrent, Form::Old), (Call::ToOld, Form::Current)] {
        for m in [M, 128, 512] {
            let plan = |order| Plan { m, form, ..old(order, OLD_RUN) };
            cases.extend([Order::Rising, Order::Random].map(|order| case(call, plan(order))));
            cases.push(case(call, Plan { used: 0, ..plan(Order::Rising) }));
        }
    }
    cases
}

/// The calls that look, and the beginnings of jobs.
fn looks() -> Vec<Case> {
    let calls = [Call::List, Call::Entry, Call::Show, Call::Read];
    let begins = [Call::BeginSave(512), Call::BeginSave(65_536), Call::BeginKeep(512), Call::BeginClear];
    let mut cases = Vec::new();
    for order in [Order::Rising, Order::Random, Order::Falling] {
        let plan = Plan { used: 4095, ..full(4096, order, 8) };
        cases.extend(calls.into_iter().chain(begins).map(|call| case(call, plan)));
    }
    cases.push(case(Call::Blank, full(4096, Order::Rising, 1)));
    cases
}

/// The question of the gaps on 32 MiB of records, of 512 and of 4,096 bytes: most of them in no scan, and half of them; and
/// half of what the old form can name.
fn gaps(orders: &[Order]) -> Vec<Case> {
    let plan = |m, room, used, run, gap, order| Plan { m, room, used, gap, ..full(4096, order, run) };
    let mut cases = vec![
        case(Call::Gaps, plan(M, 65_536, 256, 1, 252, Order::Rising)),
        case(Call::Gaps, plan(512, 8_192, 64, 1, 118, Order::Rising)),
    ];
    for order in orders {
        cases.push(case(Call::Gaps, plan(M, 65_536, 4_096, 8, 7, *order)));
        cases.push(case(Call::Gaps, plan(512, 8_192, 3_800, 1, 1, *order)));
        cases.push(case(Call::Gaps, Plan { used: 2_048, gap: 8, ..old(*order, OLD_RUN) }));
    }
    cases
}

/// The search without the index: 1,000,000 records of zeros; 4,096 scans one after the other, of 1 and of 8 records, and as
/// many as the old form can name; 32 MiB of junk, and of records that break only the last rule.
fn finds() -> Vec<Case> {
    let none = Plan { used: 0, ..full(8, Order::Rising, 1) };
    let scans = |run| Plan { room: 513 + 4_096 * run, ..full(4096, Order::Rising, run) };
    vec![
        case(Call::Find(Fill::Zeros), none),
        case(Call::Find(Fill::Zeros), Plan { form: Form::Old, room: OLD_MOST, ..none }),
        case(Call::Find(Fill::Scans), scans(1)),
        case(Call::Find(Fill::Scans), scans(8)),
        case(Call::Find(Fill::Scans), old(Order::Rising, OLD_RUN)),
        case(Call::Find(Fill::Junk), Plan { room: 65_536, ..none }),
        case(Call::Find(Fill::Broken), Plan { room: 65_536, ..none }),
    ]
}

/// A file of which every record is in use, with scans of one record in all slots.
fn whole(slots: usize, order: Order, form: Form) -> Plan {
    Plan { room: slots / 8 + 1 + slots, form, ..full(slots, order, 1) }
}

/// Files that come in pieces of 512 bytes, as a whole and up to the end of the index; and single pieces: of one byte, and
/// of data, a short and a long one.
fn links() -> Vec<Case> {
    let plans = [
        whole(4096, Order::Rising, Form::Current),
        whole(4096, Order::Random, Form::Current),
        whole(4096, Order::Rising, Form::Old),
        whole(4096, Order::Random, Form::Old),
        whole(1024, Order::Rising, Form::Current),
        whole(8, Order::Rising, Form::Current),
    ];
    let parts = [Part::Whole, Part::Index];
    let files = parts.into_iter().flat_map(|part| plans.map(|plan| case(Call::Link(part), plan)));
    let pieces = [Piece::Number, Piece::Passed, Piece::Data(PIECE), Piece::Data(LONG_PIECE)];
    files.chain(pieces.map(|piece| case(Call::Take(piece), plans[0]))).collect()
}

/// A piece of data that is long.
pub const LONG_PIECE: usize = 1 << 20;

/// Whole jobs: 1,000 records of which few are used, 100,000 and 1,000,000 with an index that is nearly full.
fn jobs(orders: &[Order], sizes: &[usize]) -> Vec<Case> {
    let mut cases = Vec::new();
    for (room, used, run) in [(1_000, 256, 1), (100_000, 4000, 8), (MOST, 4000, 128)] {
        for order in orders {
            let plan = Plan { used, room, ..full(4096, *order, run) };
            for bytes in sizes {
                let calls = [Call::Save, Call::SaveNext, Call::Replace, Call::Clear];
                cases.extend(calls.map(|call| case(call(*bytes), plan)));
            }
            cases.push(case(Call::ClearMiddle, plan));
        }
    }
    cases
}

/// The lines that a change of the library is held to: 4,096 slots of the current form. No clear and no save over a scan is
/// one of them: since request 2026-05 they write zeros over it, and a clear of the highest slot has a write more since
/// 2026-04. A save to an empty slot costs what it did.
pub fn before() -> Vec<Case> {
    let mut cases: Vec<Case> = Order::ALL.map(|order| case(Call::Open, full(4096, order, 8))).into();
    for order in [Order::Rising, Order::Random] {
        let plan = Plan { used: 4095, ..full(4096, order, 8) };
        let calls =
            [Call::List, Call::Entry, Call::Read, Call::BeginSave(65_536), Call::BeginKeep(512), Call::BeginClear];
        cases.extend(calls.map(|call| case(call, plan)));
        for used in [256, 4000] {
            let jobs = [Call::Save(512), Call::Save(65_536), Call::SaveNext(512), Call::SaveNext(65_536)];
            cases.extend(jobs.map(|call| case(call, Plan { used, ..plan })));
        }
    }
    cases
}

/// Every line.
pub fn all() -> Vec<Case> {
    let orders = [Order::Rising, Order::Random];
    let jobs = jobs(&orders, &[512, 4_096, 65_536]);
    [opens(1024), opens(4096), looks(), olds(), moves(), gaps(&orders), finds(), links(), jobs].concat()
}

/// Those that the verdicts rest on most.
pub fn quick() -> Vec<Case> {
    let orders = [Order::Rising, Order::Random];
    [opens(4096), looks(), olds(), moves(), gaps(&orders[..1]), finds(), links(), jobs(&orders, &[65_536])].concat()
}
