//! What does not hang on the machine's mood: growth, stack, and that the data section is left alone. The limits on
//! growth are wide here; the program `bench` holds them to the targets.

use bench::grow::{self, Growth};
use bench::{closed, stack};
use std::ops::Range;
use std::path::Path;
use std::time::Duration;

/// How long each call is measured. Where a line is not within its limits, all are measured anew for longer: the more
/// samples, the less a busy machine is in the least of them. What really grows faster does so each time.
const BUDGETS: [u64; 4] = [100, 400, 1_600, 3_200];

/// Every growth that `measure` tells has an exponent within the limits; that of a difference too small to be seen is 0.
fn keeps(within: Range<f64>, measure: impl Fn(Duration) -> Vec<Growth>) {
    let mut wrong = Vec::new();
    for budget in BUDGETS {
        wrong = measure(Duration::from_millis(budget));
        wrong.retain(|growth| !within.contains(&growth.exponent().unwrap_or(0.0)));
        if wrong.is_empty() {
            return;
        }
        println!("measured for {budget} ms a call: {wrong:.2?}");
    }
    panic!("too steep or too flat, however long it is measured: {wrong:.2?}");
}

#[test]
fn no_call_grows_much_faster_than_the_slots() {
    keeps(f64::NEG_INFINITY..1.4, |budget| grow::with_slots("library", &sdd::calls(), budget));
}

#[test]
fn no_call_grows_with_the_records() {
    // the marks of a million records are 122 KiB: some growth is theirs
    keeps(f64::NEG_INFINITY..0.6, |budget| grow::with_records("library", &sdd::calls(), budget));
}

#[test]
fn the_search_without_the_index_grows_with_the_records_and_no_faster() {
    // it looks at each of them, and what does not fit in the nearest cache costs more
    keeps(0.7..1.4, |budget| vec![grow::of_find("library", &sdd::calls(), budget)]);
}

/// The stand-in has its tables elsewhere, so that the figures are only limits for it.
#[test]
fn every_call_keeps_to_the_stack_that_is_said_of_it() {
    let measured = stack::depths(&sdd::calls());
    assert_eq!(measured.iter().map(|depth| depth.name).collect::<std::collections::BTreeSet<_>>().len(), 19);
    for (name, most) in sdd::stack::ALL {
        let depth = measured.iter().find(|depth| depth.name == name).expect("every call is measured").bytes;
        assert!(depth <= most, "sdd_{name} uses {depth} bytes of stack, and {most} are said to be enough");
        let is_true = cfg!(feature = "stand-in") || depth + depth / 8 + 1_024 >= most;
        assert!(is_true, "sdd_{name} is said to need {most} bytes of stack, and uses {depth}");
        assert!(most <= sdd::stack::MOST);
    }
}

#[test]
fn no_call_walks_the_data_section() {
    assert!(closed::is_left_alone(Path::new(env!("CARGO_BIN_EXE_bench"))));
}
