//! The comparison notices every wrong line, on seeds that nobody chose.

mod common;

use compare::seed_from_environment;
use plain::{Wrong, wrong_lines};
use std::os::unix::process::ExitStatusExt;
use std::sync::Mutex;

/// A wrong line has to be noticed within so many calls.
const CASES: u64 = 300_000;

#[test]
fn every_wrong_line_is_noticed() {
    let seed = seed_from_environment().wrapping_mul(31);
    println!("wrong lines: seed {seed}");
    let lines = wrong_lines();
    assert!(lines.len() >= 326);
    let (waiting, missed) = (Mutex::new(lines.iter()), Mutex::new(Vec::new()));
    let next = || waiting.lock().unwrap().next();
    std::thread::scope(|scope| {
        for _ in 0..2 {
            scope.spawn(|| {
                while let Some(wrong) = next() {
                    if !noticed(wrong, seed) {
                        missed.lock().unwrap().push(wrong.number);
                    }
                }
            });
        }
    });
    let missed = missed.into_inner().unwrap();
    assert!(missed.is_empty(), "the comparison did not notice the wrong lines {missed:?}");
}

/// Whether a wrong line is noticed: by a difference, or because it broke its process.
fn noticed(wrong: &Wrong, seed: u64) -> bool {
    let ended =
        common::start(&["wrong", &wrong.number.to_string()], seed.wrapping_add(u64::from(wrong.number)), CASES).end();
    // a process that broke off has counted nothing: it says where, or a signal has ended it
    let how = match ended.status.signal() {
        Some(_) => format!("its process ended with {}", ended.status),
        None if ended.tally.cases() > 0 => format!("after {:>6} calls", ended.tally.cases()),
        None => ended.said.trim().to_string(),
    };
    println!("  {:>3} {how}: {}", wrong.number, wrong.what);
    !ended.agreed
}
