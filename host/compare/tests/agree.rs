//! The library, and the plain stand-in, agree with the model.

mod common;

use compare::{Tally, seed_from_environment};

/// How many calls are compared, unless `RINZO_CASES` says otherwise.
const CASES: u64 = 500_000;

/// How often the cases are run anew, from other seeds, as long as something rare has not come up.
const RUNS: u64 = 5;

/// Runs two processes at once, each with half of the cases and a seed of its own.
fn agree(subject: &str, cases: u64) -> Tally {
    let seed = seed_from_environment();
    println!("{subject}: RINZO_SEED={seed}");
    let mut all = Tally::default();
    for run in 0..RUNS {
        let halves = [2 * run, 2 * run + 1].map(|half| common::start(&[subject], seed.wrapping_add(half), cases / 2));
        for half in halves {
            let ended = half.end();
            assert!(ended.agreed, "{subject} and the model differ:\n{}", ended.said);
            all.add_line(&ended.tally.line());
        }
        if all.unreached().is_empty() {
            break;
        }
    }
    println!("{subject}: {all}");
    all
}

#[test]
fn what_no_case_reached_is_named() {
    let missing = Tally::default().unreached();
    // refusals with 0, rules, Saved and Cleared, calls; then an old file's looks, changes and steps; then the answers of
    // conversions, what they came upon, and the ways there and home; then what jobs did to U;
    // then what became of old runs and of gaps; then the answers of searches, in either form and with an empty row, and
    // what they came upon; then the answers of the link's three calls, of finish in either form, where its first pieces
    // and entries of either form were cut, and what else came over it
    let link = 2 * 2 + 2 * 10 + 37 + 10 + 6 + 80;
    assert_eq!(missing.len(), 21 + 6 + 2 + 19 + 13 + 3 + 1 + 2 * 10 + 19 + 4 + 26 + 42 + 4 * 6 + 66 + link);
    let named = [
        "refusal 19",
        "a look at an old file, 18",
        "a change of an old file, 2",
        "a step on an old file, 14",
        "to the current form, 19",
        "to the old form, 17",
        "19, D 32,768",
        "taken, D 32,767",
        "there and home from the old form, byte for byte",
        "a third write, U lowered to 0",
        "U lowered by a save",
        "14, a clear that says neither 0 nor 1",
        "a record of the job's new scan zeroed",
        "15 for the old run alone, in its last byte",
        "14 for an old run whose end wraps into the room",
        "no, of an old file",
        "a search in an old file, 17",
        "a search in a current file with an empty row, 5",
        "found under an index refused with 6",
        "found the listed runs, which slot order has otherwise",
        "none, DATALEN past the data, the bytes are lent",
        "17, one element too few",
        "refusal 20",
        "a piece, 17",
        "a finish of an old file, 20",
        "a first piece of 31 bytes",
        "a cut before byte 3 of an old entry",
        "an empty piece within the index",
        "by hand, M is 0",
        "20, a byte of the index is missing",
        "17, a finish with an element too few",
    ];
    for name in named {
        assert!(missing.iter().any(|missing| missing == name), "{name} is not among {missing:?}");
    }
}

#[test]
fn the_library_agrees_with_the_model() {
    let cases = std::env::var("RINZO_CASES").map_or(CASES, |text| text.parse().expect("RINZO_CASES is a number"));
    let tally = agree("library", cases);
    assert!(tally.cases() >= cases.min(100_000));
    assert!(tally.unreached().is_empty(), "no case reached: {:?}", tally.unreached());
}

#[test]
fn the_plain_stand_in_agrees_with_the_model() {
    let tally = agree("plain", 100_000);
    assert!(tally.unreached().is_empty(), "no case reached: {:?}", tally.unreached());
}

#[test]
fn a_call_that_does_not_end_is_told() {
    let running = common::start(&["plain"], 5, 10_000_000);
    running.ring();
    let ended = running.end();
    assert_eq!(ended.status.code(), Some(87), "{}", ended.said);
    assert!(ended.said.starts_with("a round did not end within five minutes: seed 5 round "), "{}", ended.said);
}
