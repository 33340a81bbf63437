//! The safe crate: types come out as they should.

use sample::scan;
use sdd::{About, Kind, Real8, Refusal, Rule, Step};

fn file() -> Vec<u8> {
    let mut file = vec![0; 4_096];
    sdd::blank(&mut file, 3, 512, 64).unwrap();
    file
}

/// Runs a job to its confirmation.
fn run(file: &mut [u8], scan: &[u8], mut job: sdd::Job) -> Step {
    loop {
        match sdd::step(file, scan, &mut job).unwrap() {
            Step::Wrote { .. } => (),
            done => return done,
        }
    }
}

#[test]
fn every_refusal_has_its_number_and_a_sentence() {
    use Refusal::*;
    let all = [
        TooShort,
        OldForm,
        UnknownVersion,
        BadBootstrap,
        CutShort,
        BadEntry(5),
        EntryAboveUsed(6),
        SharedRecord(7),
        NoSuchSlot,
        EmptySlot,
        BadScan(Rule::Head),
        NoEmptySlot,
        NoRoom,
        JobDisagrees,
        NotConfirmed,
        BadSizes,
        AnswerTooLong,
        NotVersionOne,
        NotConvertible,
    ];
    assert_eq!((sdd::numbers::refused::NO_ROOM, NoRoom.number()), (13, 13));
    for (number, refusal) in (1..).zip(all) {
        assert_eq!(refusal.number(), number);
        assert!(
            refusal.to_string().contains(": ") || refusal.to_string().contains(", "),
            "{refusal} does not say what to do"
        );
    }
    assert_eq!(all.map(Refusal::value), [0, 0, 0, 0, 0, 5, 6, 7, 0, 0, 4, 0, 0, 0, 0, 0, 0, 0, 0]);
}

#[test]
fn refusals_come_as_cases() {
    assert_eq!(sdd::open(&[]), Err(Refusal::TooShort));
    assert_eq!(sdd::open(&[0; 512]), Err(Refusal::BadBootstrap));
    assert_eq!(sdd::clear(&[0; 512], 1), Err(Refusal::OldForm));
    let mut file = file();
    assert_eq!(sdd::entry(&file, 17), Err(Refusal::NoSuchSlot));
    assert_eq!(sdd::show(&file, 1), Err(Refusal::EmptySlot));
    assert_eq!(sdd::save(&file, 1, &scan(512, 3)[..300], &About::default()), Err(Refusal::BadScan(Rule::Data)));
    assert_eq!(sdd::blank(&mut file, 3, 511, 64), Err(Refusal::BadSizes));
    file[512 + 3] = 9;
    assert_eq!(sdd::list(&file), Err(Refusal::EntryAboveUsed(1)));
}

#[test]
fn a_refused_step_leaves_the_job_as_it_was() {
    let mut file = file();
    let scan = scan(600, 3);
    let begun = sdd::keep(&file, &scan, &About::default()).unwrap();
    let mut job = begun;
    assert_eq!(sdd::step(&mut file, &scan[1..], &mut job), Err(Refusal::JobDisagrees));
    assert_eq!(job, begun);
    assert_eq!(sdd::step(&mut file, &scan, &mut job), Ok(Step::Wrote { record: 4, written: 1 }));
    assert_eq!((job.written(), job.first(), job.slot(), job.scan_len(), job.saves()), (1, 4, 1, 600, true));
}

#[test]
fn an_entry_carries_its_kind() {
    let mut file = file();
    let scan = scan(512, 3);
    for (mode, slot) in [(512i16, 1), (304, 2), (305, 3)] {
        let field8 = Real8::from_bits(0x7ff8_0000_0000_0001);
        let about = About { field4: 1.5.into(), field8, mode, ..About::default() };
        let job = sdd::save(&file, slot, &scan, &about).unwrap();
        assert_eq!(run(&mut file, &scan, job), Step::Saved { written: 3 });
    }
    let kind = |slot| sdd::entry(&file, slot).unwrap().kind;
    let Kind::SpectralLine { resolution, rest_frequency } = kind(1) else { panic!("slot 1 is a spectral line") };
    assert_eq!((resolution.value(), rest_frequency.bits()), (1.5, 0x7ff8_0000_0000_0001));
    assert!(matches!(kind(2), Kind::Continuum { .. }));
    assert!(matches!(kind(3), Kind::Other { .. }));
}

#[test]
fn parts_are_spans_of_what_was_lent() {
    let mut file = file();
    let scan = scan(700, 3);
    let job = sdd::keep(&file, &scan, &About::default()).unwrap();
    run(&mut file, &scan, job);
    assert_eq!(sdd::show(&file, 1), Ok(1_536..2_560));
    assert_eq!(sdd::read(&file, 1), Ok(1_536..2_236));
    let classes = sdd::classes(&scan).unwrap();
    assert_eq!(classes.len(), 13);
    assert_eq!((classes[0].clone(), classes[12].clone()), (32..160, 248..256));
    assert_eq!(sdd::data(&scan), Ok(256..700));
    assert!(sdd::class(&scan, 14).unwrap().is_empty());
    let job = sdd::clear(&file, 1).unwrap();
    assert_eq!((job.lowers(), job.old_first(), job.old_count(), job.records(512)), (true, 4, 2, 5));
    assert_eq!(run(&mut file, &[], job), Step::Cleared { written: 5 });
    assert_eq!(sdd::list(&file), Ok(vec![]));
}

#[test]
fn u_is_the_highest_slot_after_each_job() {
    let mut file = file();
    let small = scan(512, 3);
    for (slot, u) in [(2, 2), (9, 9), (4, 9)] {
        let job = sdd::save(&file, slot, &small, &About::default()).unwrap();
        assert_eq!((job.lowers(), job.records(512)), (false, 3));
        assert_eq!(run(&mut file, &small, job), Step::Saved { written: 3 });
        assert_eq!(sdd::open(&file).unwrap().u, u);
    }
    for (slot, writes, u) in [(2, 3, 9), (9, 4, 4), (4, 4, 0)] {
        let job = sdd::clear(&file, slot).unwrap();
        assert_eq!((job.lowers(), job.records(512)), (writes == 4, writes));
        assert_eq!(run(&mut file, &[], job), Step::Cleared { written: writes });
        assert_eq!(sdd::open(&file).unwrap().u, u);
    }
}

/// Steps a job, of which every step has to write, so many times; answers the records.
fn wrote(file: &mut [u8], scan: &[u8], job: &mut sdd::Job, steps: u64) -> Vec<u64> {
    let record = |_| match sdd::step(file, scan, job) {
        Ok(Step::Wrote { record, .. }) => record,
        other => panic!("{other:?}"),
    };
    (0..steps).map(record).collect()
}

#[test]
fn what_is_replaced_or_cleared_is_zeroed_and_the_gaps_are_asked_for() {
    let mut file = file();
    for (slot, len, old, records) in
        [(1, 1_000, (0, 0), &[4, 5, 1, 2][..]), (9, 512, (0, 0), &[6, 1, 3]), (1, 1_000, (4, 2), &[7, 8, 1, 2, 4, 5])]
    {
        let scan = scan(len, 3);
        let mut job = sdd::save(&file, slot, &scan, &About::default()).unwrap();
        assert_eq!((job.old_first(), job.old_count()), old);
        assert_eq!(job.records(512), records.len() as u64);
        assert_eq!(wrote(&mut file, &scan, &mut job, records.len() as u64), records);
        assert_eq!(sdd::step(&mut file, &scan, &mut job), Ok(Step::Saved { written: records.len() as u64 }));
        assert_eq!(sdd::gaps_zero(&file), Ok(true));
    }
    // a clear that is cut between its zeros
    let mut job = sdd::clear(&file, 1).unwrap();
    assert_eq!((job.old_first(), job.old_count(), job.lowers(), job.records(512)), (7, 2, false, 4));
    assert_eq!(wrote(&mut file, &[], &mut job, 3), [1, 2, 7]);
    assert_eq!(sdd::gaps_zero(&file), Ok(false));
    assert_eq!(wrote(&mut file, &[], &mut job, 1), [8]);
    file[512 * 7 + 100] = 1;
    assert_eq!(sdd::step(&mut file, &[], &mut job), Err(Refusal::NotConfirmed));
    file[512 * 7 + 100] = 0;
    assert_eq!(sdd::step(&mut file, &[], &mut job), Ok(Step::Cleared { written: 4 }));
    assert_eq!((sdd::gaps_zero(&file), sdd::gaps_zero(&[])), (Ok(true), Err(Refusal::TooShort)));
}
