//! 2026-05, zeroed gaps, asked of the model: which records a job zeroes and when, what is refused of an old run, and
//! whether every data record in no listed scan is all zeros.

use model::{Answer, Done, Job, blank, clear, gaps_zero, keep, listed, open, save, step};
use sample::{OldScan, old_file, scan};

/// The paper's blank file: N 3, L 512, M 64, so 16 slots, and room for so many records.
fn blanked(records: usize) -> Vec<u8> {
    let mut file = vec![0; 512 * records];
    blank(file.len() as u64, 3, 512, 64).unwrap().apply(&mut file);
    file
}

/// Makes one step; answers what it did.
fn stepped(file: &mut [u8], scan: &[u8], job: &mut Job) -> Answer<Done> {
    let stepped = step(file, scan, job)?;
    if let Some(write) = &stepped.write {
        write.apply(file);
    }
    *job = stepped.job;
    Ok(stepped.done)
}

/// Runs a job to its end; answers the records that it wrote, and the number of the refusal or 0.
fn ran(file: &mut [u8], scan: &[u8], mut job: Job) -> (Vec<u64>, u32) {
    let mut wrote = Vec::new();
    loop {
        match stepped(file, scan, &mut job) {
            Ok(Done::Wrote(record)) => wrote.push(record),
            Ok(_) => return (wrote, 0),
            Err(why) => return (wrote, why.number),
        }
    }
}

/// A save that is confirmed; answers the records that it wrote.
fn saved(file: &mut [u8], slot: u64, len: usize) -> Vec<u64> {
    let scan = scan(len, slot as u8);
    let job = save(file, slot, &scan, &[7; 54]).unwrap();
    let (wrote, refused) = ran(file, &scan, job);
    assert_eq!(refused, 0);
    wrote
}

/// A clear that is confirmed; answers the records that it wrote.
fn cleared(file: &mut [u8], slot: u64) -> Vec<u64> {
    let job = clear(file, slot).unwrap();
    let (wrote, refused) = ran(file, &[], job);
    assert_eq!(refused, 0);
    wrote
}

/// The paper's run up to its second save: slot 1 in records 4 and 5, slot 9 in record 6.
fn two_scans(records: usize) -> Vec<u8> {
    let mut file = blanked(records);
    saved(&mut file, 1, 1_000);
    saved(&mut file, 9, 512);
    file
}

fn list(file: &[u8]) -> Vec<(u64, u64, u64)> {
    listed(file, &open(file).unwrap()).iter().map(|(slot, run)| (*slot, run.first, run.last)).collect()
}

fn record(file: &[u8], record: usize) -> &[u8] {
    &file[512 * (record - 1)..512 * record]
}

#[test]
fn in_the_papers_run_the_third_save_ends_with_4_and_5() {
    let mut file = blanked(8);
    assert_eq!(gaps_zero(&file), Ok(true));
    assert_eq!(saved(&mut file, 1, 1_000), [4, 5, 1, 2]);
    assert_eq!(gaps_zero(&file), Ok(true));
    assert_eq!(saved(&mut file, 9, 512), [6, 1, 3]);
    assert_eq!(gaps_zero(&file), Ok(true));
    assert_eq!(saved(&mut file, 1, 1_000), [7, 8, 1, 2, 4, 5]);
    assert_eq!(gaps_zero(&file), Ok(true));
    assert_eq!(list(&file), [(1, 7, 8), (9, 6, 6)]);
    assert!(record(&file, 4).iter().chain(record(&file, 5)).all(|byte| *byte == 0));
    assert_eq!(saved(&mut file, 2, 1_024), [4, 5, 1, 2]);
    assert_eq!(save(&file, 3, &scan(512, 3), &[0; 54]).unwrap_err().number, 13);
    assert_eq!(gaps_zero(&file), Ok(true));
}

#[test]
fn a_job_carries_the_run_that_its_slot_had() {
    let file = two_scans(12);
    let run = |job: Job| (job.old_first, job.old_count);
    assert_eq!(run(save(&file, 1, &scan(512, 3), &[0; 54]).unwrap()), (4, 2));
    assert_eq!(run(save(&file, 9, &scan(2_000, 3), &[0; 54]).unwrap()), (6, 1));
    assert_eq!(run(save(&file, 2, &scan(512, 3), &[0; 54]).unwrap()), (0, 0));
    assert_eq!(run(keep(&file, &scan(512, 3), &[0; 54]).unwrap()), (0, 0));
    assert_eq!((run(clear(&file, 1).unwrap()), run(clear(&file, 9).unwrap())), ((4, 2), (6, 1)));
}

#[test]
fn confirmation_comes_after_the_zeros() {
    // a save at step k+3+old_count, a clear at 3+lowers+old_count
    let file = two_scans(12);
    let new = scan(600, 3);
    let cases = [
        (save(&file, 1, &new, &[0; 54]), &new[..], 2 + 3 + 2),
        (clear(&file, 1), &[], 3 + 2),
        (clear(&file, 9), &[], 3 + 1 + 1),
    ];
    for (begun, scan, confirming) in cases {
        let (mut file, mut job) = (file.clone(), begun.unwrap());
        let old = (job.old_first, job.old_count);
        for number in 1..confirming {
            let done = stepped(&mut file, scan, &mut job);
            assert!(matches!(done, Ok(Done::Wrote(_))), "step {number} of {confirming}: {done:?}");
            assert_eq!((job.old_first, job.old_count), old);
        }
        let wanted = if job.saves == 1 { Done::Saved } else { Done::Cleared };
        assert_eq!(stepped(&mut file, scan, &mut job), Ok(wanted));
        assert_eq!(stepped(&mut file, scan, &mut job), Ok(wanted), "it is judged again");
        assert_eq!(step(&file, scan, &Job { written: confirming, ..job }).unwrap_err().number, 14);
    }
}

#[test]
fn a_clear_zeroes_after_its_index_record_and_the_lowered_u() {
    let mut file = two_scans(8);
    assert_eq!(cleared(&mut file.clone(), 1), [1, 2, 4, 5]);
    assert_eq!(cleared(&mut file, 9), [1, 3, 1, 6]);
    assert_eq!(cleared(&mut file, 1), [1, 2, 1, 4, 5]);
    assert_eq!((gaps_zero(&file), list(&file).len()), (Ok(true), 0));
    assert!(file[512 * 3..].iter().all(|byte| *byte == 0));
}

#[test]
fn a_cut_between_two_zeros_says_no_and_a_later_job_does_not_mend_it() {
    let whole = two_scans(12);
    let new = scan(1_000, 3);
    // data, data, record 1, entry, zeros, zeros
    for cut in 0..=6 {
        let mut file = whole.clone();
        let mut job = save(&file, 1, &new, &[0; 54]).unwrap();
        (0..cut).for_each(|_| assert!(matches!(stepped(&mut file, &new, &mut job), Ok(Done::Wrote(_)))));
        // before record 1 the new data lie beyond N+D; then they are in no scan, and from the entry on the old ones are
        let clean = [true, true, true, false, false, false, true][cut];
        assert_eq!(gaps_zero(&file), Ok(clean), "after {cut} records");
        assert_eq!(list(&file), if cut < 4 { [(1, 4, 5), (9, 6, 6)] } else { [(1, 7, 8), (9, 6, 6)] });
        cleared(&mut file, 9);
        saved(&mut file, 5, 512);
        assert_eq!(gaps_zero(&file).unwrap(), clean, "a later job zeroes its own slot's run alone");
    }
}

#[test]
fn the_question_is_of_records_up_to_n_plus_d_in_no_listed_scan() {
    let mut file = two_scans(12);
    cleared(&mut file, 1);
    assert_eq!(open(&file).unwrap().d, 3);
    for (at, wanted) in [
        (512 * 3, false),     // the first byte of the gap
        (512 * 5 - 1, false), // its last
        (512 * 5, true),      // the listed scan
        (512 * 6 - 1, true),  // its last byte
        (512 * 6, true),      // beyond N+D
        (512 * 12 - 1, true), // the last byte lent
        (512 * 3 - 1, true),  // the index
    ] {
        let mut file = file.clone();
        file[at] ^= 0x80;
        assert_eq!(gaps_zero(&file), Ok(wanted), "byte {at}");
    }
}

#[test]
fn an_old_file_is_asked_too() {
    let one = scan(1_000, 1);
    let scans = [OldScan { slot: 1, magic: 1, about: [0; 54], bytes: &one }];
    let mut file = old_file(3, 9, &scans);
    file[2..4].copy_from_slice(&4u16.to_be_bytes());
    assert_eq!(gaps_zero(&file), Ok(true));
    for (record, wanted) in [(5, true), (6, false), (7, false), (8, true)] {
        let mut file = file.clone();
        file[512 * record - 1] ^= 1;
        assert_eq!(gaps_zero(&file), Ok(wanted), "record {record}");
    }
    file[512 + 1] = 2;
    assert_eq!(gaps_zero(&file).unwrap_err().number, 6);
    assert_eq!(gaps_zero(&[]).unwrap_err().number, 1);
}

#[test]
fn an_old_run_lies_in_n_plus_1_to_the_room() {
    let file = two_scans(12);
    let job = clear(&file, 1).unwrap();
    let most = u64::MAX;
    // the room is 12, and N+D 6
    let cases = [
        (4, 1, 0),
        (12, 1, 0),
        (4, 9, 0),
        (3, 1, 14),
        (3, 4, 14),
        (13, 1, 14),
        (4, 10, 14),
        (12, 2, 14),
        (0, 1, 14),
        (most, 1, 14),
        (most, most, 14),
        (4, most, 14),
        (5, most - 3, 14),
        (most, 2, 14),
        (most - 1, 6, 14),
        (0, most, 14),
        (0, 0, 0),
        (most, 0, 0),
        (3, 0, 0),
        (13, 0, 0),
    ];
    for (old_first, old_count, wanted) in cases {
        let forged = Job { old_first, old_count, ..job };
        let answer = step(&file, &[], &forged);
        assert_eq!(answer.as_ref().map_or_else(|why| why.number, |_| 0), wanted, "{old_first}, {old_count}");
        if let Ok(stepped) = answer {
            assert_eq!((stepped.job.old_first, stepped.job.old_count), (old_first, old_count));
        }
    }
}

#[test]
fn a_forged_old_run_over_another_slots_scan_is_zeroed_and_the_job_is_confirmed() {
    let mut file = two_scans(12);
    let forged = Job { old_first: 6, old_count: 1, ..clear(&file, 1).unwrap() };
    assert_eq!(ran(&mut file, &[], forged), (vec![1, 2, 6], 0));
    assert_eq!(list(&file), [(9, 6, 6)]);
    assert!(record(&file, 6).iter().all(|byte| *byte == 0));
    assert_eq!(gaps_zero(&file), Ok(false), "the cleared scan's own records stay");
}

#[test]
fn a_forged_old_run_over_the_jobs_own_new_records_is_zeroed_and_gets_15() {
    for own in [7, 8] {
        let mut file = two_scans(12);
        let new = scan(1_000, 3);
        let job = save(&file, 1, &new, &[0; 54]).unwrap();
        assert_eq!(job.first, 7);
        let forged = Job { old_first: own, old_count: 1, ..job };
        assert_eq!(ran(&mut file, &new, forged), (vec![7, 8, 1, 2, own], 15));
        let none = Job { old_first: own, old_count: 0, ..job };
        assert_eq!(ran(&mut two_scans(12), &new, none), (vec![7, 8, 1, 2], 0));
    }
}

#[test]
fn the_confirming_step_requires_every_zero() {
    let mut file = two_scans(12);
    let new = scan(1_000, 3);
    let mut job = save(&file, 1, &new, &[0; 54]).unwrap();
    (0..6).for_each(|_| assert!(matches!(stepped(&mut file, &new, &mut job), Ok(Done::Wrote(_)))));
    for at in [512 * 3, 512 * 4 - 1, 512 * 4, 512 * 4 + 77, 512 * 5 - 1] {
        let mut spoilt = file.clone();
        spoilt[at] = 1;
        assert_eq!(step(&spoilt, &new, &job).unwrap_err().number, 15, "byte {at}");
    }
    // another slot's scan, and a record beyond the data, are not this job's
    for at in [512 * 5, 512 * 8] {
        let mut other = file.clone();
        other[at] ^= 1;
        assert_eq!(step(&other, &new, &job).unwrap().done, Done::Saved, "byte {at}");
    }
}

#[test]
fn a_confirmed_replacement_gets_15_once_a_later_save_stands_in_its_zeroed_records() {
    let mut file = two_scans(12);
    let new = scan(1_000, 3);
    let mut job = save(&file, 1, &new, &[0; 54]).unwrap();
    while stepped(&mut file, &new, &mut job) != Ok(Done::Saved) {}
    let later = scan(512, 4);
    let mut second = save(&file, 2, &later, &[0; 54]).unwrap();
    assert_eq!(stepped(&mut file, &later, &mut second), Ok(Done::Wrote(4)));
    assert_eq!(step(&file, &new, &job).unwrap_err().number, 15);
    // once that save has written record 1, the file is not the job's any more, and 14 comes first
    assert_eq!(stepped(&mut file, &later, &mut second), Ok(Done::Wrote(1)));
    assert_eq!(step(&file, &new, &job).unwrap_err().number, 14);
    let again = Job { boot: file[..32].try_into().unwrap(), ..job };
    assert_eq!(step(&file, &new, &again).unwrap_err().number, 15);
}

#[test]
fn a_file_that_does_not_open_is_refused_before_its_zeros_are_looked_at() {
    let mut file = two_scans(12);
    let mut job = clear(&file, 1).unwrap();
    (0..4).for_each(|_| assert!(matches!(stepped(&mut file, &[], &mut job), Ok(Done::Wrote(_)))));
    file[512 * 3] = 1;
    file[512 + 64 + 3] = 1;
    let why = step(&file, &[], &job).unwrap_err();
    assert_eq!((why.number, why.value), (6, 2));
}
