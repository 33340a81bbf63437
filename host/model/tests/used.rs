//! 2026-04, the used number, asked of the model: which U each write of record 1 sets, and at which step a clear is
//! confirmed.

use model::{Done, Job, blank, clear, highest, keep, listed, open, save, step};
use sample::scan;

/// The paper's blank file: N 3, L 512, M 64, so 16 slots, and room for so many records.
fn blanked(records: usize) -> Vec<u8> {
    let mut file = vec![0; 512 * records];
    blank(file.len() as u64, 3, 512, 64).unwrap().apply(&mut file);
    file
}

/// A file with a scan of one record in each of these slots.
fn with(slots: &[u64]) -> Vec<u8> {
    let mut file = blanked(24);
    for slot in slots {
        saved(&mut file, *slot);
    }
    file
}

/// Makes one step; answers what it did.
fn stepped(file: &mut [u8], scan: &[u8], job: &mut Job) -> Done {
    let stepped = step(file, scan, job).unwrap();
    if let Some(write) = &stepped.write {
        write.apply(file);
    }
    *job = stepped.job;
    stepped.done
}

/// Runs a job to its confirmation; answers the records that it wrote, and U after each.
fn ran(file: &mut [u8], scan: &[u8], mut job: Job) -> Vec<(u64, u64)> {
    let mut wrote = Vec::new();
    while let Done::Wrote(record) = stepped(file, scan, &mut job) {
        wrote.push((record, u_of(file)));
    }
    assert_eq!(job.written, wrote.len() as u64);
    wrote
}

fn saved(file: &mut [u8], slot: u64) -> Vec<(u64, u64)> {
    let scan = scan(512, slot as u8);
    let job = save(file, slot, &scan, &[0; 54]).unwrap();
    assert_eq!(job.lowers, 0);
    ran(file, &scan, job)
}

fn cleared(file: &mut [u8], slot: u64) -> Vec<(u64, u64)> {
    let job = clear(file, slot).unwrap();
    ran(file, &[], job)
}

/// U as record 1 has it, whether the file opens or not.
fn u_of(file: &[u8]) -> u64 {
    word(file, 16)
}

fn word(file: &[u8], at: usize) -> u64 {
    u64::from(u32::from_be_bytes(file[at..at + 4].try_into().unwrap()))
}

fn put(file: &mut [u8], at: usize, number: u32) {
    file[at..at + 4].copy_from_slice(&number.to_be_bytes());
}

/// Where a slot's entry begins.
fn home(slot: usize) -> usize {
    512 + (slot - 1) * 64
}

#[test]
fn a_clear_of_the_highest_slot_lowers_u_to_what_is_left() {
    let mut file = with(&[1, 2, 9]);
    assert_eq!(clear(&file, 9).unwrap().lowers, 1);
    assert_eq!(cleared(&mut file, 9), [(1, 9), (3, 9), (1, 2), (6, 2)]);
    assert_eq!(cleared(&mut file, 2), [(1, 2), (2, 2), (1, 1), (5, 1)]);
    assert_eq!(cleared(&mut file, 1), [(1, 1), (2, 1), (1, 0), (4, 0)]);
    assert_eq!((open(&file).unwrap().u, listed(&file, &open(&file).unwrap()).len()), (0, 0));
}

#[test]
fn a_clear_of_another_slot_writes_record_1_once_and_leaves_u() {
    let mut file = with(&[1, 5, 9]);
    assert_eq!(clear(&file, 5).unwrap().lowers, 0);
    assert_eq!(cleared(&mut file, 5), [(1, 9), (2, 9), (5, 9)]);
    // the gap at 5 is passed over when 9 goes
    assert_eq!(cleared(&mut file, 9), [(1, 9), (3, 9), (1, 1), (6, 1)]);
}

#[test]
fn such_a_clear_is_confirmed_one_step_later_than_another() {
    let mut file = with(&[3, 7]);
    // steps 3 and 4, and one for the zeros over the scan's only record
    for (slot, confirming) in [(3, 4), (7, 5)] {
        let mut job = clear(&file, slot).unwrap();
        for number in 1..confirming {
            assert!(matches!(stepped(&mut file, &[], &mut job), Done::Wrote(_)), "step {number} of slot {slot}");
        }
        assert_eq!(stepped(&mut file, &[], &mut job), Done::Cleared);
        assert_eq!(stepped(&mut file, &[], &mut job), Done::Cleared, "it is judged again");
        assert_eq!(job.written, confirming - 1);
    }
}

#[test]
fn its_counter_is_raised_once_and_d_stays() {
    let mut file = with(&[1, 2]);
    let (d, counter) = (word(&file, 4), word(&file, 20));
    cleared(&mut file, 2);
    assert_eq!((word(&file, 4), word(&file, 20)), (d, counter + 1));
    put(&mut file, 20, u32::MAX);
    cleared(&mut file, 1);
    assert_eq!((word(&file, 4), word(&file, 20), u_of(&file)), (d, 0, 0));
}

#[test]
fn the_jobs_32_bytes_are_renewed_by_each_write_of_record_1() {
    let mut file = with(&[4]);
    let mut job = clear(&file, 4).unwrap();
    for _ in 0..3 {
        stepped(&mut file, &[], &mut job);
        assert_eq!(job.boot, file[..32]);
    }
    assert_eq!(job.lowers, 1);
}

#[test]
fn a_u_that_is_too_high_opens_and_is_lowered_by_the_next_job() {
    let mut high = with(&[1, 2]);
    put(&mut high, 16, 16);
    assert_eq!(open(&high).unwrap().u, 16);
    assert_eq!(saved(&mut high.clone(), 2), [(6, 16), (1, 2), (2, 2), (5, 2)]);
    assert_eq!(saved(&mut high.clone(), 6), [(6, 16), (1, 6), (2, 6)]);
    assert_eq!(cleared(&mut high.clone(), 1), [(1, 2), (2, 2), (4, 2)]);
    // which slot is the highest does not depend on U
    assert_eq!(cleared(&mut high, 2), [(1, 2), (2, 2), (1, 1), (5, 1)]);
    let kept = keep(&high, &scan(512, 3), &[0; 54]).unwrap();
    assert_eq!((kept.slot, kept.lowers), (2, 0));
}

#[test]
fn a_clear_that_is_cut_leaves_a_u_that_the_next_one_puts_right() {
    for cut in 0..=3 {
        let mut file = with(&[1, 2, 3]);
        let mut job = clear(&file, 3).unwrap();
        (0..cut).for_each(|_| assert!(matches!(stepped(&mut file, &[], &mut job), Done::Wrote(_))));
        let u = open(&file).unwrap().u;
        assert_eq!(u, if cut == 3 { 2 } else { 3 });
        cleared(&mut file, 1);
        assert_eq!(u_of(&file), if cut < 2 { 3 } else { 2 });
    }
}

#[test]
fn the_papers_run_with_its_slots_cleared_again() {
    let mut file = blanked(8);
    for (slot, len, u) in [(1, 1_000, [1, 1]), (9, 512, [9, 9]), (1, 1_000, [9, 9])] {
        let scan = scan(len, 3);
        let job = save(&file, slot, &scan, &[0; 54]).unwrap();
        let wrote = ran(&mut file, &scan, job);
        assert_eq!(wrote[wrote.len() - 2..].iter().map(|(_, u)| *u).collect::<Vec<_>>(), u);
    }
    let list: Vec<_> = listed(&file, &open(&file).unwrap()).iter().map(|(slot, run)| (*slot, run.first)).collect();
    assert_eq!(list, [(1, 7), (9, 6)]);
    assert_eq!(cleared(&mut file, 9), [(1, 9), (3, 9), (1, 1), (6, 1)]);
    assert_eq!(cleared(&mut file, 1), [(1, 1), (2, 1), (1, 0), (7, 0), (8, 0)]);
}

#[test]
fn a_slot_with_a_scan_is_any_entry_that_is_not_empty_also_above_u() {
    let file = with(&[2]);
    let sizes = open(&file).unwrap();
    for (first, last) in [(0, 1), (1, 0), (u32::MAX, u32::MAX), (4, 4)] {
        let mut file = file.clone();
        put(&mut file, home(11), first);
        put(&mut file, home(11) + 4, last);
        assert_eq!(highest(&file, &sizes), 11);
        // such a file does not open, but a step before the confirming one judges the bootstrap alone
        let mut job = Job { written: 1, ..save(&with(&[2]), 3, &scan(512, 3), &[0; 54]).unwrap() };
        assert_eq!(stepped(&mut file, &scan(512, 3), &mut job), Done::Wrote(1));
        assert_eq!(u_of(&file), 11);
    }
    assert_eq!(highest(&blanked(8), &open(&blanked(8)).unwrap()), 0);
}

#[test]
fn a_clear_made_by_hand_does_what_its_lowers_says() {
    let file = with(&[1, 2, 9]);
    let clear_of = |slot, lowers| Job { lowers, ..clear(&file, slot).unwrap() };
    assert_eq!(ran(&mut file.clone(), &[], clear_of(2, 1)), [(1, 9), (2, 9), (1, 9), (5, 9)]);
    assert_eq!(ran(&mut file.clone(), &[], clear_of(9, 0)), [(1, 9), (3, 9), (6, 9)]);
    for (lowers, written) in [(0, 4), (1, 5), (2, 0), (u64::MAX, 0), (2, 2)] {
        let job = Job { written, ..clear_of(9, lowers) };
        assert_eq!(step(&file, &[], &job).unwrap_err().number, 14, "lowers {lowers}, written {written}");
    }
}

#[test]
fn a_save_does_not_tell_0_and_1_apart_and_hands_back_what_it_was_lent() {
    let scan = scan(600, 5);
    let file = with(&[3]);
    let job = save(&file, 3, &scan, &[0; 54]).unwrap();
    let (mut one, mut other) = (file.clone(), file.clone());
    assert_eq!(ran(&mut one, &scan, job), ran(&mut other, &scan, Job { lowers: 1, ..job }));
    assert_eq!(one, other);
    let lent = Job { lowers: 1, written: 5, boot: one[..32].try_into().unwrap(), ..job };
    let confirmed = step(&one, &scan, &lent).unwrap();
    assert_eq!((confirmed.done, confirmed.job), (Done::Saved, lent));
    for job in [Job { lowers: 1, written: 6, ..lent }, Job { lowers: 2, ..lent }] {
        assert_eq!(step(&one, &scan, &job).unwrap_err().number, 14);
    }
}
