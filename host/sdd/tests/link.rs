//! A file that comes in pieces is judged like the whole one: however it is cut, in both forms, and refused ones too.

use sample::{OldScan, old_file, scan};
use sdd::{About, Form, Link, Refusal, Sizes, Step};

/// N 3, L 512, M 64, ten records, scans in slots 5, 1 and 9: records 4 to 5, 6, and 7 to 9.
fn current() -> Vec<u8> {
    let mut file = vec![0; 10 * 512];
    sdd::blank(&mut file, 3, 512, 64).unwrap();
    for (slot, len) in [(5, 1_000), (1, 512), (9, 1_028)] {
        let scan = scan(len, 0xa5);
        let mut job = sdd::save(&file, slot, &scan, &About::default()).unwrap();
        while let Step::Wrote { .. } = sdd::step(&mut file, &scan, &mut job).unwrap() {}
    }
    file
}

/// The same sizes in the old form, with scans in slots 1, 4 and 9 and no zeros where nothing is judged.
fn old() -> Vec<u8> {
    let (one, two) = (scan(1_000, 1), scan(512, 2));
    let scan = |slot, magic, bytes| OldScan { slot, magic, about: [0x5a; 54], bytes };
    old_file(3, 10, &[scan(1, 2, &one), scan(4, 1, &[7; 300]), scan(9, 2, &two)])
}

/// With other bytes at a place.
fn with(file: &[u8], at: usize, bytes: &[u8]) -> Vec<u8> {
    let mut file = file.to_vec();
    file[at..at + bytes.len()].copy_from_slice(bytes);
    file
}

/// A file for each answer that open has, in both forms.
fn files() -> Vec<(Vec<u8>, u32)> {
    let (new, old) = (current(), old());
    let entry = |slot: usize| 512 + (slot - 1) * 64;
    vec![
        (new.clone(), 0),
        (old.clone(), 0),
        (new[..511].to_vec(), 1),
        (vec![], 1),
        (with(&new, 31, &[2]), 3),
        (with(&old, 28, &[1]), 3),
        (with(&new, 3, &[1]), 4),
        (with(&old, 6, &[0, 65]), 4),
        (new[..9 * 512 - 1].to_vec(), 5),
        (old[..7 * 512 - 1].to_vec(), 5),
        (with(&new, entry(5), &[0, 0, 0, 3]), 6),
        (with(&old, entry(4), &[0xff, 0xff]), 6),
        (with(&new, entry(16) + 7, &[1]), 7),
        (with(&old, entry(10), &[0x80, 0]), 7),
        (with(&new, entry(9), &[0, 0, 0, 6]), 8),
        (with(&old, entry(9), &[0, 5]), 8),
    ]
}

/// The verdict on a file that comes in these pieces.
fn judged<'a>(length: usize, pieces: impl IntoIterator<Item = &'a [u8]>) -> Result<Sizes, Refusal> {
    let mut link = Link::begin(length as u64);
    pieces.into_iter().for_each(|piece| link.take(piece));
    link.finish()
}

#[test]
fn every_file_gets_the_answer_of_open() {
    for (file, number) in files() {
        let opened = sdd::open(&file);
        assert_eq!(opened.map_or_else(Refusal::number, |_| 0), number);
        assert_eq!(judged(file.len(), [&file[..]]), opened, "as one piece: {number}");
        for size in [1, 2, 3, 5, 7, 31, 32, 33, 63, 64, 65, 100, 511, 512, 513, 1_024, 1_536, 4_096] {
            assert_eq!(judged(file.len(), file.chunks(size)), opened, "pieces of {size}: {number}");
        }
    }
}

#[test]
fn a_cut_at_every_byte_makes_no_difference() {
    for (file, number) in files() {
        let opened = sdd::open(&file);
        for cut in 0..=file.len().min(3 * 512 + 1) {
            let (one, two) = file.split_at(cut);
            assert_eq!(judged(file.len(), [&[], one, &[], &[], two, &[]]), opened, "cut at {cut}: {number}");
        }
    }
}

#[test]
fn both_forms_have_their_sizes() {
    let (new, old) = (current(), old());
    for (file, form) in [(&new, Form::Current), (&old, Form::Old)] {
        let sizes = judged(file.len(), file.chunks(9)).unwrap();
        assert_eq!((sizes.form, sizes.n, sizes.l, sizes.m), (form, 3, 512, 64));
        assert_eq!((sizes.u, sizes.capacity, sizes.room), (9, 16, 10));
    }
}

/// What is known at each byte: 20 until the first 32 came, then what they break, 20 until the index came, then all.
#[test]
fn it_is_20_until_enough_has_come() {
    for (file, number) in files().into_iter().filter(|(file, _)| file.len() >= 512) {
        let opened = sdd::open(&file);
        let told_at = if (3..=5).contains(&number) { 32 } else { 3 * 512 };
        let mut link = Link::begin(file.len() as u64);
        for (came, byte) in file.iter().enumerate() {
            let wanted = if came < told_at { Err(Refusal::NotAllCame) } else { opened };
            assert_eq!(link.finish(), wanted, "after {came} bytes: {number}");
            link.take(&[*byte]);
        }
        assert_eq!(link.finish(), opened);
    }
}

#[test]
fn a_file_too_short_to_be_one_needs_no_bytes() {
    for length in [0, 1, 31, 511] {
        assert_eq!(judged(length, []), Err(Refusal::TooShort));
        assert_eq!(judged(length, current().chunks(512)), Err(Refusal::TooShort), "and is not changed by any");
    }
    assert_eq!(judged(512, []), Err(Refusal::NotAllCame));
}

#[test]
fn bytes_past_the_index_and_past_the_length_are_passed_over() {
    for file in [current(), old()] {
        let opened = sdd::open(&file).unwrap();
        let mut link = Link::begin(file.len() as u64);
        link.take(&file[..3 * 512]);
        let told = link.clone();
        assert_eq!(link.finish(), Ok(opened));
        for junk in [0, 1, 0xff] {
            link.take(&vec![junk; 100_000]);
            assert_eq!(link.finish(), Ok(opened));
            assert_eq!(format!("{link:?}"), format!("{told:?}"));
        }
        let longer = [&file[..], &[0xff; 5_000]].concat();
        for size in [1, 512, 6_000] {
            assert_eq!(judged(file.len(), longer.chunks(size)), Ok(opened));
        }
    }
}

/// The length is what was given, and not what came.
#[test]
fn the_length_given_decides_room_and_5() {
    let file = current();
    assert_eq!(judged(9 * 512 - 1, [&file[..]]), Err(Refusal::CutShort));
    for (length, room) in [(9 * 512, 9), (9 * 512 + 511, 9), (10 * 512, 10), (usize::MAX, 1_000_000)] {
        assert_eq!(judged(length, [&file[..]]).unwrap().room, room);
    }
}

#[test]
fn a_link_can_be_asked_in_between_and_copied() {
    let file = current();
    let mut link = Link::begin(file.len() as u64);
    link.take(&file[..700]);
    let mut other = link.clone();
    assert_eq!(link.finish(), Err(Refusal::NotAllCame));
    assert_eq!(link.finish(), Err(Refusal::NotAllCame));
    link.take(&file[700..]);
    assert_eq!(link.finish(), sdd::open(&file));
    // the copy goes its own way: slot 9 shares a record
    other.take(&with(&file, 512 + 8 * 64, &[0, 0, 0, 6])[700..]);
    assert_eq!(other.finish(), Err(Refusal::SharedRecord(9)));
    assert_eq!(link.finish(), sdd::open(&file));
}

/// All of 4,096 slots, with scans in falling order, so that every mark is looked at.
#[test]
fn a_full_index_is_judged() {
    let mut file = vec![0; (513 + 4_096) * 512];
    sdd::blank(&mut file, 513, 512, 64).unwrap();
    for slot in 0..4_096 {
        let record = (513 + 4_096 - slot as u32).to_be_bytes();
        file[512 + 64 * slot..][..8].copy_from_slice(&[record, record].concat());
    }
    for at in [4, 16] {
        file[at..at + 4].copy_from_slice(&4_096u32.to_be_bytes());
    }
    for file in [with(&file, 0, &[]), with(&file, 512 + 64 * 4_095 + 3, &[3])] {
        let opened = sdd::open(&file);
        for size in [512, 700, 100_000] {
            assert_eq!(judged(file.len(), file.chunks(size)), opened);
        }
    }
}
