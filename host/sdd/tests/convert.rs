//! To the current form and home again, byte by byte: what is written, what is left alone, and what is refused.

use sample::{OLD_COUNTER, OldScan, old_file, scan};
use sdd::{About, Form, Refusal, Sizes, Step};

/// Records 1 to N of every file here.
const HEAD: usize = 3 * 512;
/// What `out` is filled with before a call.
const UNTOUCHED: u8 = 0x5a;

/// A call that converts.
type Convert = fn(&[u8], &mut [u8]) -> Result<(), Refusal>;

/// An entry of which every byte is another.
fn about() -> About {
    About::of(&std::array::from_fn(|i| i as u8 + 1))
}

/// An old file, N 3, with scans in slots 1 (records 4 and 5) and 9 (record 6), and padding that is no zeros.
fn old() -> Vec<u8> {
    let (one, nine) = (scan(1_000, 1), scan(512, 2));
    let scan = |slot, bytes| OldScan { slot, magic: 2, about: about().bytes(), bytes };
    old_file(3, 9, &[scan(1, &one), scan(9, &nine)])
}

/// A current file with the same scans, made by saves.
fn current() -> Vec<u8> {
    let mut file = vec![0; 9 * 512];
    sdd::blank(&mut file, 3, 512, 64).unwrap();
    for (slot, bytes) in [(1, scan(1_000, 1)), (9, scan(512, 2))] {
        let mut job = sdd::save(&file, slot, &bytes, &about()).unwrap();
        while let Step::Wrote { .. } = sdd::step(&mut file, &bytes, &mut job).unwrap() {}
    }
    file
}

/// A file with these bytes at a place.
fn with(mut file: Vec<u8>, at: usize, bytes: &[u8]) -> Vec<u8> {
    file[at..at + bytes.len()].copy_from_slice(bytes);
    file
}

/// The whole converted file. The call is lent 8 bytes more than it needs, which have to stay.
fn converted(call: Convert, file: &[u8]) -> Vec<u8> {
    let mut out = vec![UNTOUCHED; HEAD + 8];
    call(file, &mut out).unwrap();
    assert_eq!(out.split_off(HEAD), [UNTOUCHED; 8]);
    out.extend(&file[HEAD..]);
    out
}

/// Holds a call to its refusal, and `out` to what it was.
fn refused(call: Convert, file: &[u8], out_len: usize, why: Refusal) {
    let mut out = vec![UNTOUCHED; out_len];
    assert_eq!(call(file, &mut out), Err(why));
    assert!(out.iter().all(|byte| *byte == UNTOUCHED), "a refused call wrote");
}

/// What both forms have.
fn same_sizes(one: Sizes, other: Sizes) {
    assert_eq!(Sizes { form: other.form, ..one }, other);
    assert_ne!(one.form, other.form);
}

/// The same list, the same entries but for the magic number, and the same records.
fn shows_the_same(one: &[u8], other: &[u8]) {
    same_sizes(sdd::open(one).unwrap(), sdd::open(other).unwrap());
    assert_eq!(sdd::list(one), sdd::list(other));
    for slot in 1..=16 {
        let entry = |file| sdd::entry(file, slot).map(|entry| sdd::Entry { magic: 0, ..entry });
        assert_eq!(entry(one), entry(other), "slot {slot}");
        let records = |file: &[u8]| sdd::show(file, slot).map(|span| file[span].to_vec());
        assert_eq!(records(one), records(other), "slot {slot}");
    }
}

#[test]
fn to_current_writes_these_bytes() {
    let mut wanted = vec![0; HEAD];
    let counter = u32::from(OLD_COUNTER);
    for (i, word) in [3, 3, 512, 64, 9, counter, 0, 1].into_iter().enumerate() {
        wanted[4 * i..][..4].copy_from_slice(&word.to_be_bytes());
    }
    for (at, first, last) in [(512, 4u32, 5u32), (512 + 8 * 64, 6, 6)] {
        wanted[at..at + 4].copy_from_slice(&first.to_be_bytes());
        wanted[at + 4..at + 8].copy_from_slice(&last.to_be_bytes());
        wanted[at + 8..at + 62].copy_from_slice(&about().bytes());
    }
    assert_eq!(converted(sdd::to_current, &old())[..HEAD], wanted);
}

#[test]
fn to_old_writes_these_bytes() {
    let mut wanted = vec![0; HEAD];
    for (i, word) in [3u16, 3, 512, 64, 9, 2].into_iter().enumerate() {
        wanted[2 * i..][..2].copy_from_slice(&word.to_be_bytes());
    }
    for (at, first, last) in [(512, 4, 5), (512 + 8 * 64, 6, 6)] {
        wanted[at..at + 6].copy_from_slice(&[0, first, 0, last, 0, 2]);
        wanted[at + 6..at + 8].copy_from_slice(&about().bytes()[52..]);
        wanted[at + 8..at + 60].copy_from_slice(&about().bytes()[..52]);
    }
    assert_eq!(converted(sdd::to_old, &current())[..HEAD], wanted);
}

#[test]
fn there_and_home_again_shows_the_same() {
    let (old, current) = (old(), current());
    let there = converted(sdd::to_current, &old);
    assert_eq!(sdd::open(&there).unwrap().form, Form::Current);
    shows_the_same(&old, &there);
    let home = converted(sdd::to_old, &there);
    assert_ne!(home, old, "its padding was no zeros");
    assert_eq!(converted(sdd::to_old, &converted(sdd::to_current, &home)), home);

    let there = converted(sdd::to_old, &current);
    assert_eq!(sdd::open(&there).unwrap().form, Form::Old);
    shows_the_same(&current, &there);
    assert_eq!(converted(sdd::to_current, &there), current);
}

#[test]
fn an_empty_entry_and_padding_become_zeros() {
    // slot 2 is empty and slot 16 lies above U: neither is asked for its magic number, and nothing of them is kept
    let file = with(old(), 512 + 64 + 4, &[7; 60]);
    let file = with(file, 512 + 15 * 64 + 4, &[7; 60]);
    assert_eq!(converted(sdd::to_current, &file)[..HEAD], converted(sdd::to_current, &old())[..HEAD]);
    let file = with(current(), 512 + 64 + 8, &[7; 56]);
    let file = with(file, 512 + 62, &[7; 2]);
    let file = with(file, 32, &[7; 480]);
    assert_eq!(converted(sdd::to_old, &file)[..HEAD], converted(sdd::to_old, &current())[..HEAD]);
}

#[test]
fn entries_longer_than_64_bytes_are_padded() {
    let mut file = vec![UNTOUCHED; 9 * 512];
    sdd::blank(&mut file, 3, 512, 128).unwrap();
    let bytes = scan(512, 3);
    let mut job = sdd::save(&file, 8, &bytes, &about()).unwrap();
    while let Step::Wrote { .. } = sdd::step(&mut file, &bytes, &mut job).unwrap() {}
    let there = converted(sdd::to_old, &with(file.clone(), 512 + 7 * 128 + 62, &[7; 66]));
    assert_eq!(there[512 + 7 * 128 + 60..HEAD], [0; 68]);
    assert_eq!(converted(sdd::to_current, &there), file);
}

#[test]
fn a_file_that_does_not_open_is_refused_as_open_refuses_it() {
    use Refusal::*;
    for (file, why) in [
        (old()[..511].to_vec(), TooShort),
        (with(old(), 30, &[0, 2]), UnknownVersion),
        (with(old(), 0, &[0, 1]), BadBootstrap),
        (old()[..5 * 512].to_vec(), CutShort),
        (with(old(), 512, &[0x80, 0]), BadEntry(1)),
        (with(old(), 8, &[0, 8]), EntryAboveUsed(9)),
        (with(old(), 512 + 8 * 64, &[0, 5]), SharedRecord(9)),
        (with(current(), 0, &[0, 0, 0, 1]), BadBootstrap),
        (with(current(), 512, &[0, 0, 0, 1]), BadEntry(1)),
    ] {
        // it comes before 17 and 19
        for (call, len) in
            [(sdd::to_current as Convert, HEAD), (sdd::to_current, 0), (sdd::to_old, HEAD), (sdd::to_old, 0)]
        {
            refused(call, &file, len, why);
        }
    }
}

#[test]
fn too_little_lent_is_refused_before_the_form() {
    for file in [old(), current(), with(current(), 24, &[0, 0, 0, 1]), with(old(), 512 + 4, &[0, 1])] {
        for call in [sdd::to_current as Convert, sdd::to_old] {
            refused(call, &file, HEAD - 1, Refusal::AnswerTooLong);
            refused(call, &file, 0, Refusal::AnswerTooLong);
        }
    }
}

#[test]
fn what_cannot_be_converted_is_refused_with_19() {
    refused(sdd::to_current, &current(), HEAD, Refusal::NotConvertible);
    refused(sdd::to_old, &old(), HEAD, Refusal::NotConvertible);
    for magic in [[0, 0], [0, 1], [0, 3], [1, 2], [0x80, 2], [2, 0]] {
        refused(sdd::to_current, &with(old(), 512 + 4, &magic), HEAD, Refusal::NotConvertible);
        refused(sdd::to_current, &with(old(), 512 + 8 * 64 + 4, &magic), HEAD, Refusal::NotConvertible);
    }
    refused(sdd::to_old, &with(current(), 24, &[0, 0, 0, 1]), HEAD, Refusal::NotConvertible);
    refused(sdd::to_old, &with(current(), 20, &[0, 1, 0, 0]), HEAD, Refusal::NotConvertible);
    assert!(sdd::to_old(&with(current(), 20, &[0, 0, 0xff, 0xff]), &mut [0; HEAD]).is_ok());
}

/// D and the last scan's records at what the old form can hold, and one above it.
#[test]
fn record_numbers_have_to_fit_the_old_form() {
    let file = |d: u32, first: u32, last: u32| {
        let file = with(current(), 4, &d.to_be_bytes());
        let file = with(file, 512 + 8 * 64, &[first.to_be_bytes(), last.to_be_bytes()].concat());
        [file, vec![0; 32_770 * 512 - 9 * 512]].concat()
    };
    for (file, fits) in [
        (file(32_767, 6, 6), true),
        (file(32_767, 32_766, 32_767), true),
        (file(32_767, 32_767, 32_768), false),
        (file(32_767, 32_768, 32_768), false),
        (file(32_764, 32_767, 32_767), true),
    ] {
        if fits {
            shows_the_same(&file, &converted(sdd::to_old, &file));
        } else {
            refused(sdd::to_old, &file, HEAD, Refusal::NotConvertible);
        }
    }
    let longer = [file(32_768, 6, 6), vec![0; 512]].concat();
    refused(sdd::to_old, &longer, HEAD, Refusal::NotConvertible);
}
