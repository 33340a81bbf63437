//! Request 2026-03, "Moving a file to the new form and home again", asked of the model.

use model::{Answer, Form, Hindrance, Write, entry, hindrances, list, open, read, show, to_current, to_old};
use sample::scan;

/// A record's length; with N 3 and M 128 there are 8 slots, and the data begin at record 4.
const L: usize = 512;
const M: usize = 128;
/// Bootstrap and index.
const N_L: usize = 3 * L;

/// Where a slot's entry begins.
fn home(slot: usize) -> usize {
    L + M * (slot - 1)
}

type Convert = fn(&[u8], usize) -> Answer<Write>;

/// What the bytes 8 to 59 of slot 2's entry are.
fn fields() -> Vec<u8> {
    (8..60).collect()
}

/// An old file of 8 records with every byte that is not judged in it 0xa5: N 3, D 5, U 7, counter 0xfffe; slot 2 has
/// records 7 and 8 and position code -2, slot 6 record 5 and position code 13.
fn old() -> Vec<u8> {
    let mut file = vec![0xa5; 8 * L];
    file[..12].copy_from_slice(&[0, 3, 0, 5, 2, 0, 0, 128, 0, 7, 0xff, 0xfe]);
    file[28..32].fill(0);
    (1..=8).for_each(|slot| file[home(slot)..][..4].fill(0));
    file[home(2)..][..8].copy_from_slice(&[0, 7, 0, 8, 0, 2, 0xff, 0xfe]);
    file[home(2) + 8..][..52].copy_from_slice(&fields());
    file[home(6)..][..8].copy_from_slice(&[0, 5, 0, 5, 0, 2, 0, 13]);
    file[6 * L..][..600].copy_from_slice(&scan(600, 1));
    file
}

/// The same file in the current form, with every byte that is not judged 0x5a.
fn current() -> Vec<u8> {
    let mut file = vec![0x5a; 8 * L];
    let words =
        [0, 0, 0, 3, 0, 0, 0, 5, 0, 0, 2, 0, 0, 0, 0, 128, 0, 0, 0, 7, 0, 0, 0xff, 0xfe, 0, 0, 0, 0, 0, 0, 0, 1];
    file[..32].copy_from_slice(&words);
    (1..=8).for_each(|slot| file[home(slot)..][..8].fill(0));
    file[home(2)..][..8].copy_from_slice(&[0, 0, 0, 7, 0, 0, 0, 8]);
    file[home(2) + 8..][..52].copy_from_slice(&fields());
    file[home(2) + 60..][..2].copy_from_slice(&[0xff, 0xfe]);
    file[home(6)..][..8].copy_from_slice(&[0, 0, 0, 5, 0, 0, 0, 5]);
    file[home(6) + 60..][..2].copy_from_slice(&[0, 13]);
    file[6 * L..][..600].copy_from_slice(&scan(600, 1));
    file
}

/// This file with these bytes at this place.
fn with(mut file: Vec<u8>, at: usize, bytes: &[u8]) -> Vec<u8> {
    file[at..at + bytes.len()].copy_from_slice(bytes);
    file
}

/// The converted records, then the file's own bytes.
fn joined(written: Write, file: &[u8]) -> Vec<u8> {
    assert_eq!((written.at, written.bytes.len()), (0, N_L));
    [&written.bytes, &file[N_L..]].concat()
}

fn refused<T>(answer: Answer<T>) -> (u32, u32) {
    answer.err().map_or((0, 0), |why| (why.number, why.value))
}

/// The causes of 19 of a file that opens.
fn causes(file: &[u8], wanted: Form) -> Vec<Hindrance> {
    hindrances(file, &open(file).unwrap(), wanted)
}

#[test]
fn an_old_file_in_the_current_form() {
    let mut wanted = vec![0; N_L];
    let words =
        [0, 0, 0, 3, 0, 0, 0, 5, 0, 0, 2, 0, 0, 0, 0, 128, 0, 0, 0, 7, 0, 0, 0xff, 0xfe, 0, 0, 0, 0, 0, 0, 0, 1];
    wanted[..32].copy_from_slice(&words);
    wanted[640..648].copy_from_slice(&[0, 0, 0, 7, 0, 0, 0, 8]);
    wanted[648..700].copy_from_slice(&fields());
    wanted[700..702].copy_from_slice(&[0xff, 0xfe]);
    wanted[1152..1160].copy_from_slice(&[0, 0, 0, 5, 0, 0, 0, 5]);
    wanted[1160..1212].fill(0xa5);
    wanted[1212..1214].copy_from_slice(&[0, 13]);
    assert_eq!(to_current(&old(), N_L), Ok(Write { at: 0, bytes: wanted }));
}

#[test]
fn a_current_file_in_the_old_form() {
    let mut wanted = vec![0; N_L];
    wanted[..12].copy_from_slice(&[0, 3, 0, 5, 2, 0, 0, 128, 0, 7, 0xff, 0xfe]);
    wanted[640..648].copy_from_slice(&[0, 7, 0, 8, 0, 2, 0xff, 0xfe]);
    wanted[648..700].copy_from_slice(&fields());
    wanted[1152..1160].copy_from_slice(&[0, 5, 0, 5, 0, 2, 0, 13]);
    wanted[1160..1212].fill(0x5a);
    assert_eq!(to_old(&current(), N_L), Ok(Write { at: 0, bytes: wanted }));
}

#[test]
fn opens_own_refusals_come_first() {
    for convert in [to_current, to_old] {
        assert_eq!(refused(convert(&[], 0)), (1, 0));
        assert_eq!(refused(convert(&old()[..511], 0)), (1, 0));
        assert_eq!(refused(convert(&with(old(), 28, &[0, 0, 0, 2]), 0)), (3, 0));
        assert_eq!(refused(convert(&with(old(), 0, &[0, 1]), 0)), (4, 0));
        assert_eq!(refused(convert(&with(old(), 2, &[0xff, 0xff]), 0)), (4, 0));
        assert_eq!(refused(convert(&old()[..8 * L - 1], 0)), (5, 0));
        assert_eq!(refused(convert(&with(old(), home(2), &[0, 3]), 0)), (6, 2));
        assert_eq!(refused(convert(&with(current(), home(8), &[0, 0, 0, 4]), 0)), (7, 8));
        assert_eq!(refused(convert(&with(current(), home(6), &[0, 0, 0, 7, 0, 0, 0, 7]), 0)), (8, 6));
    }
}

#[test]
fn seventeen_stands_before_19() {
    for file in [old(), current(), with(old(), home(2) + 4, &[0, 1]), with(current(), 24, &[0, 0, 0, 1])] {
        for convert in [to_current, to_old] {
            assert_eq!(refused(convert(&file, 0)), (17, 0));
            assert_eq!(refused(convert(&file, N_L - 1)), (17, 0));
        }
    }
    assert_eq!(refused(to_current(&current(), N_L)), (19, 0));
    assert_eq!(refused(to_old(&old(), N_L)), (19, 0));
}

#[test]
fn each_cause_of_19_by_itself() {
    use Hindrance::{AlreadySo, Counter, OtherMagic, TypeOne};
    let cases = [
        (current(), Form::Current, AlreadySo),
        (old(), Form::Old, AlreadySo),
        (with(current(), 24, &[0, 0, 0, 1]), Form::Old, TypeOne),
        (with(old(), home(6) + 4, &[0, 1]), Form::Current, OtherMagic),
        (with(old(), home(6) + 4, &[0, 3]), Form::Current, OtherMagic),
        (with(old(), home(6) + 4, &[2, 2]), Form::Current, OtherMagic),
        (with(current(), 20, &[0, 1, 0, 0]), Form::Old, Counter),
    ];
    for (file, wanted, cause) in cases {
        let convert = if wanted == Form::Old { to_old } else { to_current };
        assert_eq!(refused(convert(&file, N_L + 7)), (19, 0), "{cause:?}");
        assert_eq!(causes(&file, wanted), [cause]);
    }
    assert_eq!(refused(to_old(&with(current(), 20, &[0, 0, 0xff, 0xff]), N_L)), (0, 0));
    // an empty entry has a magic too: 0xa5a5 here, and 1
    assert_eq!(refused(to_current(&with(old(), home(1) + 4, &[0, 1]), N_L)), (0, 0));
}

/// A current file of 33,000 records with this D, and a scan in slot 1.
fn long(d: u32, first: u32, last: u32) -> Vec<u8> {
    let mut file = vec![0; 33_000 * L];
    for (i, word) in [3, d, 512, 128, 1, 0, 0, 1].into_iter().enumerate() {
        file[4 * i..][..4].copy_from_slice(&word.to_be_bytes());
    }
    file[L..][..4].copy_from_slice(&first.to_be_bytes());
    file[L + 4..][..4].copy_from_slice(&last.to_be_bytes());
    file
}

#[test]
fn what_the_old_form_cannot_say() {
    use Hindrance::{DataRecords, First, Last};
    let cases: [(Vec<u8>, &[Hindrance]); 5] = [
        (long(32_767, 32_767, 32_767), &[]),
        (long(32_768, 32_767, 32_767), &[DataRecords]),
        (long(32_767, 32_767, 32_768), &[Last]),
        // a first that is too high has a last that is too high
        (long(32_767, 32_768, 32_768), &[First, Last]),
        (long(32_768, 4, 32_768), &[DataRecords, Last]),
    ];
    for (file, expected) in cases {
        assert_eq!(causes(&file, Form::Old), expected);
        assert_eq!(refused(to_old(&file, N_L)), (if expected.is_empty() { 0 } else { 19 }, 0));
    }
    let written = to_old(&long(32_767, 4, 32_767), N_L).unwrap().bytes;
    assert_eq!(written[..12], [0, 3, 0x7f, 0xff, 2, 0, 0, 128, 0, 1, 0, 0]);
    assert_eq!(written[L..][..8], [0, 4, 0x7f, 0xff, 0, 2, 0, 0]);
}

/// Same list, same entries but the magic, same shown bytes, same scans.
fn shows_the_same(one: &[u8], other: &[u8]) {
    assert_eq!(list(one, 24), list(other, 24));
    for slot in 0..=9 {
        assert_eq!(
            entry(one, slot).map(|found| model::Entry { magic: 0, ..found }),
            entry(other, slot).map(|found| model::Entry { magic: 0, ..found })
        );
        assert_eq!(show(one, slot), show(other, slot));
        assert_eq!(read(one, slot), read(other, slot));
    }
}

#[test]
fn there_and_home_again_from_either_side() {
    let sides: [(Vec<u8>, [Convert; 2]); 2] = [(old(), [to_current, to_old]), (current(), [to_old, to_current])];
    for (file, [there, home]) in sides {
        let moved = joined(there(&file, N_L).unwrap(), &file);
        shows_the_same(&file, &moved);
        let back = joined(home(&moved, N_L).unwrap(), &moved);
        shows_the_same(&file, &back);
        // all padding is zeros now, so that another round gives the same bytes
        let again = joined(there(&back, N_L).unwrap(), &back);
        assert!(again == moved);
        assert!(joined(home(&again, N_L).unwrap(), &again) == back);
        assert!(back != file);
    }
}
