//! Scans that are found without an index: those that were listed, what is left in gaps, and rows of every length.

use sample::{OldScan, old_file, scan};
use sdd::{About, Find, Real8, Refusal, Step};

/// A scan with a number.
fn numbered(len: usize, number: f64) -> Vec<u8> {
    let mut scan = scan(len, 0xa5);
    scan[48..56].copy_from_slice(&number.to_be_bytes());
    scan
}

fn found(first: u64, last: u64, number: f64) -> Find {
    Find { first, last, scan: Real8::from(number) }
}

/// N 3, L 512, and room for 20 records.
fn blank() -> Vec<u8> {
    let mut file = vec![0; 20 * 512];
    sdd::blank(&mut file, 3, 512, 64).unwrap();
    file
}

/// Saves a scan, and stops after so many steps or when it is confirmed.
fn save(file: &mut [u8], slot: u64, scan: &[u8], steps: usize) {
    let mut job = sdd::save(file, slot, scan, &About::default()).unwrap();
    for _ in 0..steps {
        if !matches!(sdd::step(file, scan, &mut job).unwrap(), Step::Wrote { .. }) {
            return;
        }
    }
}

/// Scans in slots 5, 1 and 9: records 4 to 5, 6, and 7 to 9.
fn file() -> Vec<u8> {
    let mut file = blank();
    for (slot, len, number) in [(5, 1_000, 1234.01), (1, 512, -7.0), (9, 1_028, 0.0)] {
        save(&mut file, slot, &numbered(len, number), 99);
    }
    file
}

fn finds() -> [Find; 3] {
    [found(4, 5, 1234.01), found(6, 6, -7.0), found(7, 9, 0.0)]
}

/// The same with a 32-bit word at a place.
fn with(file: &[u8], at: usize, word: u32) -> Vec<u8> {
    let mut file = file.to_vec();
    file[at..at + 4].copy_from_slice(&word.to_be_bytes());
    file
}

#[test]
fn what_was_listed_is_found_whatever_the_index_holds() {
    let mut file = file();
    let mut listed: Vec<(u64, u64)> =
        sdd::list(&file).unwrap().iter().map(|scan| (scan.first.into(), scan.last.into())).collect();
    listed.sort_unstable();
    let found = sdd::find(&file).unwrap();
    assert_eq!(found, finds());
    assert_eq!(found.iter().map(|find| (find.first, find.last)).collect::<Vec<_>>(), listed);
    for junk in [0, 1, 0x7f, 0xa5, 0xff] {
        file[512..3 * 512].fill(junk);
        assert_eq!(sdd::open(&file).is_err(), junk > 0);
        assert_eq!(sdd::find(&file).unwrap(), finds(), "index of {junk}");
    }
    // what record 1 has after its words, and what lies past the data section, is not looked at
    file[32..512].fill(0xa5);
    let more = numbered(512, 1.0);
    file[9 * 512..10 * 512].copy_from_slice(&more);
    assert_eq!(sdd::find(&file).unwrap(), finds());
    // a higher D, and it is one of the data records
    assert_eq!(sdd::find(&with(&file, 4, 7)).unwrap()[3], self::found(10, 10, 1.0));
}

#[test]
fn a_number_keeps_every_bit() {
    for bits in [0, 1, 1 << 63, 0x7ff0_0000_0000_0001, u64::MAX, 0x0102_0304_0506_0708] {
        let mut scan = scan(512, 0);
        scan[48..56].copy_from_slice(&bits.to_be_bytes());
        let mut file = blank();
        save(&mut file, 1, &scan, 99);
        assert_eq!(sdd::find(&file).unwrap()[0].scan.bits(), bits);
    }
}

#[test]
fn what_is_left_in_gaps_is_found_too() {
    let mut file = file();
    // a save over slot 5 that ends before its zeros: records 10 and 11, 1, 2, and the old scan stays in 4 and 5
    save(&mut file, 5, &numbered(1_000, 1235.0), 4);
    assert_eq!(sdd::list(&file).unwrap().len(), 3);
    let mut wanted = finds().to_vec();
    wanted.push(found(10, 11, 1235.0));
    assert_eq!(sdd::find(&file).unwrap(), wanted);
    // half of it zeroed: its first record is gone, and what is left of it is no scan
    file[3 * 512..4 * 512].fill(0);
    assert_eq!(sdd::find(&file).unwrap(), wanted[1..]);
}

#[test]
fn a_find_ends_where_its_lengths_say() {
    let file = file();
    // DATALEN of the first scan reaches over the next one, which is then a part of it
    let mut longer = file.clone();
    longer[3 * 512 + 40..3 * 512 + 48].copy_from_slice(&1_280f64.to_be_bytes());
    assert_eq!(sdd::find(&longer).unwrap(), [found(4, 6, 1234.01), finds()[2]]);
    // and past the data section: it breaks rule 5, and the next one is found again
    longer[3 * 512 + 40..3 * 512 + 48].copy_from_slice(&2_820f64.to_be_bytes());
    assert_eq!(sdd::find(&longer).unwrap(), finds()[1..]);
    // the last one is cut off by a lower D
    assert_eq!(sdd::find(&with(&file, 4, 5)).unwrap(), finds()[..2]);
    assert_eq!(sdd::find(&with(&file, 4, 0)).unwrap(), []);
}

#[test]
fn an_old_file_is_searched_whatever_its_magic_numbers_are() {
    let scans = [(1, 2, numbered(1_000, 1.0)), (4, 1, numbered(512, 2.0)), (9, 3, vec![7; 300])];
    let scans: Vec<OldScan> = scans
        .iter()
        .map(|(slot, magic, bytes)| OldScan { slot: *slot, magic: *magic, about: [9; 54], bytes })
        .collect();
    let mut file = old_file(3, 9, &scans);
    let wanted = [found(4, 5, 1.0), found(6, 6, 2.0)];
    assert_eq!(sdd::find(&file).unwrap(), wanted);
    file[512..3 * 512].fill(0x5a);
    assert!(sdd::open(&file).is_err());
    assert_eq!(sdd::find(&file).unwrap(), wanted);
    file[0] = 0x80;
    assert_eq!(sdd::find(&file), Err(Refusal::BadBootstrap));
}

#[test]
fn the_bootstrap_is_judged_and_the_index_is_not() {
    let file = file();
    assert_eq!(sdd::find(&[]), Err(Refusal::TooShort));
    assert_eq!(sdd::find(&file[..511]), Err(Refusal::TooShort));
    assert_eq!(sdd::find(&with(&file, 28, 2)), Err(Refusal::UnknownVersion));
    for (at, word) in [(0, 1), (0, 514), (8, 511), (12, 96), (16, 17), (24, 2), (4, 1_000_000)] {
        assert_eq!(sdd::find(&with(&file, at, word)), Err(Refusal::BadBootstrap), "{at} is {word}");
    }
    assert_eq!(sdd::find(&with(&file, 4, 18)), Err(Refusal::CutShort));
    assert_eq!(sdd::find(&file[..9 * 512 - 1]), Err(Refusal::CutShort));
    // an entry out of range, one above U, one that shares a record; type 1
    for (at, word) in [(512, 1), (16, 8), (512, 4), (24, 1)] {
        let file = with(&file, at, word);
        assert_eq!(sdd::find(&file).unwrap(), finds(), "{at} is {word}");
        assert_eq!(sdd::open(&file).is_ok(), at == 24, "{at} is {word}");
    }
}

/// A file of so many scans, each of one record.
fn many(scans: usize) -> Vec<u8> {
    let mut file = vec![0; (2 + scans) * 512];
    sdd::blank(&mut file, 2, 512, 64).unwrap();
    file[4..8].copy_from_slice(&(scans as u32).to_be_bytes());
    for (number, record) in file[2 * 512..].chunks_exact_mut(512).enumerate() {
        record.copy_from_slice(&numbered(512, number as f64));
    }
    file
}

#[test]
fn the_row_grows_until_all_finds_have_room() {
    // a row for 256 is lent first, then one for 2,048 and one for 16,384
    for scans in [0, 1, 255, 256, 257, 2_048, 2_049, 16_385] {
        let found = sdd::find(&many(scans)).unwrap();
        assert_eq!(found.len(), scans);
        let wanted = |(i, find): (usize, &Find)| *find == self::found(i as u64 + 3, i as u64 + 3, i as f64);
        assert!(found.iter().enumerate().all(wanted));
    }
}

#[test]
fn a_row_is_filled_exactly_or_not_touched() {
    let file = many(5);
    for len in [0, 1, 3, 14, 15, 16, 99] {
        let mut row = vec![u64::MAX; len];
        // SAFETY: both pointers and lengths are those of slices.
        let answer = unsafe { (sdd::calls().find)(file.as_ptr(), file.len(), row.as_mut_ptr(), row.len()) };
        let (number, filled) = if len < 15 { (17, 0) } else { (0, 15) };
        assert_eq!((answer.why.number, answer.why.value, answer.scans), (number, 0, filled as u64 / 3));
        assert!(row[filled..].iter().all(|element| *element == u64::MAX), "{len}");
        assert!(row[..filled].chunks_exact(3).zip(3..).all(|(find, record)| find[..2] == [record; 2]), "{len}");
    }
}
