//! 2026-06, scans without an index, asked of the model: what is found under a junk index, where the search goes on,
//! where it ends, and what is refused.

use model::{Answer, Done, Job, Run, blank, clear, find, gaps_zero, listed, open, save, step};
use sample::{OldScan, old_file, scan};

/// A record's length; with N 3 and M 64 there are 16 slots, and the data begin at record 4.
const L: usize = 512;

/// More elements than any search here answers.
const PLENTY: usize = 300;

/// A current file with so many data records and lent records, junk in its index, and these scans from these records on.
fn junk_index(d: u32, records: usize, scans: &[(usize, &[u8])]) -> Vec<u8> {
    let mut file = vec![0; records * L];
    for (i, word) in [3, d, 512, 64, 9, 77, 0, 1].into_iter().enumerate() {
        put_word(&mut file, i + 1, word);
    }
    file[L..3 * L].fill(0xee);
    scans.iter().for_each(|(record, scan)| put(&mut file, *record, scan));
    file
}

/// Puts a word of the bootstrap.
fn put_word(file: &mut [u8], number: usize, word: u32) {
    file[4 * (number - 1)..][..4].copy_from_slice(&word.to_be_bytes());
}

/// Puts bytes from a record on.
fn put(file: &mut [u8], record: usize, bytes: &[u8]) {
    file[L * (record - 1)..][..bytes.len()].copy_from_slice(bytes);
}

/// A scan of so many bytes with this word SCAN, which stands in its bytes 48 to 55.
fn with_word(len: usize, word: u64) -> Vec<u8> {
    let mut scan = scan(len, 7);
    scan[48..56].copy_from_slice(&word.to_be_bytes());
    scan
}

/// A scan with other bytes at a place.
fn with(scan: &[u8], at: usize, bytes: &[u8]) -> Vec<u8> {
    let mut scan = scan.to_vec();
    scan[at..at + bytes.len()].copy_from_slice(bytes);
    scan
}

/// First and last of each find.
fn runs(file: &[u8]) -> Vec<(u64, u64)> {
    find(file, PLENTY).unwrap().chunks(3).map(|find| (find[0], find[1])).collect()
}

fn refused<T>(answer: Answer<T>) -> u32 {
    answer.err().map_or(0, |why| why.number)
}

/// Runs a job to its end.
fn run(file: &mut [u8], scan: &[u8], mut job: Job) {
    loop {
        let stepped = step(file, scan, &job).unwrap();
        if let Some(write) = stepped.write {
            write.apply(file);
        }
        job = stepped.job;
        if !matches!(stepped.done, Done::Wrote(_)) {
            return;
        }
    }
}

/// Scans of these lengths saved to these slots of a blank file of 40 records.
fn saves(scans: &[(u64, usize)]) -> Vec<u8> {
    let mut file = vec![0; 40 * L];
    blank(file.len() as u64, 3, 512, 64).unwrap().apply(&mut file);
    for (slot, len) in scans {
        let scan = scan(*len, *slot as u8);
        let job = save(&file, *slot, &scan, &[7; 54]).unwrap();
        run(&mut file, &scan, job);
    }
    file
}

/// The runs that the index has, in record order.
fn listed_runs(file: &[u8]) -> Vec<(u64, u64)> {
    let mut runs: Vec<(u64, u64)> =
        listed(file, &open(file).unwrap()).into_iter().map(|(_, Run { first, last })| (first, last)).collect();
    runs.sort_unstable();
    runs
}

#[test]
fn scans_of_several_lengths_are_found_under_a_junk_index() {
    let (whole, two, least) = (with_word(512, 1), with_word(1_000, 0x4059_0000_0000_0000), with_word(256, 0));
    let (over, full) = (with_word(1_028, u64::MAX), with_word(1_024, 0x0123_4567_89ab_cdef));
    let scans: [(usize, &[u8]); 5] = [(4, &whole), (5, &two), (8, &least), (9, &over), (13, &full)];
    let file = junk_index(12, 16, &scans);
    assert_eq!(refused(open(&file)), 6);
    let wanted =
        [[4, 4, 1], [5, 6, 0x4059_0000_0000_0000], [8, 8, 0], [9, 11, u64::MAX], [13, 14, 0x0123_4567_89ab_cdef]];
    assert_eq!(find(&file, PLENTY), Ok(wanted.concat()));
}

#[test]
fn junk_that_is_no_scan_is_gone_over_record_by_record() {
    let mut file = junk_index(9, 12, &[(4, &[0xff; 3 * L]), (9, &scan(700, 5))]);
    assert_eq!(runs(&file), [(9, 10)]);
    // a scan that does not begin with a record is none
    file[L * 4 + 8..][..600].copy_from_slice(&scan(600, 5));
    assert_eq!(runs(&file), [(9, 10)]);
}

#[test]
fn nothing_outside_the_data_section_is_looked_at() {
    let one = scan(512, 1);
    // records 2 and 3 are the index, 9 and 10 lie beyond N+D
    let file = junk_index(5, 10, &[(2, &one), (3, &one), (8, &one), (9, &one), (10, &one)]);
    assert_eq!(runs(&file), [(8, 8)]);
}

#[test]
fn a_scan_left_in_a_gap_is_found_as_well() {
    let mut file = saves(&[(1, 1_000), (2, 600), (3, 512)]);
    let left = file[5 * L..7 * L].to_vec();
    let job = clear(&file, 2).unwrap();
    run(&mut file, &[], job);
    assert_eq!(runs(&file), [(4, 5), (8, 8)]);
    put(&mut file, 6, &left);
    assert_eq!(gaps_zero(&file), Ok(false));
    assert_eq!(listed_runs(&file), [(4, 5), (8, 8)]);
    assert_eq!(runs(&file), [(4, 5), (6, 7), (8, 8)]);
}

#[test]
fn a_find_may_end_at_the_last_data_record_and_not_past_it() {
    for (len, found) in [(1_020, true), (1_024, true), (1_028, false), (1_536, false)] {
        let scan = scan(len, 2);
        // N+D is 8, and all bytes of the scan are lent
        let file = junk_index(5, 12, &[(7, &scan)]);
        let wanted: &[(u64, u64)] = if found { &[(7, 8)] } else { &[] };
        assert_eq!(runs(&file), wanted, "{len} bytes from record 7 on");
        // one record more in the data section, and it is
        let file = junk_index(6, 12, &[(7, &scan)]);
        assert_eq!(runs(&file), [(7, 6 + len.div_ceil(L) as u64)], "{len} bytes from record 7 on");
    }
    // HEADLEN alone is past it
    let long = with(&scan(512, 2), 32, &520f64.to_be_bytes());
    assert_eq!(runs(&junk_index(5, 12, &[(8, &with(&long, 40, &0f64.to_be_bytes()))])), []);
}

#[test]
fn the_search_goes_on_after_the_last_record_of_a_find() {
    let (outer, inner) = (scan(1_536, 1), scan(512, 2));
    let mut file = junk_index(9, 12, &[(4, &outer), (5, &inner), (6, &inner), (7, &inner)]);
    assert_eq!(runs(&file), [(4, 6), (7, 7)]);
    // where the outer one is none, the records inside it are looked at
    file[L * 3] = 1;
    assert_eq!(runs(&file), [(5, 5), (6, 6), (7, 7)]);
    // one that reaches from inside a find past its end is not looked at either, and what it hid is
    let reaching = scan(1_024, 3);
    let file = junk_index(9, 12, &[(4, &scan(1_024, 1)), (5, &reaching[..512]), (6, &inner)]);
    assert_eq!(runs(&file), [(4, 5), (6, 6)]);
}

#[test]
fn a_scan_may_be_as_long_as_its_two_lengths_allow() {
    // longer than any that can be saved: HEADLEN and DATALEN are 65,536 each, 256 records in all
    let mut long = vec![0; 131_072];
    long[..256].copy_from_slice(&scan(256, 9));
    long[32..40].copy_from_slice(&65_536f64.to_be_bytes());
    long[40..48].copy_from_slice(&65_536f64.to_be_bytes());
    let file = junk_index(257, 260, &[(4, &long), (260, &scan(512, 1))]);
    assert_eq!(runs(&file), [(4, 259), (260, 260)]);
    for (at, length) in [(32, 65_544.0f64), (40, 65_540.0)] {
        let file = junk_index(300, 303, &[(4, &with(&long, at, &length.to_be_bytes()))]);
        assert_eq!(runs(&file), []);
    }
}

#[test]
fn each_of_the_rules_2_to_5_is_asked() {
    // rule 1 cannot be broken here, since a record has 512 bytes at least
    let right = scan(1_000, 1);
    let found: &[(u64, u64)] = &[(4, 5)];
    let half = |number: i16| number.to_be_bytes();
    let starts_14 = with(&with(&right, 0, &half(14)), 28, &half(33));
    let cases = [
        (with(&right, 0, &half(12)), 2, false),
        (with(&right, 0, &half(16)), 2, false),
        (with(&right, 0, &half(-13)), 2, false),
        (with(&right, 2, &half(4)), 3, false),
        (with(&right, 4, &half(20)), 3, false),
        (with(&right, 26, &half(31)), 3, false),
        (starts_14.clone(), 4, false),
        (with(&starts_14, 32, &264f64.to_be_bytes()), 0, true),
        (with(&right, 28, &half(1)), 0, true), // a start that is not used
        (with(&right, 32, &248f64.to_be_bytes()), 4, false),
        (with(&right, 32, &260f64.to_be_bytes()), 4, false),
        (with(&right, 40, &746f64.to_be_bytes()), 5, false),
        (with(&right, 40, &748f64.to_be_bytes()), 0, true),
    ];
    for (scan, rule, is_found) in cases {
        let file = junk_index(9, 12, &[(4, &scan)]);
        assert_eq!(runs(&file), if is_found { found } else { &[] }, "rule {rule}");
    }
}

#[test]
fn lengths_are_whole_numbers_with_the_sign_clear() {
    let right = scan(512, 1);
    let odd = [-256.0, 256.5, -0.0, f64::NAN, f64::INFINITY, 1e300, f64::from_bits(1), 4_294_967_552.0];
    for length in odd {
        for at in [32, 40] {
            let file = junk_index(9, 12, &[(4, &with(&right, at, &length.to_be_bytes()))]);
            assert_eq!(runs(&file), [], "{length} at byte {at}");
        }
    }
    // a scan without data
    assert_eq!(runs(&junk_index(9, 12, &[(4, &with(&right, 40, &0f64.to_be_bytes()))])), [(4, 4)]);
}

#[test]
fn the_last_record_follows_from_the_lengths() {
    for (len, last) in [(256, 4), (508, 4), (512, 4), (516, 5), (520, 5), (1_020, 5), (1_024, 5), (1_028, 6)] {
        assert_eq!(runs(&junk_index(9, 12, &[(4, &scan(len, 1))])), [(4, last)], "{len} bytes");
    }
}

#[test]
fn an_old_file_is_searched_whatever_its_magics_are() {
    let (one, two) = (with_word(1_000, 5), with_word(512, u64::MAX - 1));
    for magic in [2, 1, 3, 0, -2] {
        let scans = [
            OldScan { slot: 9, magic, about: [0; 54], bytes: &one },
            OldScan { slot: 1, magic: 2, about: [0; 54], bytes: &two },
        ];
        let mut file = old_file(3, 9, &scans);
        let wanted = Ok(vec![4, 5, 5, 6, 6, u64::MAX - 1]);
        assert_eq!(find(&file, PLENTY), wanted, "magic {magic}");
        file[L..3 * L].fill(0xee);
        assert_eq!(refused(open(&file)), 6);
        assert_eq!(find(&file, PLENTY), wanted, "magic {magic}, and the index is junk");
        // D is an Integer*2 in the old form
        file[2..4].copy_from_slice(&2u16.to_be_bytes());
        assert_eq!(find(&file, PLENTY), Ok(vec![4, 5, 5]));
    }
}

#[test]
fn neither_type_nor_u_nor_counter_matters() {
    let mut file = junk_index(5, 8, &[(4, &scan(512, 1)), (6, &scan(1_000, 2))]);
    for (word, values) in [(7, [0, 1]), (5, [0, 16]), (6, [0, u32::MAX])] {
        for value in values {
            put_word(&mut file, word, value);
            assert_eq!(runs(&file), [(4, 4), (6, 7)], "word {word} is {value}");
        }
    }
}

#[test]
fn without_data_records_nothing_is_found() {
    let file = junk_index(0, 8, &[(4, &scan(512, 1))]);
    assert_eq!(find(&file, 0), Ok(vec![]));
    assert_eq!(find(&file[..3 * L], 0), Ok(vec![]));
    assert_eq!(find(&file, PLENTY), Ok(vec![]));
}

#[test]
fn refusals_are_the_bootstraps_own_in_their_order() {
    let right = junk_index(5, 8, &[(4, &scan(512, 1)), (5, &scan(512, 1))]);
    let number = |file: &[u8]| refused(find(file, 5));
    assert_eq!(number(&right), 17);
    // each fault joins those before it, from the last one to the first
    let mut file = right.clone();
    file.pop();
    assert_eq!(number(&file), 5);
    put_word(&mut file, 1, 1);
    assert_eq!(number(&file), 4);
    put_word(&mut file, 8, 2);
    assert_eq!(number(&file), 3);
    assert_eq!(number(&file[..512]), 3);
    assert_eq!(number(&file[..511]), 1);
    assert_eq!(number(&[]), 1);
    // word 8 is 0: an old file, which is not refused for that; its words are out of range here
    let mut file = right;
    put_word(&mut file, 8, 0);
    assert_eq!(number(&file), 4);
    for (word, value) in [(1, 514), (2, 999_998), (3, 511), (4, 96), (5, 17), (7, 2)] {
        let mut file = junk_index(5, 8, &[]);
        put_word(&mut file, word, value);
        assert_eq!(number(&file), 4, "word {word}");
    }
}

#[test]
fn seventeen_comes_exactly_where_the_row_is_shorter_than_the_finds() {
    for scans in 0..=4 {
        let one = with_word(512, 6);
        let placed: Vec<(usize, &[u8])> = (4..4 + scans).map(|record| (record, &one[..])).collect();
        let file = junk_index(9, 12, &placed);
        for out_len in 0..=3 * scans + 2 {
            let answer = find(&file, out_len);
            if out_len < 3 * scans {
                assert_eq!(refused(answer), 17, "{scans} finds, {out_len} elements");
            } else {
                // what is written is as long as the finds, so elements past them stay
                assert_eq!(answer.unwrap().len(), 3 * scans, "{scans} finds, {out_len} elements");
            }
        }
    }
}

#[test]
fn on_a_file_made_by_saves_the_finds_are_the_listed_runs_in_record_order() {
    // lengths that fill exactly their records or nearly, in slots that are not in record order
    let mut file = saves(&[(9, 1_000), (1, 512), (16, 1_536), (2, 256), (5, 4_096), (3, 516)]);
    assert_eq!(listed_runs(&file), [(4, 5), (6, 6), (7, 9), (10, 10), (11, 18), (19, 20)]);
    assert_eq!((gaps_zero(&file), runs(&file)), (Ok(true), listed_runs(&file)));
    // a slot replaced and one cleared, whose records are zeroed
    let new = scan(2_000, 8);
    let job = save(&file, 9, &new, &[0; 54]).unwrap();
    run(&mut file, &new, job);
    let job = clear(&file, 16).unwrap();
    run(&mut file, &[], job);
    assert_eq!(listed_runs(&file), [(6, 6), (10, 10), (11, 18), (19, 20), (21, 24)]);
    assert_eq!((gaps_zero(&file), runs(&file)), (Ok(true), listed_runs(&file)));
    // the index alone is lost
    file[L..3 * L].fill(0xee);
    assert_eq!(runs(&file), [(6, 6), (10, 10), (11, 18), (19, 20), (21, 24)]);
}

#[test]
fn a_listed_run_longer_than_its_scan_is_found_by_the_scans_own_lengths() {
    // so that the premise of the sentence on the listed runs is needed: the scans "fill exactly their records"
    let mut file = saves(&[(1, 1_000)]);
    file[L + 4..L + 8].copy_from_slice(&6u32.to_be_bytes());
    put_word(&mut file, 2, 3);
    assert_eq!(listed_runs(&file), [(4, 6)]);
    assert_eq!(runs(&file), [(4, 5)]);
}
