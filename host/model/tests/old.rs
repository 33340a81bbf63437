//! Request 2026-01, "the station's older files", asked of the model.

use model::{Answer, Form, Job, blank, clear, entry, keep, list, listed, open, read, room, save, show, step};
use sample::scan;

/// A record's length; with N 3 and M 64 there are 16 slots, and the data begin at record 4.
const L: usize = 512;

/// Puts Integer*2 numbers one after the other.
fn put(file: &mut [u8], at: usize, halves: &[i16]) {
    for (i, half) in halves.iter().enumerate() {
        file[at + 2 * i..][..2].copy_from_slice(&half.to_be_bytes());
    }
}

/// Where a slot's entry begins.
fn home(slot: usize) -> usize {
    L + 64 * (slot - 1)
}

/// An old file of 8 records: N 3, D 5, L 512, M 64, U 9, with a scan of 1,000 bytes of magic 2 in slot 1 (records 7
/// and 8) and one of 512 bytes of magic 1 in slot 9 (record 6).
fn old() -> Vec<u8> {
    let mut file = vec![0; 8 * L];
    put(&mut file, 0, &[3, 5, 512, 64, 9, -1]);
    put(&mut file, home(1), &[7, 8, 2, 13]);
    put(&mut file, home(9), &[6, 6, 1, -2]);
    file[6 * L..6 * L + 1_000].copy_from_slice(&scan(1_000, 3));
    file[5 * L..6 * L].copy_from_slice(&scan(512, 3));
    file
}

/// The old file with these numbers at this place.
fn old_with(at: usize, halves: &[i16]) -> Vec<u8> {
    let mut file = old();
    put(&mut file, at, halves);
    file
}

fn refused<T>(answer: Answer<T>) -> (u32, u32) {
    answer.err().map_or((0, 0), |why| (why.number, why.value))
}

fn changes(file: &[u8]) -> [(u32, u32); 3] {
    let scan = scan(512, 3);
    [refused(save(file, 2, &scan, &[0; 54])), refused(keep(file, &scan, &[0; 54])), refused(clear(file, 1))]
}

#[test]
fn an_old_file_opens() {
    let sizes = open(&old()).unwrap();
    assert_eq!((sizes.n, sizes.d, sizes.l, sizes.m, sizes.u), (3, 5, 512, 64, 9));
    assert_eq!((sizes.counter, sizes.kind, sizes.form), (65_535, 0, Form::Old));
    assert_eq!((sizes.capacity(), room(8 * 512 + 511, &sizes)), (16, 8));
    assert_eq!((sizes.home_record(8), sizes.home_place(8)), (2, 448));
    assert_eq!(list(&old(), 6), Ok(vec![1, 7, 8, 9, 6, 6]));
    assert_eq!(refused(list(&old(), 5)), (17, 0));
}

#[test]
fn a_file_of_zeros_is_old_and_its_numbers_are_out_of_range() {
    assert_eq!(refused(open(&[0; 511])), (1, 0));
    assert_eq!(refused(open(&[0; 512])), (4, 0));
    assert_eq!(changes(&[0; 512]), [(2, 0); 3]);
}

#[test]
fn what_is_not_judged() {
    let mut file = old();
    file[12..28].fill(0xff);
    file[32..L].fill(0xff);
    file[home(1) + 60..home(2)].fill(0xff);
    assert_eq!(open(&file), open(&old()));
    assert_eq!(entry(&file, 1), entry(&old(), 1));
    file[28] = 1;
    assert_eq!(refused(open(&file)), (3, 0));
}

#[test]
fn negative_words_are_above_every_limit() {
    for word in 0..5 {
        assert_eq!(refused(open(&old_with(2 * word, &[-1]))), (4, 0), "word {}", word + 1);
        assert_eq!(refused(open(&old_with(2 * word, &[i16::MIN]))), (4, 0), "word {}", word + 1);
    }
    assert_eq!(refused(open(&old_with(2, &[6]))), (5, 0));
}

#[test]
fn runs_beyond_32_767_are_neither_empty_nor_in_range() {
    let mut file = vec![0; 33_000 * L];
    put(&mut file, 0, &[129, 32_767, 512, 64, 2, 0]);
    put(&mut file, home(1), &[130, 32_767, 2, 0]);
    assert_eq!(list(&file, 3), Ok(vec![1, 130, 32_767]));
    put(&mut file, home(2), &[i16::MIN, i16::MIN, 2, 0]);
    assert_eq!(refused(open(&file)), (6, 2));
    put(&mut file, home(2), &[0; 4]);
    put(&mut file, home(3), &[i16::MIN, i16::MIN, 2, 0]);
    assert_eq!(refused(open(&file)), (7, 3));
    put(&mut file, home(3), &[0; 4]);
    put(&mut file, home(2), &[32_767, 32_767, 2, 0]);
    assert_eq!(refused(open(&file)), (8, 2));
}

#[test]
fn the_index_is_judged_as_in_the_current_form() {
    assert_eq!(refused(open(&old_with(home(1), &[3, 8]))), (6, 1));
    assert_eq!(refused(open(&old_with(home(1), &[8, 7]))), (6, 1));
    assert_eq!(refused(open(&old_with(home(1), &[7, 9]))), (6, 1));
    assert_eq!(refused(open(&old_with(home(9), &[0, 6]))), (6, 9));
    assert_eq!(refused(open(&old_with(home(10), &[0, 1]))), (7, 10));
    assert_eq!(refused(open(&old_with(home(9), &[6, 7]))), (8, 9));
    // magic and position code alone make no entry
    assert_eq!(refused(open(&old_with(home(10), &[0, 0, 2, 13]))), (0, 0));
}

#[test]
fn entries_have_magic_and_position_code() {
    let mut file = old();
    put(&mut file, home(1) + 56, &[513, -1, 77]);
    file[home(1) + 16] = b'W';
    let found = entry(&file, 1).unwrap();
    assert_eq!((found.first, found.last, found.magic, found.position), (7, 8, 2, 13));
    assert_eq!((found.mode, found.number, found.kind), (513, -1, model::Kind::SpectralLine));
    assert_eq!(found.source[0], b'W');
    let found = entry(&file, 9).unwrap();
    assert_eq!((found.first, found.last, found.magic, found.position), (6, 6, 1, -2));
    assert_eq!(refused(entry(&file, 0)), (9, 0));
    assert_eq!(refused(entry(&file, 2)), (10, 0));
}

#[test]
fn only_magic_two_is_read() {
    assert_eq!(show(&old(), 9), Ok((5 * 512, 6 * 512)));
    assert_eq!(read(&old(), 1), Ok((6 * 512, 6 * 512 + 1_000)));
    assert_eq!(refused(read(&old(), 9)), (18, 0));
    for magic in [0, 1, 3, -2, 0x0200] {
        assert_eq!(refused(read(&old_with(home(1) + 4, &[magic]), 1)), (18, 0), "magic {magic}");
    }
    // between 10 and 11
    assert_eq!(refused(read(&old_with(home(2) + 4, &[1]), 2)), (10, 0));
    assert_eq!(refused(read(&old_with(6 * L, &[12]), 1)), (11, 2));
    let mut file = old_with(6 * L, &[12]);
    put(&mut file, home(1) + 4, &[3]);
    assert_eq!(refused(read(&file, 1)), (18, 0));
}

#[test]
fn a_change_of_an_old_file_is_refused_with_2_in_its_place() {
    assert_eq!(changes(&old()), [(2, 0); 3]);
    assert_eq!(changes(&old()[..511]), [(1, 0); 3]);
    assert_eq!(changes(&old_with(0, &[1])), [(2, 0); 3]);
    assert_eq!(changes(&old_with(home(1), &[3, 8])), [(2, 0); 3]);
    assert_eq!(changes(&old_with(30, &[2])), [(3, 0); 3]);
}

#[test]
fn a_step_on_an_old_file_is_14() {
    let file = old();
    let scan = scan(512, 3);
    let save = Job {
        saves: 1,
        slot: 2,
        scan_len: 512,
        file_len: file.len() as u64,
        first: 4,
        written: 0,
        lowers: 0,
        old_first: 4,
        old_count: 1,
        boot: file[..32].try_into().unwrap(),
        about: [0; 54],
    };
    for (written, lowers) in (0..=3).flat_map(|written| [(written, 0), (written, 1)]) {
        let save = Job { written, lowers, ..save };
        assert_eq!(refused(step(&file, &scan, &save)), (14, 0));
        let clear = Job { saves: 0, slot: 1, scan_len: 0, first: 0, ..save };
        assert_eq!(refused(step(&file, &[], &clear)), (14, 0));
    }
}

#[test]
fn a_current_entry_has_no_magic_and_blank_makes_current_files() {
    let mut file = vec![0; 8 * L];
    blank(8 * 512, 3, 512, 64).unwrap().apply(&mut file);
    assert_eq!(open(&file).unwrap().form, Form::Current);
    let scan = scan(512, 3);
    let mut job = save(&file, 1, &scan, &[7; 54]).unwrap();
    for _ in 0..3 {
        let stepped = step(&file, &scan, &job).unwrap();
        stepped.write.unwrap().apply(&mut file);
        job = stepped.job;
    }
    let found = entry(&file, 1).unwrap();
    assert_eq!((found.first, found.last, found.magic, found.position), (4, 4, 0, 0x0707));
    assert_eq!(listed(&file, &open(&file).unwrap()).len(), 1);
    assert!(read(&file, 1).is_ok());
}
