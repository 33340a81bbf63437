//! 2026-07, the verdict over the slow link, asked of the model: the numbers in their order, both forms, every cutting,
//! and links made by hand.

use model::{Answer, Form, Link, ROW, Sizes, begin, bootstrap, finish, open, take, verdict};
use sample::{OldScan, old_file, scan};

/// A record's length; with N 3 and M 64 there are 16 slots, and the data begin at record 4.
const L: usize = 512;

/// The index ends here.
const END: usize = 3 * L;

/// A current file of 8 records: N 3, D 5, L 512, M 64, U 9, with a scan in slot 1 (records 7 and 8) and one in slot 9
/// (record 6).
fn current() -> Vec<u8> {
    let mut file = vec![0xa5; 8 * L];
    for (i, word) in [3, 5, 512, 64, 9, 0xffff_ffff, 1, 1].into_iter().enumerate() {
        put(&mut file, 4 * i, word);
    }
    for slot in 1..=16 {
        run(&mut file, slot, 0, 0);
    }
    run(&mut file, 1, 7, 8);
    run(&mut file, 9, 6, 6);
    file
}

/// The old file of the same runs.
fn old() -> Vec<u8> {
    let (one, two, blank) = (scan(512, 1), scan(1_000, 2), scan(1_024, 3));
    let put = |slot, bytes| OldScan { slot, magic: 1, about: [0x77; 54], bytes };
    let mut file = old_file(3, 8, &[put(2, &blank), put(9, &one), put(1, &two)]);
    file[home(2)..home(2) + 4].fill(0);
    file
}

/// Where a slot's entry begins.
fn home(slot: usize) -> usize {
    L + 64 * (slot - 1)
}

/// Puts a 32-bit number.
fn put(file: &mut [u8], at: usize, number: u32) {
    file[at..at + 4].copy_from_slice(&number.to_be_bytes());
}

/// Puts a run of the current form.
fn run(file: &mut [u8], slot: usize, first: u32, last: u32) {
    put(file, home(slot), first);
    put(file, home(slot) + 4, last);
}

/// The current file with a number at a place.
fn with(at: usize, number: u32) -> Vec<u8> {
    let mut file = current();
    put(&mut file, at, number);
    file
}

/// A verdict under way, with its row, which begins as no zeros.
struct Going {
    link: Link,
    row: Vec<u32>,
}

impl Going {
    fn begin(length: usize) -> Going {
        let row: Vec<u32> = (0..ROW as u32).map(|i| i.wrapping_mul(0x9e37_79b9)).collect();
        Going { link: begin(length as u64, row.len()).unwrap(), row }
    }

    fn take(&mut self, piece: &[u8]) {
        let taken = take(&self.link, piece, &self.row).unwrap();
        taken.elements.iter().for_each(|(at, number)| self.row[*at] = *number);
        self.link = taken.link;
    }

    fn finish(&self) -> Answer<Sizes> {
        finish(&self.link, &self.row)
    }
}

/// What finish answers of a file that came whole, in pieces that end at these places and at its end.
fn cut_at(file: &[u8], places: &[usize]) -> Answer<Sizes> {
    let mut going = Going::begin(file.len());
    let mut from = 0;
    for to in places.iter().copied().chain([file.len()]) {
        going.take(&file[from..to]);
        assert_eq!(going.finish(), verdict(file, to), "{to} bytes came");
        from = to;
    }
    going.finish()
}

fn refused<T>(answer: Answer<T>) -> (u32, u32) {
    answer.err().map_or((0, 0), |why| (why.number, why.value))
}

/// A file of each kind, with what open says of it.
fn kinds() -> Vec<(Vec<u8>, (u32, u32))> {
    let mut shares = current();
    run(&mut shares, 3, 8, 8);
    let mut old_shares = old();
    old_shares[home(2)..home(2) + 4].copy_from_slice(&[0, 6, 0, 6]);
    let mut negative = old();
    negative[home(10)] = 0x80;
    vec![
        (current(), (0, 0)),
        (old(), (0, 0)),
        (current()[..511].to_vec(), (1, 0)),
        (with(28, 2), (3, 0)),
        (with(12, 96), (4, 0)),
        (with(12, 0), (4, 0)),
        (with(4, 6), (5, 0)),
        (with(home(1), 3), (6, 1)),
        (with(home(9) + 4, 9), (6, 9)),
        (with(home(16) + 4, 0x0100_0000), (7, 16)),
        (negative, (7, 10)),
        (shares, (8, 3)),
        (old_shares, (8, 9)),
    ]
}

#[test]
fn a_file_cut_anywhere_gets_its_own_verdict() {
    for (file, why) in kinds() {
        assert_eq!(refused(open(&file)), why);
        let about_the_index_end = END.min(file.len()).saturating_sub(40)..=(END + 40).min(file.len());
        let entries = [1, 9, 16].into_iter().flat_map(|slot| home(slot) - 2..home(slot) + 12);
        for place in (0..=40).chain(about_the_index_end).chain(entries).filter(|place| *place <= file.len()) {
            assert_eq!(cut_at(&file, &[place]), open(&file), "{why:?} in two at {place}");
            assert_eq!(cut_at(&file, &[place, place]), open(&file), "{why:?} with nothing between");
        }
    }
}

#[test]
fn pieces_of_every_length_get_the_same_verdict() {
    for (file, why) in kinds() {
        for len in [1, 2, 3, 7, 63, 64, 65, 511, 512, 513, 5_000] {
            let places: Vec<usize> = (1..).map(|i| i * len).take_while(|place| *place < file.len()).collect();
            assert_eq!(cut_at(&file, &places), open(&file), "{why:?} in pieces of {len}");
        }
    }
}

#[test]
fn the_link_and_the_row_do_not_know_the_cutting() {
    for (file, _) in kinds() {
        let mut whole = Going::begin(file.len());
        whole.take(&file);
        let mut bytes = Going::begin(file.len());
        file.iter().for_each(|byte| bytes.take(&[*byte]));
        assert_eq!((whole.link, whole.row), (bytes.link, bytes.row));
    }
}

#[test]
fn twenty_comes_and_goes() {
    let file = current();
    let after = |came: usize| {
        let mut going = Going::begin(file.len());
        going.take(&file[..came]);
        refused(going.finish()).0
    };
    assert_eq!([0, 1, 31, 32, 512, END - 1].map(after), [20; 6]);
    assert_eq!([END, END + 1, file.len()].map(after), [0; 3]);
    // a bootstrap that breaks a rule is refused as soon as it is there, and before that it is not known
    for (at, number, why) in [(28, 2, 3), (0, 1, 4), (4, 6, 5)] {
        let file = with(at, number);
        let mut going = Going::begin(file.len());
        going.take(&file[..31]);
        assert_eq!(refused(going.finish()).0, 20);
        going.take(&file[31..32]);
        assert_eq!(refused(going.finish()).0, why);
        going.take(&file[32..]);
        assert_eq!((refused(going.finish()).0, going.link.came), (why, 32));
    }
    // 1 is known from the length alone
    let mut going = Going::begin(511);
    assert_eq!(refused(going.finish()).0, 1);
    going.take(&file);
    assert_eq!((refused(going.finish()).0, going.link), (1, begin(511, ROW).unwrap()));
}

#[test]
fn refusals_come_in_their_order() {
    // each fault joins those before it, from the last one to the first
    let mut file = current();
    run(&mut file, 3, 8, 8);
    assert_eq!(refused(cut_at(&file, &[])), (8, 3));
    run(&mut file, 16, 0, 1);
    assert_eq!(refused(cut_at(&file, &[])), (7, 16));
    run(&mut file, 5, 6, 5);
    assert_eq!(refused(cut_at(&file, &[])), (6, 5));
    let after = |file: &[u8], came: usize, length: usize| {
        let mut going = Going::begin(length);
        going.take(&file[..came]);
        assert_eq!(refused(finish(&going.link, &going.row[1..])).0, 17);
        refused(going.finish()).0
    };
    assert_eq!(after(&file, END - 1, 8 * L), 20);
    assert_eq!(after(&file, END - 1, 8 * L - 1), 5);
    put(&mut file, 12, 96);
    assert_eq!(after(&file, END - 1, 8 * L - 1), 4);
    put(&mut file, 28, 7);
    assert_eq!(after(&file, END - 1, 8 * L - 1), 3);
    assert_eq!(after(&file, 31, 8 * L - 1), 20);
    assert_eq!(after(&file, 31, 512), 20);
    assert_eq!(after(&file, 31, 511), 1);
}

#[test]
fn the_row_has_first_and_last_of_each_slot_and_nothing_more() {
    for file in [current(), old()] {
        let mut going = Going::begin(file.len());
        let before = going.row.clone();
        going.take(&file);
        assert_eq!(going.row[..4], [7, 8, 0, 0]);
        assert_eq!(going.row[16..20], [6, 6, 0, 0]);
        assert_eq!(going.row[32..], before[32..]);
        assert_eq!((going.link.came, going.link.index_end), (END as u64, END as u64));
        assert_eq!(going.link.boot, file[..32]);
    }
}

#[test]
fn an_entry_cut_in_two_keeps_what_came_of_its_numbers() {
    let file = with(home(2), 0x0102_0304);
    let mut going = Going::begin(file.len());
    going.take(&file[..home(2)]);
    let before = going.row[2];
    going.take(&file[home(2)..home(2) + 1]);
    assert_eq!(going.row[2], before << 8 | 1);
    going.take(&file[home(2) + 1..home(2) + 3]);
    assert_eq!(going.row[2], before << 24 | 0x01_0203);
    going.take(&file[home(2) + 3..home(2) + 5]);
    assert_eq!(going.row[2], 0x0102_0304);
    // an old number has its value at every byte, a negative one too
    let mut file = old();
    file[home(2)..home(2) + 5].copy_from_slice(&[0x80, 0x01, 0x7f, 0xff, 0x99]);
    let mut going = Going::begin(file.len());
    going.take(&file[..home(2)]);
    let high = going.row[2] as u8;
    going.take(&file[home(2)..home(2) + 1]);
    assert_eq!(going.row[2], i32::from(i16::from_be_bytes([high, 0x80])) as u32);
    going.take(&file[home(2) + 1..]);
    assert_eq!(going.row[2..4], [0xffff_8001, 0x7fff]);
}

#[test]
fn bytes_past_the_length_count_for_nothing() {
    let file = current();
    let longer = [&file[..], &[0xff; 600]].concat();
    let mut going = Going::begin(file.len());
    going.take(&longer);
    assert_eq!(going.finish(), open(&file));
    // 31 of them are in the file, and the length is what is judged
    let mut going = Going::begin(31);
    going.take(&longer);
    assert_eq!((refused(going.finish()).0, going.link.came), (1, 0));
    // the file ends in the middle of its index
    let mut going = Going::begin(END - 1);
    going.take(&longer);
    assert_eq!((refused(going.finish()).0, going.link.came), (5, 32));
    // fewer came than was said; the index is there, and what is missing is data
    let mut going = Going::begin(1 << 40);
    going.take(&file[..END]);
    assert_eq!(going.finish(), open(&file));
}

#[test]
fn a_short_row_is_refused_at_every_call() {
    let mut going = Going::begin(current().len());
    going.take(&current());
    for len in [0, 1, 31, 32, ROW - 1] {
        assert_eq!(refused(begin(8 * 512, len)), (17, 0));
        assert_eq!(refused(begin(0, len)), (17, 0));
        assert_eq!(refused(take(&going.link, &[], &going.row[..len])), (17, 0));
        assert_eq!(refused(finish(&going.link, &going.row[..len])), (17, 0));
    }
    going.row.extend([1, 2, 3]);
    let before = going.row.clone();
    going.link = begin(current().len() as u64, going.row.len()).unwrap();
    going.take(&current());
    assert_eq!((going.finish(), going.row), (open(&current()), before));
}

#[test]
fn a_file_of_4_096_slots_fills_the_row() {
    for form in [Form::Old, Form::Current] {
        let mut file = vec![0; 514 * L];
        let words = [513u16, 1, 512, 64, 4_096, 0];
        match form {
            Form::Old => words.iter().enumerate().for_each(|(i, word)| {
                file[2 * i..2 * i + 2].copy_from_slice(&word.to_be_bytes());
            }),
            Form::Current => {
                words.iter().enumerate().for_each(|(i, word)| put(&mut file, 4 * i, u32::from(*word)));
                put(&mut file, 28, 1);
            }
        }
        let half = |file: &mut Vec<u8>, at: usize| file[at..at + 2].copy_from_slice(&514u16.to_be_bytes());
        match form {
            Form::Old => [0, 2].map(|at| half(&mut file, home(4_096) + at)),
            Form::Current => [2, 6].map(|at| half(&mut file, home(4_096) + at)),
        };
        assert_eq!(bootstrap(&file).unwrap().form, form);
        let mut going = Going::begin(file.len());
        going.row.push(77);
        going.take(&file);
        assert_eq!(going.finish(), open(&file));
        assert_eq!(going.row[ROW - 3..], [0, 514, 514, 77]);
    }
}

#[test]
fn any_link_made_by_hand_is_taken() {
    let row = vec![7; ROW];
    let boot: [u8; 32] = current()[..32].try_into().unwrap();
    // the last byte before the end of all numbers
    let link = Link { length: u64::MAX, came: u64::MAX - 1, index_end: u64::MAX, boot };
    let taken = take(&link, &[1, 2, 3], &row).unwrap();
    assert_eq!((taken.link.came, taken.elements.len()), (u64::MAX, 0));
    // M is 0, so there is no slot
    let link = Link { length: 4_096, came: 600, index_end: 700, boot: [0; 32] };
    let taken = take(&link, &[1; 200], &row).unwrap();
    assert_eq!((taken.link.came, taken.elements.len()), (700, 0));
    // D and U are out of range: the entries are known all the same
    let mut odd = boot;
    odd[4] = 0xff;
    odd[16] = 0xff;
    let link = Link { length: 0, came: L as u64, index_end: 2_000, boot: odd };
    let taken = take(&link, &[0, 0, 1, 2, 3], &row).unwrap();
    assert_eq!(taken.elements.into_iter().collect::<Vec<_>>(), [(0, 0x0102), (1, 0x0703)]);
    // a version that is not known: what is no old form is taken for the current one
    let mut odd = boot;
    odd[28] = 0x80;
    let link = Link { length: 0, came: L as u64, index_end: 2_000, boot: odd };
    let taken = take(&link, &[0, 0, 1, 2, 3], &row).unwrap();
    assert_eq!(taken.elements.into_iter().collect::<Vec<_>>(), [(0, 0x0102), (1, 0x0703)]);
    // fewer than 32 came, and the end of the index is known already: it is forgotten
    let link = Link { length: 512, came: 3, index_end: 2_000, boot };
    let taken = take(&link, &[9], &row).unwrap();
    assert_eq!((taken.link.came, taken.link.index_end, taken.link.boot[3]), (4, 0, 9));
    // the row is judged as it stands
    let link = Link { length: 8 * 512, came: u64::MAX, index_end: 0, boot };
    assert_eq!(refused(finish(&link, &row)), (7, 10));
    assert_eq!(refused(finish(&Link { came: 1_535, ..link }, &row)), (20, 0));
    assert_eq!(refused(finish(&Link { length: 4_095, ..link }, &row)), (5, 0));
}
