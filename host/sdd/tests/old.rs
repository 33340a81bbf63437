//! Files of the old form, from before 1993: they are looked at like any other, and never changed.

use sample::{OLD_COUNTER, OldScan, old_file, scan};
use sdd::drive::{self, Dropped};
use sdd::{About, Device, Form, Listed, Refusal, Rule, Step};

/// An entry of which every byte is another.
fn about() -> About {
    About::of(&std::array::from_fn(|i| i as u8 + 1))
}

/// N 3, and scans in slots 1, 4 and 9: SDD version 1 in records 4 and 5, IEEE KEEP in 6, version 1 again in 7.
fn old() -> Vec<u8> {
    let (one, two) = (scan(1_000, 1), scan(512, 2));
    let scan = |slot, magic, bytes| OldScan { slot, magic, about: about().bytes(), bytes };
    old_file(3, 9, &[scan(1, 2, &one), scan(4, 1, &[7; 300]), scan(9, 2, &two)])
}

/// The same with another 16-bit number at a place.
fn with(at: usize, word: u16) -> Vec<u8> {
    let mut file = old();
    file[at..at + 2].copy_from_slice(&word.to_be_bytes());
    file
}

#[test]
fn it_opens_with_its_sizes_and_its_form() {
    let sizes = sdd::open(&old()).unwrap();
    assert_eq!((sizes.n, sizes.d, sizes.l, sizes.m, sizes.u), (3, 4, 512, 64, 9));
    assert_eq!((sizes.capacity, sizes.room, sizes.form), (16, 9, Form::Old));
    // 16 plain bits, and not a number below zero; and no old file holds individual records
    assert_eq!((sizes.counter, sizes.individual_records), (u32::from(OLD_COUNTER), false));
    let mut current = vec![0; 4_096];
    sdd::blank(&mut current, 3, 512, 64).unwrap();
    assert_eq!(sdd::open(&current).unwrap().form, Form::Current);
}

#[test]
fn its_scans_are_listed_shown_and_read() {
    let file = old();
    let listed = [(1, 4, 5), (4, 6, 6), (9, 7, 7)].map(|(slot, first, last)| Listed { slot, first, last });
    assert_eq!(sdd::list(&file).unwrap(), listed);
    assert_eq!(sdd::show(&file, 1), Ok(3 * 512..5 * 512));
    assert_eq!(sdd::read(&file, 1).map(|span| file[span].to_vec()), Ok(scan(1_000, 1)));
    assert_eq!(sdd::read(&file, 9).map(|span| file[span].to_vec()), Ok(scan(512, 2)));
    assert_eq!(sdd::entry(&file, 2), Err(Refusal::EmptySlot));
    assert_eq!(sdd::read(&file, 17), Err(Refusal::NoSuchSlot));
}

#[test]
fn its_gaps_are_asked_for_too() {
    assert_eq!(sdd::gaps_zero(&old()), Ok(true), "every data record belongs to a scan");
    let mut file = with(2, 5);
    assert_eq!(sdd::gaps_zero(&file), Ok(true), "record 8 is a gap of zeros");
    for (at, wanted) in [(7 * 512, false), (8 * 512 - 1, false), (8 * 512, true), (7 * 512 - 1, true)] {
        file[at] ^= 1;
        assert_eq!(sdd::gaps_zero(&file), Ok(wanted), "byte {at}");
        file[at] ^= 1;
    }
    assert_eq!(sdd::gaps_zero(&with(512, 3)), Err(Refusal::BadEntry(1)));
}

#[test]
fn an_entry_has_its_position_code_and_its_magic_number() {
    let file = old();
    let entry = sdd::entry(&file, 4).unwrap();
    assert_eq!((entry.first, entry.last, entry.magic), (6, 6, 1));
    // bytes 60 and 61 are no part of an old entry, where the current form has the code
    assert_eq!((entry.about(), entry.position), (about(), 0x3536));
    assert_eq!(file[512 + 3 * 64 + 60..][..2], [0xa5, 0xa5]);

    let mut current = vec![0; 4_096];
    sdd::blank(&mut current, 3, 512, 64).unwrap();
    let bytes = scan(512, 3);
    let mut job = sdd::save(&current, 2, &bytes, &entry.about()).unwrap();
    while let Step::Wrote { .. } = sdd::step(&mut current, &bytes, &mut job).unwrap() {}
    let saved = sdd::entry(&current, 2).unwrap();
    assert_eq!((saved.about(), saved.magic), (about(), 0));
    assert_eq!(current[512 + 64 + 8..][..54], about().bytes());
}

#[test]
fn what_is_not_version_one_is_shown_and_not_read() {
    let whole = sdd::show(&old(), 4);
    for magic in [0u16, 1, 3, 0x102, 0x8002, 0xffff] {
        let file = with(512 + 3 * 64 + 4, magic);
        assert_eq!(sdd::read(&file, 4), Err(Refusal::NotVersionOne), "{magic}");
        assert_eq!(sdd::show(&file, 4), whole);
        assert_eq!(sdd::entry(&file, 4).unwrap().magic, magic as i16);
    }
    // with the right magic number the rules speak, and not before
    assert_eq!(sdd::read(&with(512 + 3 * 64 + 4, 2), 4), Err(Refusal::BadScan(Rule::Classes)));
    assert_eq!(sdd::read(&with(512 + 4, 1), 1), Err(Refusal::NotVersionOne));
}

#[test]
fn its_numbers_have_the_current_forms_ranges() {
    use Refusal::*;
    let cases = [
        (with(0, 1), BadBootstrap),
        (with(0, 514), BadBootstrap),
        (with(2, 0xffff), BadBootstrap),
        (with(2, 7), CutShort),
        (with(4, 0x8200), BadBootstrap),
        (with(6, 96), BadBootstrap),
        (with(8, 17), BadBootstrap),
        (with(8, 0xffff), BadBootstrap),
        (with(8, 8), EntryAboveUsed(9)),
        (with(512, 0x8000), BadEntry(1)),
        (with(512 + 2, 8), BadEntry(1)),
        (with(512 + 9 * 64, 0x8000), EntryAboveUsed(10)),
        (with(512 + 3 * 64, 5), SharedRecord(4)),
        (with(30, 2), UnknownVersion),
        (old()[..511].to_vec(), TooShort),
    ];
    for (i, (file, why)) in cases.into_iter().enumerate() {
        assert_eq!(sdd::open(&file), Err(why), "case {i}");
        assert_eq!(sdd::list(&file), Err(why), "case {i}");
    }
    // what is no word and no entry's field is not judged
    for at in [12, 20, 26, 32, 510, 512 + 60, 512 + 62] {
        assert_eq!(sdd::open(&with(at, 0x1234)), sdd::open(&old()), "{at}");
    }
}

#[test]
fn save_keep_and_clear_refuse_it_before_they_look_further() {
    let bytes = scan(512, 3);
    for file in [old(), with(0, 0), with(2, 0xffff), with(512, 0x8000), vec![0; 512]] {
        assert_eq!(sdd::save(&file, 2, &bytes, &about()), Err(Refusal::OldForm));
        assert_eq!(sdd::save(&file, 99, &[], &about()), Err(Refusal::OldForm));
        assert_eq!(sdd::keep(&file, &bytes, &about()), Err(Refusal::OldForm));
        assert_eq!(sdd::clear(&file, 1), Err(Refusal::OldForm));
    }
    assert_eq!(sdd::clear(&old()[..511], 1), Err(Refusal::TooShort));
    assert_eq!(sdd::clear(&with(30, 2), 1), Err(Refusal::UnknownVersion));
}

#[test]
fn a_step_on_it_disagrees_whatever_the_job_says() {
    let (mut file, bytes) = (old(), scan(512, 3));
    let mut current = vec![0; file.len()];
    sdd::blank(&mut current, 3, 512, 64).unwrap();
    let mut job = sdd::save(&current, 2, &bytes, &about()).unwrap();
    assert_eq!(sdd::step(&mut file, &bytes, &mut job), Err(Refusal::JobDisagrees));
    // a job made by hand, which has the old file's own 32 bytes
    let forged = face::Job {
        saves: 1,
        slot: 2,
        scan_len: 512,
        file_len: file.len() as u64,
        first: 8,
        boot: file[..32].try_into().unwrap(),
        ..face::Job::ZEROS
    };
    for job in [forged, face::Job { written: 3, ..forged }, face::Job { saves: 0, scan_len: 0, ..forged }] {
        let lent = if job.saves == 1 { &bytes[..] } else { &[] };
        // SAFETY: pointers and lengths are those of slices, the file's borrowed for writing.
        let stepped = unsafe { (sdd::calls().step)(file.as_mut_ptr(), file.len(), lent.as_ptr(), lent.len(), job) };
        assert_eq!((stepped.why.number, stepped.job), (14, job));
    }
    assert!(file == old(), "nothing was written");
}

/// A device that counts what it reads and takes no write.
struct Card {
    cells: Vec<u8>,
    read: usize,
}

impl Device for Card {
    type Error = &'static str;

    fn length(&mut self) -> Result<u64, Self::Error> {
        Ok(self.cells.len() as u64)
    }

    fn read(&mut self, at: u64, into: &mut [u8]) -> Result<(), Self::Error> {
        self.read += into.len();
        into.copy_from_slice(&self.cells[at as usize..][..into.len()]);
        Ok(())
    }

    fn write(&mut self, _: u64, _: &[u8]) -> Result<(), Self::Error> {
        Err("it is written")
    }

    fn flush(&mut self) -> Result<(), Self::Error> {
        Err("it is flushed")
    }

    fn read_back(&mut self, _: u64, _: &mut [u8]) -> Result<(), Self::Error> {
        Err("it is read back")
    }
}

#[test]
fn the_driver_looks_at_it_and_writes_nothing() {
    let mut card = Card { cells: old(), read: 0 };
    let seen = drive::look(&mut card).unwrap();
    assert_eq!((sdd::open(&seen), sdd::list(&seen)), (sdd::open(&card.cells), sdd::list(&card.cells)));
    assert_eq!(card.read, 32 + 3 * 512, "the words, then records 1 to N, and no data");
    let refused = Err(Dropped::Refused(Refusal::OldForm));
    assert_eq!(drive::save(&mut card, 2, &scan(512, 3), &about()), refused);
    assert_eq!(drive::keep(&mut card, &scan(512, 3), &about()), refused);
    assert_eq!(drive::clear(&mut card, 1), refused);
}
