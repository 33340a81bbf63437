//! The driver on a device in memory that has a cache, and on devices that fail or lie.
//!
//! Saved is to mean that the device has the scan. So every device here that does not have it, for whatever reason,
//! must end in something else, and must leave a file that opens with every other scan as it was.

use sample::scan;
use sdd::drive::{self, Confirmed, Doing, Dropped, Wrote};
use sdd::{About, Device, Refusal};
use std::ops::ControlFlow;

/// What a device does wrong.
#[derive(Clone, Copy, Debug, PartialEq, Eq)]
enum Fault {
    None,
    /// The write of this turn, from 0 on, answers with an error.
    Write(u64),
    /// So does the flush.
    Flush(u64),
    /// The flush says yes and does nothing, from this turn on.
    LyingFlush(u64),
    /// The device turns a bit of what this turn writes.
    Flip(u64),
    /// Reading back answers with an error.
    ReadBack,
    /// Reading back says yes and fills nothing in.
    EmptyReadBack,
    /// So it does of the part that begins at this byte.
    EmptyReadBackAt(u64),
    /// The file is a byte shorter once this many records are written.
    CutShort(u64),
}

/// A device with a cache in front of it: reads come from the cache, and what was read back from the cells.
struct Card {
    cache: Vec<u8>,
    cells: Vec<u8>,
    fault: Fault,
    writes: u64,
    flushes: u64,
    /// What it was asked for, in turn.
    asked: Vec<String>,
}

impl Card {
    fn new(cells: Vec<u8>, fault: Fault) -> Card {
        Card { cache: cells.clone(), cells, fault, writes: 0, flushes: 0, asked: Vec::new() }
    }
}

impl Device for Card {
    type Error = &'static str;

    fn length(&mut self) -> Result<u64, Self::Error> {
        let is_cut = matches!(self.fault, Fault::CutShort(at) if self.writes >= at);
        Ok(self.cells.len() as u64 - u64::from(is_cut))
    }

    fn read(&mut self, at: u64, into: &mut [u8]) -> Result<(), Self::Error> {
        self.asked.push(format!("read {} at {at}", into.len()));
        into.copy_from_slice(&self.cache[at as usize..][..into.len()]);
        Ok(())
    }

    fn write(&mut self, at: u64, record: &[u8]) -> Result<(), Self::Error> {
        self.asked.push(format!("write {} at {at}", record.len()));
        let turn = self.writes;
        self.writes += 1;
        if self.fault == Fault::Write(turn) {
            return Err("the write failed");
        }
        let place = &mut self.cache[at as usize..][..record.len()];
        place.copy_from_slice(record);
        if self.fault == Fault::Flip(turn) {
            place[100] ^= 4;
        }
        Ok(())
    }

    fn flush(&mut self) -> Result<(), Self::Error> {
        self.asked.push("flush".to_string());
        let turn = self.flushes;
        self.flushes += 1;
        match self.fault {
            Fault::Flush(at) if at == turn => Err("the flush failed"),
            Fault::LyingFlush(from) if turn >= from => Ok(()),
            _ => {
                self.cells.copy_from_slice(&self.cache);
                Ok(())
            }
        }
    }

    fn read_back(&mut self, at: u64, into: &mut [u8]) -> Result<(), Self::Error> {
        self.asked.push(format!("read back {} at {at}", into.len()));
        match self.fault {
            Fault::ReadBack => Err("the read failed"),
            Fault::EmptyReadBack => Ok(()),
            Fault::EmptyReadBackAt(part) if part == at => Ok(()),
            _ => {
                into.copy_from_slice(&self.cells[at as usize..][..into.len()]);
                Ok(())
            }
        }
    }
}

/// The paper's file with a scan of 700 bytes in slot 1.
fn cells() -> Vec<u8> {
    let mut blank = vec![0; 4_096];
    sdd::blank(&mut blank, 3, 512, 64).unwrap();
    let mut card = Card::new(blank, Fault::None);
    drive::save(&mut card, 1, &scan(700, 1), &About::default()).unwrap();
    card.cells
}

/// A save of two records to a slot, on a device with a fault.
fn save(fault: Fault, slot: u64) -> (Result<Confirmed, Dropped<&'static str>>, Card) {
    let mut card = Card::new(cells(), fault);
    (drive::save(&mut card, slot, &scan(1_000, 2), &About::default()), card)
}

/// What each slot of the device shows.
fn shown(cells: &[u8]) -> Vec<Option<Vec<u8>>> {
    (1..=16).map(|slot| sdd::show(cells, slot).ok().map(|span| cells[span].to_vec())).collect()
}

/// The device, past its cache, holds a file that opens, and every slot but this one shows what it did.
fn others_stay(card: &Card, slot: u64) {
    sdd::open(&card.cells).expect("the file opens");
    for (i, (was, is)) in shown(&cells()).into_iter().zip(shown(&card.cells)).enumerate() {
        assert!(i as u64 + 1 == slot || was == is, "{:?}: slot {} has changed", card.fault, i + 1);
    }
}

#[test]
fn a_save_is_written_flushed_and_read_back_record_by_record() {
    let (saved, card) = save(Fault::None, 9);
    assert_eq!(saved, Ok(Confirmed::Saved { slot: 9, first: 6, last: 7 }));
    let asked: Vec<&str> = card.asked.iter().map(String::as_str).collect();
    let wanted = [
        &["read 32 at 0", "read 1536 at 0"][..],
        &["write 512 at 2560", "flush", "write 512 at 3072", "flush"],
        &["write 512 at 0", "flush", "write 512 at 1024", "flush"],
        &["read back 1536 at 0", "read back 1024 at 2560"],
    ];
    assert_eq!(asked, wanted.concat());
    assert_eq!(sdd::read(&card.cells, 9).map(|span| card.cells[span].to_vec()), Ok(scan(1_000, 2)));
    others_stay(&card, 9);
}

#[test]
fn keep_and_clear_go_the_same_way() {
    let mut card = Card::new(cells(), Fault::None);
    let kept = drive::keep(&mut card, &scan(512, 3), &About::default());
    assert_eq!(kept, Ok(Confirmed::Saved { slot: 2, first: 6, last: 6 }));
    card.asked.clear();
    assert_eq!(drive::clear(&mut card, 1), Ok(Confirmed::Cleared { slot: 1 }));
    let wanted = [
        &["read 32 at 0", "read 1536 at 0", "write 512 at 0", "flush", "write 512 at 512", "flush"][..],
        &["write 512 at 1536", "flush", "write 512 at 2048", "flush"],
        &["read back 1536 at 0", "read back 1024 at 1536"],
    ];
    assert_eq!(card.asked, wanted.concat());
    assert_eq!(sdd::list(&card.cells).unwrap().len(), 1);
    assert_eq!(drive::clear(&mut card, 1), Err(Dropped::Refused(Refusal::EmptySlot)));
    card.fault = Fault::LyingFlush(card.flushes);
    assert_eq!(drive::clear(&mut card, 2), Err(Dropped::Refused(Refusal::JobDisagrees)));
}

#[test]
fn a_clear_of_the_highest_slot_writes_record_1_again() {
    let mut card = Card::new(cells(), Fault::None);
    drive::save(&mut card, 9, &scan(512, 3), &About::default()).unwrap();
    card.asked.clear();
    assert_eq!(drive::clear(&mut card, 9), Ok(Confirmed::Cleared { slot: 9 }));
    let wanted = [
        &["read 32 at 0", "read 1536 at 0"][..],
        &["write 512 at 0", "flush", "write 512 at 1024", "flush", "write 512 at 0", "flush"],
        &["write 512 at 2560", "flush"],
        &["read back 1536 at 0", "read back 512 at 2560"],
    ];
    assert_eq!(card.asked, wanted.concat());
    assert_eq!(sdd::open(&card.cells).unwrap().u, 1);
    // however it fails, the file opens; once the index record is there the slot is empty, and then U is lowered
    for turn in 0..5 {
        for fault in [Fault::Write(turn), Fault::Flush(turn), Fault::LyingFlush(turn)] {
            let mut card = Card::new(cells(), fault);
            assert!(drive::clear(&mut card, 1).is_err(), "{fault:?}");
            assert_eq!(sdd::open(&card.cells).unwrap().u, u64::from(turn < 3), "{fault:?}");
            assert_eq!(sdd::show(&card.cells, 1).is_ok(), turn < 2, "{fault:?}");
        }
    }
}

#[test]
fn a_replacement_ends_with_zeros_over_the_old_scan_which_are_read_back() {
    let (saved, card) = save(Fault::None, 1);
    assert_eq!(saved, Ok(Confirmed::Saved { slot: 1, first: 6, last: 7 }));
    let wanted = [
        &["read 32 at 0", "read 1536 at 0"][..],
        &["write 512 at 2560", "flush", "write 512 at 3072", "flush"],
        &["write 512 at 0", "flush", "write 512 at 512", "flush"],
        &["write 512 at 1536", "flush", "write 512 at 2048", "flush"],
        &["read back 1536 at 0", "read back 1024 at 2560", "read back 1024 at 1536"],
    ];
    assert_eq!(card.asked, wanted.concat());
    assert_eq!(card.cells[1536..2560], [0; 1024]);
    assert_eq!(sdd::gaps_zero(&card.cells), Ok(true));
    others_stay(&card, 1);
}

#[test]
fn a_device_that_still_has_the_old_scan_is_never_believed() {
    // the fifth and the sixth write, which put zeros over records 4 and 5
    for (turn, zeroed) in [(4, 4), (5, 5)] {
        for fault in [Fault::Write(turn), Fault::Flush(turn)] {
            let (ended, card) = save(fault, 1);
            assert!(matches!(ended, Err(Dropped::Failed(Doing::Writing(record), _)) if record == zeroed), "{ended:?}");
            still_readable(&card);
        }
        for fault in [Fault::LyingFlush(turn), Fault::Flip(turn)] {
            let (ended, card) = save(fault, 1);
            assert_eq!(ended, Err(Dropped::Refused(Refusal::NotConfirmed)), "{fault:?}");
            still_readable(&card);
        }
    }
    // zeros are what memory has there, so a read that fills nothing in must not find them
    let (ended, _) = save(Fault::EmptyReadBackAt(1536), 1);
    assert_eq!(ended, Err(Dropped::Refused(Refusal::NotConfirmed)));
    let mut card = Card::new(cells(), Fault::EmptyReadBackAt(1536));
    assert_eq!(drive::clear(&mut card, 1), Err(Dropped::Refused(Refusal::NotConfirmed)));
}

/// The slot shows the new scan, and something of the old one is left.
fn still_readable(card: &Card) {
    let shown = sdd::read(&card.cells, 1).map(|span| card.cells[span].to_vec());
    assert_eq!((shown, sdd::gaps_zero(&card.cells)), (Ok(scan(1_000, 2)), Ok(false)), "{:?}", card.fault);
}

#[test]
fn a_device_that_fails_is_named_and_the_file_stays_good() {
    for turn in 0..4 {
        for fault in [Fault::Write(turn), Fault::Flush(turn)] {
            for slot in [1, 9] {
                let (ended, card) = save(fault, slot);
                let Err(Dropped::Failed(Doing::Writing(record), _)) = ended else { panic!("{fault:?}: {ended:?}") };
                assert_eq!(record, [6, 7, 1, if slot == 9 { 3 } else { 2 }][turn as usize]);
                others_stay(&card, slot);
                assert!(shown(&card.cells)[slot as usize - 1] == shown(&cells())[slot as usize - 1]);
            }
        }
    }
    let (ended, card) = save(Fault::ReadBack, 9);
    assert_eq!(ended, Err(Dropped::Failed(Doing::ReadingBack, "the read failed")));
    others_stay(&card, 9);
}

#[test]
fn a_device_that_lies_is_never_believed() {
    let lies = (0..4).flat_map(|turn| [Fault::LyingFlush(turn), Fault::Flip(turn)]);
    for fault in lies.chain([Fault::EmptyReadBack]) {
        for slot in [1, 9] {
            let (ended, card) = save(fault, slot);
            // the bytes of record 1 after word 8 are nobody's, so a bit that turns there harms no scan
            if fault == Fault::Flip(2) {
                assert!(ended.is_ok());
                continue;
            }
            // the bits of another slot's entry are not this save's either, but they are the index's
            let is_other_entry = fault == Fault::Flip(3);
            assert!(is_other_entry || matches!(ended, Err(Dropped::Refused(_))), "{fault:?}: {ended:?}");
            sdd::open(&card.cells).expect("the file opens");
        }
    }
}

#[test]
fn a_file_that_is_cut_short_meanwhile_is_refused_at_the_next_step() {
    for written in 1..=4 {
        let (ended, card) = save(Fault::CutShort(written), 9);
        assert_eq!(ended, Err(Dropped::Refused(Refusal::JobDisagrees)));
        assert_eq!(card.writes, written, "nothing is written after it");
        others_stay(&card, 9);
    }
}

#[test]
fn who_watches_sees_durable_records_and_may_stop() {
    for stop in 1..=4 {
        let mut card = Card::new(cells(), Fault::None);
        let mut file = drive::look(&mut card).unwrap();
        let scan = scan(1_000, 2);
        let job = sdd::save(&file, 9, &scan, &About::default()).unwrap();
        let mut seen = Vec::new();
        let ended = drive::run(&mut card, &mut file, &scan, job, |wrote| {
            seen.push(wrote);
            if wrote.written == stop { ControlFlow::Break(()) } else { ControlFlow::Continue(()) }
        });
        assert_eq!(ended, Err(Dropped::Stopped));
        assert_eq!(card.cells, card.cache, "what is told is durable");
        let all = [6, 7, 1, 3].into_iter().zip(1..).map(|(record, written)| Wrote { record, written, of: 4 });
        assert_eq!(seen, all.take(stop as usize).collect::<Vec<_>>());
        others_stay(&card, 9);
    }
}

#[test]
fn a_file_that_is_none_is_refused_before_anything_is_written() {
    let mut long = cells();
    long[0..4].copy_from_slice(&[0xff; 4]);
    for (cells, why) in [
        (Vec::new(), Refusal::TooShort),
        (vec![0; 20], Refusal::TooShort),
        (vec![0; 600], Refusal::OldForm),
        (long, Refusal::BadBootstrap),
        (cells()[..1_000].to_vec(), Refusal::CutShort),
    ] {
        let mut card = Card::new(cells, Fault::None);
        assert_eq!(drive::keep(&mut card, &scan(512, 3), &About::default()), Err(Dropped::Refused(why)));
        assert_eq!(card.writes, 0);
    }
}
