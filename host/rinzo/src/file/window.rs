//! A window on a file: memory of the file's length, of which only what was asked for has been read.
//!
//! The library is lent all of it and looks at little: at records 1 to N, and at the records of the
//! scan that it is asked about. So its answer on a window that has those is its answer on the file.
//! That is the frame law (`crates/paper/proofs/Frame.antt`) of the definitions, and the test with
//! closed pages (`host/bench/src/closed.rs`) of the compiled calls. A search for scans whose index is
//! lost looks at data records and at no index: `finds` has a window of its own kind.
//!
//! The memory is an anonymous mapping. No page of it exists until it is written, and only pages that
//! are read in, or that a job is to write, are opened for writing: the system counts those alone.
//! It is no mapping of the file, under which a file cut short would end the program.

use memmap2::{Mmap, MmapOptions};
use sdd::{Head, Job, Span};
use std::fs::File;
use std::io;

/// How much is read at a time.
const PIECE: usize = 256 << 10;
/// No record is longer.
const LONGEST_RECORD: usize = 4_096;

/// Reads bytes of the file from a place on; all that is asked for, or an error.
pub type Read<'a> = &'a mut dyn FnMut(u64, &mut [u8]) -> io::Result<()>;

/// The memory that is lent.
pub struct Window {
    /// Closed for writing, but for what was read in and what a job is to write.
    mapped: Mmap,
    len: usize,
    page: usize,
    /// Where records 1 to N end.
    head: usize,
    /// L, 0 where the file has no right one.
    record_len: usize,
}

impl Window {
    /// A window on so many bytes, with records 1 to N read in.
    pub fn new(len: u64, read: Read) -> io::Result<Window> {
        let mut window = Window::of_zeros(len)?;
        window.read_head(read)?;
        Ok(window)
    }

    /// A window on so many bytes, with the words of the bootstrap read in and nothing else. Its index is zeros, whatever the
    /// file's is: so it opens where the bootstrap alone is right, and says what that says.
    pub fn without_index(len: u64, read: Read) -> io::Result<Window> {
        let mut window = Window::of_zeros(len)?;
        window.head = window.len.min(Head::WORDS);
        window.fill(0..window.head, read)?;
        window.record_len = Head::of(window.bytes()).map_or(0, |head| head.l);
        Ok(window)
    }

    /// A window on so many bytes of which none is read in.
    fn of_zeros(len: u64) -> io::Result<Window> {
        let len = usize::try_from(len).map_err(io::Error::other)?;
        let zeros = File::open("/dev/zero")?;
        // SAFETY: a private mapping of zeros, which no other program can change or cut short.
        let mapped = unsafe { MmapOptions::new().len(len.max(1)).map_copy_read_only(&zeros)? };
        // SAFETY: sysconf only answers.
        let page = unsafe { libc::sysconf(libc::_SC_PAGESIZE) as usize };
        Ok(Window { mapped, len, page, head: 0, record_len: 0 })
    }

    /// Reads records 1 to N. Where the bootstrap has no right N and L the library refuses the file for it, and looks
    /// no further.
    fn read_head(&mut self, read: Read) -> io::Result<()> {
        let first = self.len.min(LONGEST_RECORD);
        self.fill(0..first, read)?;
        let head = Head::of(self.bytes());
        self.record_len = head.map_or(0, |head| head.l);
        self.head = head.map_or(0, Head::bytes).min(self.len).max(first);
        self.fill(first..self.head, read)
    }

    /// L, as the bootstrap has it in the file's form; 0 where no file has such a one.
    pub fn record_len(&self) -> usize {
        self.record_len
    }

    /// What is lent to a call that only looks.
    pub fn bytes(&self) -> &[u8] {
        &self.mapped[..self.len]
    }

    /// The file's length, as the window has it.
    pub fn len(&self) -> u64 {
        self.len as u64
    }

    /// Reads a part in, as much of it as there is.
    pub fn fill(&mut self, part: Span, read: Read) -> io::Result<()> {
        let part = part.start.min(self.len)..part.end.min(self.len);
        self.open(&part)?;
        let mut at = part.start;
        while at < part.end {
            let end = part.end.min(at + PIECE);
            // SAFETY: opened for writing above, and borrowed alone.
            let piece = unsafe { std::slice::from_raw_parts_mut(self.at(at), end - at) };
            read(at as u64, piece)?;
            at = end;
        }
        Ok(())
    }

    /// Puts bytes of the file that are at hand already.
    pub fn put(&mut self, at: usize, bytes: &[u8]) -> io::Result<()> {
        let mut left = bytes;
        self.fill(at..at + bytes.len(), &mut |_, into| {
            let (piece, rest) = left.split_at(into.len());
            into.copy_from_slice(piece);
            left = rest;
            Ok(())
        })
    }

    /// Gives the memory of a part back, where it lies past records 1 to N. The part reads as zeros then.
    pub fn forget(&mut self, part: &Span) {
        let from = (part.start / self.page * self.page).max(self.head.next_multiple_of(self.page));
        let to = part.end.next_multiple_of(self.page).min(self.len.next_multiple_of(self.page));
        if from < to {
            // SAFETY: whole pages of this mapping, which nothing refers to now.
            unsafe { libc::madvise(self.at(from).cast(), to - from, libc::MADV_DONTNEED) };
        }
    }

    /// The data records of a job, none for a clear.
    pub fn data_of(&self, job: &Job) -> Span {
        let (before, len, l) =
            (job.first().saturating_sub(1) as usize, job.scan_len() as usize, self.record_len().max(1));
        if job.saves() { before * l..(before + len.div_ceil(l)) * l } else { 0..0 }
    }

    /// The records that a job writes zeros over: those of the scan that it replaces or clears, if there is one.
    pub fn old_of(&self, job: &Job) -> Span {
        let (before, l) = (job.old_first().saturating_sub(1) as usize, self.record_len().max(1));
        before * l..(before + job.old_count() as usize) * l
    }

    /// What is lent to a step of a job, with the job's data records and those of the old scan opened. A step writes the
    /// record that it names and nothing else: record 1 or an index record, which were read in, a data record of the job, or
    /// one of the old scan. To write anywhere else would end the program.
    pub fn lend_for(&mut self, job: &Job) -> io::Result<&mut [u8]> {
        self.open(&self.data_of(job))?;
        self.open(&self.old_of(job))?;
        // SAFETY: the mapping, which lives as long as `self` and is borrowed alone.
        Ok(unsafe { std::slice::from_raw_parts_mut(self.at(0), self.len) })
    }

    /// Opens a part for writing.
    pub fn open(&mut self, part: &Span) -> io::Result<()> {
        let (from, to) = (part.start / self.page * self.page, part.end.min(self.len));
        if from >= to {
            return Ok(());
        }
        // SAFETY: pages of this mapping, which reaches to the end of its last page.
        let opened = unsafe { libc::mprotect(self.at(from).cast(), to - from, libc::PROT_READ | libc::PROT_WRITE) };
        if opened == 0 { Ok(()) } else { Err(io::Error::last_os_error()) }
    }

    fn at(&self, place: usize) -> *mut u8 {
        self.mapped.as_ptr().wrapping_add(place).cast_mut()
    }
}

#[cfg(test)]
mod tests {
    use super::Window;
    use sdd::About;

    /// A blank file, and a reader of it that counts what it reads.
    fn file(n: u64, room: usize) -> Vec<u8> {
        let mut file = vec![0; room * 512];
        sdd::blank(&mut file, n, 512, 64).unwrap();
        file
    }

    #[test]
    fn only_records_one_to_n_are_read_at_first() {
        let mut file = file(10, 100);
        file[10 * 512..].fill(7);
        let mut bytes = 0;
        let mut read = |at: u64, into: &mut [u8]| {
            bytes += into.len();
            into.copy_from_slice(&file[at as usize..][..into.len()]);
            Ok(())
        };
        let mut window = Window::new(file.len() as u64, &mut read).unwrap();
        assert_eq!(sdd::open(window.bytes()), sdd::open(&file));
        assert_eq!(window.bytes()[..10 * 512], file[..10 * 512]);
        assert!(window.bytes()[10 * 512..].iter().all(|byte| *byte == 0));
        let part = 20 * 512..22 * 512;
        window.fill(part.clone(), &mut read).unwrap();
        assert_eq!(window.bytes()[part.clone()], file[part.clone()]);
        window.forget(&part);
        assert!(window.bytes()[part].iter().all(|byte| *byte == 0));
        assert_eq!(window.bytes()[..10 * 512], file[..10 * 512]);
        assert_eq!(bytes, 12 * 512);
    }

    #[test]
    fn a_bootstrap_out_of_range_makes_no_long_read() {
        let current = file(3, 4_000);
        let old = sample::old_file(3, 4_000, &[]);
        let words = [(0, 514u32), (0, u32::MAX), (8, 4_097), (8, u32::MAX), (28, 2)];
        // the same words make N and L of an old file wrong: two of its words are one of these
        let old_words = [(0, 514u32 << 16), (0, u32::MAX), (4, 4_097 << 16), (4, u32::MAX), (28, 2)];
        let cases = words.map(|word| (&current, word)).into_iter().chain(old_words.map(|word| (&old, word)));
        for (file, (at, word)) in cases {
            let mut file = file.clone();
            file[at..at + 4].copy_from_slice(&word.to_be_bytes());
            let mut bytes = 0;
            let window = Window::new(file.len() as u64, &mut |at, into| {
                bytes += into.len();
                into.copy_from_slice(&file[at as usize..][..into.len()]);
                Ok(())
            });
            assert_eq!(sdd::open(window.unwrap().bytes()), sdd::open(&file));
            assert!(sdd::open(&file).is_err());
            assert_eq!(bytes, 4_096);
        }
    }

    /// Numbers by chance, from a seed.
    fn chance(state: &mut u64, below: usize) -> usize {
        *state = state.wrapping_mul(0x5851_f42d_4c95_7f2d).wrapping_add(1);
        (*state >> 33) as usize % below
    }

    /// A file with scans in slots 1 to 5, and bytes that are no zeros in every other record.
    fn busy_file() -> Vec<u8> {
        let mut file = file(4, 60);
        file[4 * 512..].fill(0xa5);
        for slot in 1..=5 {
            let scan = sample::scan(300 + 400 * slot, slot as u8);
            let mut job = sdd::save(&file, slot as u64, &scan, &About::of(&[7; 54])).unwrap();
            while let sdd::Step::Wrote { .. } = sdd::step(&mut file, &scan, &mut job).unwrap() {}
        }
        file
    }

    /// The like of it in the old form, with these magic numbers.
    fn busy_old_file(magic: fn(usize) -> i16) -> Vec<u8> {
        let scans: Vec<Vec<u8>> = (1..=5).map(|slot| sample::scan(300 + 400 * slot, slot as u8)).collect();
        let scans: Vec<sample::OldScan> = (1..)
            .zip(&scans)
            .map(|(slot, bytes)| sample::OldScan { slot, magic: magic(slot), about: [7; 54], bytes })
            .collect();
        let mut file = sample::old_file(4, 60, &scans);
        let used = sdd::open(&file).map(|sizes| (sizes.n + sizes.d) * sizes.l).unwrap();
        file[used as usize..].fill(0xa5);
        file
    }

    /// A call that converts.
    type Convert = fn(&[u8], &mut [u8]) -> Result<(), sdd::Refusal>;

    /// Bootstrap and index in the other form, both ways.
    fn conversions(file: &[u8]) -> [Result<Vec<u8>, sdd::Refusal>; 2] {
        [sdd::to_current as Convert, sdd::to_old].map(|call| {
            let mut out = vec![0xa5; file.len()];
            call(file, &mut out).map(|()| out)
        })
    }

    /// All that can be asked of a file without a look at its data.
    fn answers(file: &[u8], slot: u64) -> impl PartialEq + std::fmt::Debug + use<> {
        let scan = sample::scan(1_000, 9);
        (
            (sdd::open(file), sdd::list(file), sdd::entry(file, slot), sdd::show(file, slot)),
            (
                sdd::save(file, slot, &scan, &About::of(&[1; 54])),
                sdd::keep(file, &scan, &About::of(&[1; 54])),
                sdd::clear(file, slot),
            ),
            conversions(file),
        )
    }

    #[test]
    fn the_library_answers_on_a_window_as_on_the_file() {
        // every magic number from 0 to 4; and SDD version 1 alone, which can be converted
        for whole in [busy_file(), busy_old_file(|slot| slot as i16 - 1), busy_old_file(|_| 2)] {
            answers_are_the_same(&whole);
        }
    }

    /// Damages a file in 4,000 ways, and holds the answers on a window to those on the file.
    fn answers_are_the_same(whole: &[u8]) {
        let (mut state, mut opened) = (15, 0);
        for turn in 0..4_000 {
            let mut file = whole.to_vec();
            for _ in 0..chance(&mut state, 4) {
                // the bootstrap, or first and last of one of the first entries
                let at = if turn % 2 == 0 {
                    chance(&mut state, 32)
                } else {
                    512 + 64 * chance(&mut state, 8) + chance(&mut state, 8)
                };
                file[at] = [0, 1, 3, 5, 9, 60, 255][chance(&mut state, 7)];
            }
            let read = &mut |at: u64, into: &mut [u8]| {
                into.copy_from_slice(&file[at as usize..][..into.len()]);
                Ok(())
            };
            let mut window = Window::new(file.len() as u64, read).unwrap();
            let slot = chance(&mut state, 10) as u64;
            assert_eq!(answers(window.bytes(), slot), answers(&file, slot), "turn {turn}");
            opened += u32::from(sdd::open(&file).is_ok());
            if let Ok(shown) = sdd::show(&file, slot) {
                window.fill(shown.start..shown.start + window.record_len(), read).unwrap();
                assert_eq!(sdd::read(window.bytes(), slot), sdd::read(&file, slot), "turn {turn}");
            }
        }
        assert!((500..3_500).contains(&opened), "{opened} files opened");
    }

    #[test]
    fn short_files_have_windows_too() {
        for len in [0, 1, 31, 511, 512, 4_095, 4_097] {
            let window = Window::new(len, &mut |_, _| Ok(())).unwrap();
            assert_eq!(window.bytes().len() as u64, len);
            assert_eq!(window.len(), len);
        }
    }
}
