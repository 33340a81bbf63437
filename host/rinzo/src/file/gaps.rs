//! The gaps of a file: its data records, N+1 to N+D, that belong to no listed scan. After jobs that ran to their ends they
//! are zeros. After a cut, or in a file from before that was so, they may still hold what a scan had.

use super::records::{each_record, part};
use super::window::{Read, Window};
use sdd::{Listed, Refusal, Sizes, Span};
use std::io;
use std::ops::Range;

/// What the gaps hold.
pub struct Gaps {
    /// Whether all of it is zeros: the library decides that.
    pub zero: bool,
    /// How many records are not, as they were counted here.
    pub not_zero: u64,
}

/// The records from N+1 up to `last` that belong to no scan, as runs, lowest first.
pub fn free_runs(scans: &[Listed], n: u64, last: u64) -> Vec<Range<u64>> {
    let mut runs: Vec<(u64, u64)> = scans.iter().map(|scan| (scan.first.into(), scan.last.into())).collect();
    runs.sort_unstable();
    runs.push((last + 1, last + 1));
    let mut next = n + 1;
    let between = runs.into_iter().map(|(first, last)| {
        let free = next..first;
        next = last + 1;
        free
    });
    between.filter(|free| !free.is_empty()).collect()
}

/// The gaps as parts of the file, lowest first.
pub fn parts(sizes: &Sizes, scans: &[Listed]) -> Vec<Span> {
    let free = free_runs(scans, sizes.n, sizes.n + sizes.d).into_iter();
    free.map(|run| part(run, sizes.l)).collect()
}

/// Whether bytes are all zeros.
pub fn is_zeros(bytes: &[u8]) -> bool {
    bytes.iter().all(|byte| *byte == 0)
}

/// Reads the gaps, counts their records that are not zeros, and asks the library. A file that does not open is refused.
///
/// The window has zeros where nothing was read in, and one record that is not zeros is enough for a no: so the first of
/// them comes into the window and no other, and what this costs of memory does not hang on the gaps.
pub fn look(window: &mut Window, read: Read) -> io::Result<Result<Gaps, Refusal>> {
    let judged = sdd::open(window.bytes()).and_then(|sizes| Ok((sizes, sdd::list(window.bytes())?)));
    let (sizes, scans) = match judged {
        Ok(judged) => judged,
        Err(why) => return Ok(Err(why)),
    };
    let mut not_zero = 0;
    for part in parts(&sizes, &scans) {
        each_not_zero(part, sizes.l as usize, read, |at, record| {
            not_zero += 1;
            if not_zero == 1 { window.put(at, record) } else { Ok(()) }
        })?;
    }
    Ok(sdd::gaps_zero(window.bytes()).map(|zero| Gaps { zero, not_zero }))
}

/// Reads a part that is whole records, and hands on each that is not zeros, with its place.
pub fn each_not_zero(
    part: Span,
    l: usize,
    read: Read,
    mut hand_on: impl FnMut(usize, &[u8]) -> io::Result<()>,
) -> io::Result<()> {
    each_record(part, l, read, |at, record| if is_zeros(record) { Ok(()) } else { hand_on(at, record) })
}

#[cfg(test)]
mod tests {
    use super::{Gaps, free_runs, look};
    use crate::file::window::Window;
    use sdd::{About, Listed, Refusal};

    fn listed(runs: &[(u32, u32)]) -> Vec<Listed> {
        (1..).zip(runs).map(|(slot, (first, last))| Listed { slot, first: *first, last: *last }).collect()
    }

    /// The free records of a file with N 3 and these scans, by the ends of their runs.
    fn free(runs: &[(u32, u32)], last: u64) -> Vec<(u64, u64)> {
        free_runs(&listed(runs), 3, last).into_iter().map(|run| (run.start, run.end)).collect()
    }

    #[test]
    fn free_runs_lie_between_the_scans() {
        assert_eq!(free(&[], 8), [(4, 9)]);
        assert_eq!(free(&[(7, 8), (4, 4)], 8), [(5, 7)]);
        assert_eq!(free(&[(5, 5), (7, 7)], 8), [(4, 5), (6, 7), (8, 9)]);
        assert!(free(&[(4, 8)], 8).is_empty() && free(&[], 3).is_empty());
    }

    /// A file with scans in records 4 to 9 and 16 to 21, where 10 to 15 are a gap; L is 512. The gap lies past what is read
    /// of a file before anything is known of it.
    fn file() -> Vec<u8> {
        let mut file = vec![0; 30 * 512];
        sdd::blank(&mut file, 3, 512, 64).unwrap();
        for slot in 1..=3 {
            let scan = sample::scan(3_000, slot);
            let mut job = sdd::save(&file, slot.into(), &scan, &About::of(&[7; 54])).unwrap();
            while let sdd::Step::Wrote { .. } = sdd::step(&mut file, &scan, &mut job).unwrap() {}
        }
        let mut job = sdd::clear(&file, 2).unwrap();
        while let sdd::Step::Wrote { .. } = sdd::step(&mut file, &[], &mut job).unwrap() {}
        file
    }

    /// What a look through a window finds.
    fn found(file: &[u8]) -> Result<(bool, u64), Refusal> {
        let read = &mut |at: u64, into: &mut [u8]| {
            into.copy_from_slice(&file[at as usize..][..into.len()]);
            Ok(())
        };
        let mut window = Window::new(file.len() as u64, read).unwrap();
        look(&mut window, read).unwrap().map(|Gaps { zero, not_zero }| (zero, not_zero))
    }

    #[test]
    fn the_answer_through_a_window_is_the_files() {
        let whole = file();
        assert_eq!(found(&whole), Ok((true, 0)));
        // a byte by itself, in the gap, in a scan, and past the last data record
        for at in (4 * 512..whole.len()).step_by(3) {
            let mut file = whole.clone();
            file[at] ^= 1;
            let in_gap = (9 * 512..15 * 512).contains(&at);
            assert_eq!(found(&file), Ok((!in_gap, in_gap.into())), "byte {at}");
            assert_eq!(sdd::gaps_zero(&file), Ok(!in_gap), "byte {at}");
        }
        let mut file = whole.clone();
        file[9 * 512..].fill(7);
        assert_eq!(found(&file), Ok((false, 6)));
        assert_eq!(found(&whole[..21 * 512 - 1]), Err(Refusal::CutShort));
        assert_eq!(found(&whole[..100]), Err(Refusal::TooShort));
    }
}
