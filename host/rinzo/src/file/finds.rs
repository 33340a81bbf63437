//! The scans that the data records themselves show, for a file whose index is lost.

use super::records::{each_record, part};
use super::window::{Read, Window};
use sdd::{Find, Refusal, Span};
use std::io;

/// What the library looks at where a scan may begin: the preamble, and class 1's HEADLEN, DATALEN and SCAN.
const BEGINNING: usize = 56;
/// After so many places that are opened one by one, all that follows is opened at once: the system keeps a table of the
/// parts of memory that are open, and the table has an end.
const MANY: usize = 10_000;

/// Reads the data records of a file, and asks the library for the scans among them. A file whose bootstrap is not right is
/// refused.
///
/// The window is one without an index. Of a record that may begin a scan the beginning comes into the window. Any other
/// breaks rule 2 as it stands, and so do the zeros in its place: the answer is the file's, and what it costs of memory
/// hangs on the scans that are there and not on the file.
pub fn look(window: &mut Window, read: Read) -> io::Result<Result<Vec<Find>, Refusal>> {
    let sizes = match sdd::open(window.bytes()) {
        Ok(sizes) => sizes,
        Err(why) => return Ok(Err(why)),
    };
    let data = part(sizes.n + 1..sizes.n + sizes.d + 1, sizes.l);
    let end = data.end;
    let mut places = 0;
    each_record(data, sizes.l as usize, read, |at, record| {
        if !may_begin(record) {
            return Ok(());
        }
        places += 1;
        if places == MANY {
            window.open(&(at..end))?;
        }
        window.put(at, &record[..BEGINNING])
    })?;
    Ok(sdd::find(window.bytes()))
}

/// Whether a record has a number of classes that a scan can have: rule 2.
fn may_begin(record: &[u8]) -> bool {
    record[0] == 0 && (13..=15).contains(&record[1])
}

/// The bytes of a scan that was found, HEADLEN + DATALEN of them. The library says where its data end.
pub fn scan_part(file: &[u8], find: &Find, l: u64) -> Result<Span, Refusal> {
    let run = part(find.first..find.last + 1, l);
    let data = sdd::data(&file[run.clone()])?;
    Ok(run.start..run.start + data.end)
}

#[cfg(test)]
mod tests {
    use super::{look, scan_part};
    use crate::file::window::Window;
    use sample::{OldScan, old_file, scan};
    use sdd::{Find, Refusal};

    /// What a look through a window finds.
    fn found(file: &[u8]) -> Result<Vec<Find>, Refusal> {
        let read = &mut |at: u64, into: &mut [u8]| {
            into.copy_from_slice(&file[at as usize..][..into.len()]);
            Ok(())
        };
        let mut window = Window::without_index(file.len() as u64, read).unwrap();
        let found = look(&mut window, read).unwrap();
        let l = window.record_len() as u64;
        for find in found.iter().flatten() {
            let (through, whole) = (scan_part(window.bytes(), find, l), scan_part(file, find, l));
            assert!(through.is_ok() && through == whole, "{find:?}");
        }
        found
    }

    /// A file of 40 records with scans of 1, 2, 3 and 5 records, junk between them and in the index.
    fn file() -> Vec<u8> {
        let mut file = vec![0; 42 * 512];
        sdd::blank(&mut file, 3, 512, 64).unwrap();
        file[4..8].copy_from_slice(&37u32.to_be_bytes());
        file[512..].fill(0xa5);
        for (record, len) in [(4, 512), (6, 700), (8, 1_536), (20, 2_500), (39, 1_000)] {
            file[(record - 1) * 512..][..len].copy_from_slice(&scan(len, record as u8));
        }
        file
    }

    /// The like of it in the old form.
    fn old() -> Vec<u8> {
        let junk = vec![0xa5; 5_120];
        let scans = [scan(512, 4), junk[..512].to_vec(), scan(700, 6), scan(1_536, 8), junk, scan(1_000, 9)];
        let scans: Vec<OldScan> =
            (1..).zip(&scans).map(|(slot, bytes)| OldScan { slot, magic: 1, about: [7; 54], bytes }).collect();
        let mut file = old_file(3, 42, &scans);
        file[512..3 * 512].fill(0xa5);
        file
    }

    #[test]
    fn the_answer_through_a_window_is_the_files() {
        is_the_files(&file(), &[(4, 4), (6, 7), (8, 10), (20, 24), (39, 40)]);
        is_the_files(&old(), &[(4, 4), (6, 7), (8, 10), (21, 22)]);
    }

    /// Holds the answer through a window to the file's, on a file with these scans and on ones with another byte.
    fn is_the_files(whole: &[u8], wanted: &[(u64, u64)]) {
        let runs: Vec<(u64, u64)> = found(whole).unwrap().iter().map(|find| (find.first, find.last)).collect();
        assert_eq!(runs, wanted);
        assert!(sdd::open(whole).is_err(), "the index is junk");
        let mut others = 0;
        // every byte of a bootstrap, of a scan's beginning and of records that have none
        for at in (0..32).chain(3 * 512..3 * 512 + 60).chain(5 * 512..5 * 512 + 60).chain(10 * 512..12 * 512) {
            for value in [0, 1, 13, 15, 16, 0x40, 0x80, 0xff] {
                let mut file = whole.to_vec();
                file[at] = value;
                let answer = found(&file);
                assert_eq!(answer, sdd::find(&file), "byte {at} is {value}");
                others += u32::from(answer.map(|finds| finds.len()) != Ok(wanted.len()));
            }
        }
        assert!(others > 300, "{others} files were another");
        // cut short anywhere
        for len in (0..whole.len()).step_by(97) {
            assert_eq!(found(&whole[..len]), sdd::find(&whole[..len]), "{len} bytes");
        }
    }
}
