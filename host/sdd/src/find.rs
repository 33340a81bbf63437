//! Scans that are found without an index.

use crate::linked::calls;
use crate::look::accepted;
use crate::real::Real8;
use crate::refusal::Refusal;

/// A scan that was found, by what it says of itself.
#[derive(Clone, Copy, Debug, PartialEq, Eq)]
pub struct Find {
    /// Its first record.
    pub first: u64,
    /// Its last record, as HEADLEN + DATALEN have it.
    pub last: u64,
    /// Its number, SCAN, as the third word of its class 1 has it, bit for bit.
    pub scan: Real8,
}

/// How many finds the first row lent has room for.
const AT_FIRST: usize = 256;

/// The scans in the data section of a file whose index is lost, in record order: refusals 1, 3, 4, 5.
///
/// Record 1 has to be good; no index is read. A file of either form is searched, and an old entry's magic number is not
/// asked. Whatever obeys rules 1 to 5 up to the end of the data section is found: also old scans that are left in gaps,
/// and a scan of which a part was overwritten. All of the file's records are looked at, so they are all lent.
///
/// How many there are is not known beforehand. A row for 256 finds is lent first, and where one is too short, another
/// that is eight times as long, but for no more finds than the file can have records. A row takes 24 bytes a find; each
/// that is too short costs one more pass over the file, and four can be.
pub fn find(file: &[u8]) -> Result<Vec<Find>, Refusal> {
    // a find has at least one record, a record at least 512 bytes, and a file at most 1,000,000 records
    let most = (file.len() / 512).min(1_000_000);
    let mut room = AT_FIRST.min(most);
    loop {
        let mut out = vec![0u64; 3 * room];
        // SAFETY: both pointers and lengths are those of slices, and `out` is borrowed for writing.
        let answer = unsafe { (calls().find)(file.as_ptr(), file.len(), out.as_mut_ptr(), out.len()) };
        match accepted(answer.why, answer.scans as usize) {
            Err(Refusal::AnswerTooLong) if room < most => room = room.saturating_mul(8).min(most),
            Err(refusal) => return Err(refusal),
            Ok(found) => return Ok(out.chunks_exact(3).take(found).map(Find::of).collect()),
        }
    }
}

impl Find {
    /// From the three elements of a row.
    fn of(row: &[u64]) -> Find {
        Find { first: row[0], last: row[1], scan: Real8::from_bits(row[2]) }
    }
}
