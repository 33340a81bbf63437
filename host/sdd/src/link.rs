//! The verdict on a file that comes in pieces.

use crate::linked::calls;
use crate::look::accepted;
use crate::refusal::Refusal;
use crate::sizes::Sizes;
use std::fmt;

/// First and last record of each of 4,096 slots: the row that the library works in.
const ROW: usize = 8_192;

/// The verdict on a file of which no more is held than the piece that has just come.
///
/// The length is given first, then the bytes in pieces that are cut anywhere, empty ones too; then [`Link::finish`]
/// answers what [`open`](crate::open) answers of the whole file. A file of either form is judged. It takes 32 KiB of
/// memory, whatever the file's length is.
///
/// ```
/// # let mut file = vec![0; 4096];
/// # sdd::blank(&mut file, 3, 512, 64).unwrap();
/// let mut link = sdd::Link::begin(file.len() as u64);
/// for piece in file.chunks(100) {
///     link.take(piece);
/// }
/// assert_eq!(link.finish(), sdd::open(&file));
/// ```
#[derive(Clone)]
pub struct Link {
    under_way: face::Link,
    row: Box<[u32]>,
}

impl Link {
    /// Begins the verdict on a file of this length.
    pub fn begin(length: u64) -> Link {
        let mut row = vec![0; ROW].into_boxed_slice();
        // SAFETY: the pointer and the length are those of a slice borrowed for writing.
        let begun = unsafe { (calls().link_begin)(length, row.as_mut_ptr(), row.len()) };
        // 17, the only refusal, is of a row shorter than this one
        Link { under_way: begun.link, row }
    }

    /// Takes the next piece: the bytes that follow those of the pieces before it.
    ///
    /// What bootstrap and index do not have is passed over and counts for nothing: the data section, bytes past the
    /// length that was given, and, where the first 32 bytes break a rule, all others. Such a piece costs no more the
    /// longer it is.
    pub fn take(&mut self, piece: &[u8]) {
        let row = &mut self.row;
        // SAFETY: both pointers and lengths are those of slices, and the row is borrowed for writing.
        let taken =
            unsafe { (calls().link_take)(self.under_way, piece.as_ptr(), piece.len(), row.as_mut_ptr(), row.len()) };
        self.under_way = taken.link;
    }

    /// The verdict, as far as what came tells: refusals 1, 20, 3 to 5, 20, 6 to 8.
    ///
    /// It is 20 where the length is 512 or more and fewer than 32 bytes came, or where these break no rule and fewer
    /// came than bootstrap and index take. That the data section came is not asked. It may be asked at any time, and
    /// changes nothing: after a 20 the next piece is taken as if nothing had been asked.
    ///
    /// ```
    /// # let mut file = vec![0; 4096];
    /// # sdd::blank(&mut file, 3, 512, 64).unwrap();
    /// let mut link = sdd::Link::begin(file.len() as u64);
    /// link.take(&file[..1000]);
    /// assert_eq!(link.finish(), Err(sdd::Refusal::NotAllCame));
    /// // bootstrap and index: three records of 512 bytes
    /// link.take(&file[1000..1536]);
    /// assert_eq!(link.finish().unwrap().capacity, 16);
    /// ```
    pub fn finish(&self) -> Result<Sizes, Refusal> {
        // SAFETY: the pointer and the length are those of a slice.
        let answer = unsafe { (calls().link_finish)(self.under_way, self.row.as_ptr(), self.row.len()) };
        accepted(answer.why, Sizes::of(answer))
    }
}

/// Without the row, whose numbers say nothing by themselves.
impl fmt::Debug for Link {
    fn fmt(&self, f: &mut fmt::Formatter) -> fmt::Result {
        f.debug_tuple("Link").field(&self.under_way).finish()
    }
}
