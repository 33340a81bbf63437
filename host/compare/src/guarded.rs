//! Memory between guard pages: what is lent lies flush against one of them, so
//! that a read or write outside it ends the process or is found in the slack.

use memmap2::MmapMut;
use std::ops::Range;
use std::ptr::{slice_from_raw_parts, slice_from_raw_parts_mut};

/// Which guard page the memory touches.
#[derive(Clone, Copy, Debug, PartialEq, Eq)]
pub enum Side {
    /// It begins where the guard page ends.
    Left,
    /// It ends where the guard page begins.
    Right,
}

/// What the slack is filled with.
const SLACK: u8 = 0xa5;

/// Zeroed bytes between two guard pages. Large ones cost nothing until they are touched.
pub struct Guarded {
    mapped: MmapMut,
    start: usize,
    len: usize,
    page: usize,
}

/// The size of a page.
fn page() -> usize {
    // SAFETY: sysconf only answers.
    unsafe { libc::sysconf(libc::_SC_PAGESIZE) as usize }
}

impl Guarded {
    /// So many zeros.
    pub fn zeros(len: usize, side: Side) -> Guarded {
        let page = page();
        let inner = len.next_multiple_of(page);
        let mut mapped =
            MmapMut::map_anon(inner + 2 * page).unwrap_or_else(|error| panic!("no memory for {inner} bytes: {error}"));
        for guard in [0, page + inner] {
            // SAFETY: the first and the last page of the new mapping, which nothing refers to yet.
            let closed = unsafe { libc::mprotect(mapped.as_mut_ptr().add(guard).cast(), page, libc::PROT_NONE) };
            assert!(closed == 0, "a guard page does not close");
        }
        let start = if side == Side::Left { page } else { page + inner - len };
        let mut made = Guarded { mapped, start, len, page };
        let slack = made.slack();
        made.part_mut(slack).fill(SLACK);
        made
    }

    /// A copy of these bytes.
    pub fn copy(bytes: &[u8], side: Side) -> Guarded {
        let mut made = Guarded::zeros(bytes.len(), side);
        made.bytes_mut().copy_from_slice(bytes);
        made
    }

    /// The opened bytes that are not lent.
    fn slack(&self) -> Range<usize> {
        let opened = self.page..self.mapped.len() - self.page;
        if self.start == self.page { self.start + self.len..opened.end } else { opened.start..self.start }
    }

    /// A part between the guard pages.
    fn part(&self, range: Range<usize>) -> &[u8] {
        // SAFETY: opened bytes of the mapping; a slice of all of it would cover closed pages.
        unsafe { &*slice_from_raw_parts(self.mapped.as_ptr().add(range.start), range.len()) }
    }

    fn part_mut(&mut self, range: Range<usize>) -> &mut [u8] {
        // SAFETY: as in `part`.
        unsafe { &mut *slice_from_raw_parts_mut(self.mapped.as_mut_ptr().add(range.start), range.len()) }
    }

    /// Whether nobody wrote beside what was lent. It is asked after every call, so no byte of it ends the look early:
    /// many are then looked at at once.
    pub fn slack_stands(&self) -> bool {
        self.part(self.slack()).iter().fold(0, |other, byte| other | (byte ^ SLACK)) == 0
    }

    /// Where it begins; of no bytes, an address inside a guard page.
    pub fn pointer(&mut self) -> *mut u8 {
        // SAFETY: inside the mapping.
        unsafe { self.mapped.as_mut_ptr().add(self.start) }
    }

    /// The bytes.
    pub fn bytes(&self) -> &[u8] {
        self.part(self.start..self.start + self.len)
    }

    /// The bytes, to write.
    pub fn bytes_mut(&mut self) -> &mut [u8] {
        self.part_mut(self.start..self.start + self.len)
    }
}
