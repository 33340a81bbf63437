//! Memory that costs nothing until it is touched, and pages that can be closed.

use memmap2::MmapMut;
use std::ffi::c_int;
use std::ops::Range;

/// Zeroed bytes, a mapping of their own.
pub struct Map {
    mapped: MmapMut,
    page: usize,
}

impl Map {
    /// So many zeros.
    pub fn new(len: usize) -> Map {
        let mapped = MmapMut::map_anon(len).unwrap_or_else(|error| panic!("no memory for {len} bytes: {error}"));
        // SAFETY: sysconf only answers.
        let page = unsafe { libc::sysconf(libc::_SC_PAGESIZE) as usize };
        Map { mapped, page }
    }

    pub fn pointer(&self) -> *mut u8 {
        self.mapped.as_ptr().cast_mut()
    }

    pub fn size(&self) -> usize {
        self.mapped.len()
    }

    pub fn bytes(&mut self) -> &mut [u8] {
        &mut self.mapped
    }

    /// Closes the whole pages inside `range`: who reads or writes there ends the process.
    pub fn close(&self, range: Range<usize>) {
        self.protect(range.start.next_multiple_of(self.page)..range.end / self.page * self.page, libc::PROT_NONE);
    }

    /// Opens every page that `range` touches.
    pub fn open(&self, range: Range<usize>) {
        self.protect(
            range.start / self.page * self.page..range.end.next_multiple_of(self.page),
            libc::PROT_READ | libc::PROT_WRITE,
        );
    }

    fn protect(&self, pages: Range<usize>, how: c_int) {
        if pages.start < pages.end {
            // SAFETY: pages of this mapping, which reaches to the end of its last page.
            let done = unsafe { libc::mprotect(self.pointer().add(pages.start).cast(), pages.len(), how) };
            assert!(done == 0, "pages {pages:?} do not change");
        }
    }
}
