//! The plain stand-in as a library for C: the header's names over `host/plain`.
//!
//! Programs link the proved library, which has the same names. This is for work on the host alone, and a crate of
//! its own because the comparison has both the proved library and the stand-in in one program.

use face::{Answer, Begun, Entry, Job, Link, Linked, Listed, Opened, Refusal, Span, Stepped};

/// Exports a call of the table under its name in the header.
macro_rules! exported {
    ($($name:ident is $call:ident($($lent:ident: $kind:ty),*) -> $answer:ty;)*) => {$(
        /// # Safety
        /// What is lent is there, as the header asks.
        #[unsafe(no_mangle)]
        pub unsafe extern "C" fn $name($($lent: $kind),*) -> $answer {
            unsafe { (plain::calls().$call)($($lent),*) }
        }
    )*};
}

exported! {
    sdd_open is open(file: *const u8, file_len: usize) -> Opened;
    sdd_list is list(file: *const u8, file_len: usize, out: *mut u32, out_len: usize) -> Listed;
    sdd_entry_at is entry_at(file: *const u8, file_len: usize, slot: u64) -> Entry;
    sdd_show is show(file: *const u8, file_len: usize, slot: u64) -> Span;
    sdd_read is read(file: *const u8, file_len: usize, slot: u64) -> Span;
    sdd_class is class(run: *const u8, run_len: usize, number: u64) -> Span;
    sdd_data is data(run: *const u8, run_len: usize) -> Span;
    sdd_blank is blank(file: *mut u8, file_len: usize, n: u64, l: u64, m: u64) -> Refusal;
    sdd_save is save(file: *const u8, file_len: usize, slot: u64, scan: *const u8, scan_len: usize, about: *const u8)
        -> Begun;
    sdd_keep is keep(file: *const u8, file_len: usize, scan: *const u8, scan_len: usize, about: *const u8) -> Begun;
    sdd_clear is clear(file: *const u8, file_len: usize, slot: u64) -> Begun;
    sdd_step is step(file: *mut u8, file_len: usize, scan: *const u8, scan_len: usize, job: Job) -> Stepped;
    sdd_to_current is to_current(file: *const u8, file_len: usize, out: *mut u8, out_len: usize) -> Refusal;
    sdd_to_old is to_old(file: *const u8, file_len: usize, out: *mut u8, out_len: usize) -> Refusal;
    sdd_gaps_zero is gaps_zero(file: *const u8, file_len: usize) -> Answer;
    sdd_find is find(file: *const u8, file_len: usize, out: *mut u64, out_len: usize) -> Listed;
    sdd_link_begin is link_begin(length: u64, row: *mut u32, row_len: usize) -> Linked;
    sdd_link_take is link_take(link: Link, piece: *const u8, piece_len: usize, row: *mut u32, row_len: usize) -> Linked;
    sdd_link_finish is link_finish(link: Link, row: *const u32, row_len: usize) -> Opened;
}
