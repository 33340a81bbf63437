//! What is linked: the proved library, or the stand-in.

#[cfg(feature = "stand-in")]
mod chosen {
    pub use plain::calls;
}

#[cfg(not(feature = "stand-in"))]
mod chosen {
    use face::{Answer, Begun, Calls, Entry, Job, Link, Linked, Listed, Opened, Refusal, Span, Stepped};

    unsafe extern "C" {
        fn sdd_open(file: *const u8, file_len: usize) -> Opened;
        fn sdd_list(file: *const u8, file_len: usize, out: *mut u32, out_len: usize) -> Listed;
        fn sdd_entry_at(file: *const u8, file_len: usize, slot: u64) -> Entry;
        fn sdd_show(file: *const u8, file_len: usize, slot: u64) -> Span;
        fn sdd_read(file: *const u8, file_len: usize, slot: u64) -> Span;
        fn sdd_class(run: *const u8, run_len: usize, number: u64) -> Span;
        fn sdd_data(run: *const u8, run_len: usize) -> Span;
        fn sdd_blank(file: *mut u8, file_len: usize, n: u64, l: u64, m: u64) -> Refusal;
        fn sdd_save(
            file: *const u8,
            file_len: usize,
            slot: u64,
            scan: *const u8,
            scan_len: usize,
            about: *const u8,
        ) -> Begun;
        fn sdd_keep(file: *const u8, file_len: usize, scan: *const u8, scan_len: usize, about: *const u8) -> Begun;
        fn sdd_clear(file: *const u8, file_len: usize, slot: u64) -> Begun;
        fn sdd_step(file: *mut u8, file_len: usize, scan: *const u8, scan_len: usize, job: Job) -> Stepped;
        fn sdd_to_current(file: *const u8, file_len: usize, out: *mut u8, out_len: usize) -> Refusal;
        fn sdd_to_old(file: *const u8, file_len: usize, out: *mut u8, out_len: usize) -> Refusal;
        fn sdd_gaps_zero(file: *const u8, file_len: usize) -> Answer;
        fn sdd_find(file: *const u8, file_len: usize, out: *mut u64, out_len: usize) -> Listed;
        fn sdd_link_begin(length: u64, row: *mut u32, row_len: usize) -> Linked;
        fn sdd_link_take(link: Link, piece: *const u8, piece_len: usize, row: *mut u32, row_len: usize) -> Linked;
        fn sdd_link_finish(link: Link, row: *const u32, row_len: usize) -> Opened;
    }

    pub fn calls() -> Calls {
        Calls {
            open: sdd_open,
            list: sdd_list,
            entry_at: sdd_entry_at,
            show: sdd_show,
            read: sdd_read,
            class: sdd_class,
            data: sdd_data,
            blank: sdd_blank,
            save: sdd_save,
            keep: sdd_keep,
            clear: sdd_clear,
            step: sdd_step,
            to_current: sdd_to_current,
            to_old: sdd_to_old,
            gaps_zero: sdd_gaps_zero,
            find: sdd_find,
            link_begin: sdd_link_begin,
            link_take: sdd_link_take,
            link_finish: sdd_link_finish,
        }
    }
}

pub use chosen::calls;
