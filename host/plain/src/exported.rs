//! The calls with the C face: pointers to slices, answers to structs of numbers.

use crate::calls::{convert, find, gaps, link, look, store};
use crate::ground::line::or;
use crate::rules::boot::Answer;
use face::{Answer as YesOrNo, Begun, Calls, Entry, Job, Link, Linked, Listed, Opened, Refusal, Span, Stepped};
use std::slice::{from_raw_parts, from_raw_parts_mut};

/// The table of one copy.
pub fn calls<const X: bool>() -> Calls {
    Calls {
        open: open::<X>,
        list: list::<X>,
        entry_at: entry_at::<X>,
        show: show::<X>,
        read: read::<X>,
        class: class::<X>,
        data: data::<X>,
        blank: blank::<X>,
        save: save::<X>,
        keep: keep::<X>,
        clear: clear::<X>,
        step: step::<X>,
        to_current: to_current::<X>,
        to_old: to_old::<X>,
        gaps_zero: gaps_zero::<X>,
        find: find::<X>,
        link_begin: link_begin::<X>,
        link_take: link_take::<X>,
        link_finish: link_finish::<X>,
    }
}

/// # Safety
/// `len` readable elements at `at`, or `len` 0.
unsafe fn lent<'a, T>(at: *const T, len: usize) -> &'a [T] {
    if len == 0 { &[] } else { unsafe { from_raw_parts(at, len) } }
}

/// # Safety
/// `len` writable elements at `at` that nothing else refers to, or `len` 0.
unsafe fn lent_mut<'a, T>(at: *mut T, len: usize) -> &'a mut [T] {
    if len == 0 { &mut [] } else { unsafe { from_raw_parts_mut(at, len) } }
}

fn span(answer: Answer<(u64, u64)>) -> Span {
    match answer {
        Ok((from, to)) => Span { why: Refusal::NONE, from, to },
        Err(why) => Span { why, from: 0, to: 0 },
    }
}

fn refusal(answer: Answer<()>) -> Refusal {
    answer.err().unwrap_or(Refusal::NONE)
}

fn begun(answer: Answer<Job>) -> Begun {
    match answer {
        Ok(job) => Begun { why: Refusal::NONE, job },
        Err(why) => Begun { why, job: Job::ZEROS },
    }
}

fn opened<const X: bool>(answer: Answer<Opened>) -> Opened {
    match answer {
        Ok(opened) => opened,
        Err(why) => Opened { why, version: or::<X, _>(123, 0, 1), ..Opened::ZEROS },
    }
}

unsafe extern "C" fn open<const X: bool>(file: *const u8, file_len: usize) -> Opened {
    opened::<X>(look::open::<X>(unsafe { lent(file, file_len) }))
}

unsafe extern "C" fn list<const X: bool>(file: *const u8, file_len: usize, out: *mut u32, out_len: usize) -> Listed {
    match look::list::<X>(unsafe { lent(file, file_len) }, unsafe { lent_mut(out, out_len) }) {
        Ok(scans) => Listed { why: Refusal::NONE, scans },
        Err(why) => Listed { why, scans: 0 },
    }
}

unsafe extern "C" fn entry_at<const X: bool>(file: *const u8, file_len: usize, slot: u64) -> Entry {
    match look::entry::<X>(unsafe { lent(file, file_len) }, slot) {
        Ok(entry) => entry,
        Err(why) => Entry { why, ..Entry::ZEROS },
    }
}

unsafe extern "C" fn show<const X: bool>(file: *const u8, file_len: usize, slot: u64) -> Span {
    span(look::show::<X>(unsafe { lent(file, file_len) }, slot))
}

unsafe extern "C" fn read<const X: bool>(file: *const u8, file_len: usize, slot: u64) -> Span {
    span(look::read::<X>(unsafe { lent(file, file_len) }, slot))
}

unsafe extern "C" fn class<const X: bool>(run: *const u8, run_len: usize, number: u64) -> Span {
    span(look::class::<X>(unsafe { lent(run, run_len) }, number))
}

unsafe extern "C" fn data<const X: bool>(run: *const u8, run_len: usize) -> Span {
    span(look::data::<X>(unsafe { lent(run, run_len) }))
}

unsafe extern "C" fn blank<const X: bool>(file: *mut u8, file_len: usize, n: u64, l: u64, m: u64) -> Refusal {
    refusal(store::blank::<X>(unsafe { lent_mut(file, file_len) }, n, l, m))
}

unsafe extern "C" fn save<const X: bool>(
    file: *const u8,
    file_len: usize,
    slot: u64,
    scan: *const u8,
    scan_len: usize,
    about: *const u8,
) -> Begun {
    let about = unsafe { &*about.cast() };
    begun(store::save::<X>(unsafe { lent(file, file_len) }, slot, unsafe { lent(scan, scan_len) }, about))
}

unsafe extern "C" fn keep<const X: bool>(
    file: *const u8,
    file_len: usize,
    scan: *const u8,
    scan_len: usize,
    about: *const u8,
) -> Begun {
    let about = unsafe { &*about.cast() };
    begun(store::keep::<X>(unsafe { lent(file, file_len) }, unsafe { lent(scan, scan_len) }, about))
}

unsafe extern "C" fn clear<const X: bool>(file: *const u8, file_len: usize, slot: u64) -> Begun {
    begun(store::clear::<X>(unsafe { lent(file, file_len) }, slot))
}

unsafe extern "C" fn step<const X: bool>(
    file: *mut u8,
    file_len: usize,
    scan: *const u8,
    scan_len: usize,
    job: Job,
) -> Stepped {
    store::step::<X>(unsafe { lent_mut(file, file_len) }, unsafe { lent(scan, scan_len) }, &job)
}

unsafe extern "C" fn to_current<const X: bool>(
    file: *const u8,
    file_len: usize,
    out: *mut u8,
    out_len: usize,
) -> Refusal {
    refusal(convert::to_current::<X>(unsafe { lent(file, file_len) }, unsafe { lent_mut(out, out_len) }))
}

unsafe extern "C" fn to_old<const X: bool>(file: *const u8, file_len: usize, out: *mut u8, out_len: usize) -> Refusal {
    refusal(convert::to_old::<X>(unsafe { lent(file, file_len) }, unsafe { lent_mut(out, out_len) }))
}

unsafe extern "C" fn gaps_zero<const X: bool>(file: *const u8, file_len: usize) -> YesOrNo {
    match gaps::gaps_zero::<X>(unsafe { lent(file, file_len) }) {
        Ok(yes) => YesOrNo { why: Refusal::NONE, yes: u64::from(yes) },
        Err(why) => YesOrNo { why, yes: or::<X, _>(270, 0, 1) },
    }
}

unsafe extern "C" fn find<const X: bool>(file: *const u8, file_len: usize, out: *mut u64, out_len: usize) -> Listed {
    match find::find::<X>(unsafe { lent(file, file_len) }, unsafe { lent_mut(out, out_len) }) {
        Ok(scans) => Listed { why: Refusal::NONE, scans },
        Err(why) => Listed { why, scans: or::<X, _>(295, 0, 1) },
    }
}

unsafe extern "C" fn link_begin<const X: bool>(length: u64, row: *mut u32, row_len: usize) -> Linked {
    match link::begin::<X>(length, unsafe { lent_mut(row, row_len) }) {
        Ok(link) => Linked { why: Refusal::NONE, link },
        Err(why) => Linked { why, link: Link { length: or::<X, _>(312, 0, length), ..Link::ZEROS } },
    }
}

unsafe extern "C" fn link_take<const X: bool>(
    mut link: Link,
    piece: *const u8,
    piece_len: usize,
    row: *mut u32,
    row_len: usize,
) -> Linked {
    let (piece, row) = unsafe { (lent(piece, piece_len), lent_mut(row, row_len)) };
    let why = refusal(link::take::<X>(&mut link, piece, row));
    Linked { why, link }
}

unsafe extern "C" fn link_finish<const X: bool>(link: Link, row: *const u32, row_len: usize) -> Opened {
    opened::<X>(link::finish::<X>(&link, unsafe { lent(row, row_len) }))
}
