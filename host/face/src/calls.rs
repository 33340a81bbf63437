//! The calls as a table, so that the library, the stand-in and a wrong copy of
//! it can be tried by the same comparison.

use crate::answers::{Answer, Begun, Entry, Job, Link, Linked, Listed, Opened, Refusal, Span, Stepped};

/// The nineteen calls of the header, in its order. A slice is a pointer and then
/// a length; `about` is a pointer to 54 bytes.
#[allow(missing_docs)]
#[derive(Clone, Copy)]
pub struct Calls {
    pub open: unsafe extern "C" fn(*const u8, usize) -> Opened,
    pub list: unsafe extern "C" fn(*const u8, usize, *mut u32, usize) -> Listed,
    pub entry_at: unsafe extern "C" fn(*const u8, usize, u64) -> Entry,
    pub show: unsafe extern "C" fn(*const u8, usize, u64) -> Span,
    pub read: unsafe extern "C" fn(*const u8, usize, u64) -> Span,
    pub class: unsafe extern "C" fn(*const u8, usize, u64) -> Span,
    pub data: unsafe extern "C" fn(*const u8, usize) -> Span,
    pub blank: unsafe extern "C" fn(*mut u8, usize, u64, u64, u64) -> Refusal,
    pub save: unsafe extern "C" fn(*const u8, usize, u64, *const u8, usize, *const u8) -> Begun,
    pub keep: unsafe extern "C" fn(*const u8, usize, *const u8, usize, *const u8) -> Begun,
    pub clear: unsafe extern "C" fn(*const u8, usize, u64) -> Begun,
    pub step: unsafe extern "C" fn(*mut u8, usize, *const u8, usize, Job) -> Stepped,
    pub to_current: unsafe extern "C" fn(*const u8, usize, *mut u8, usize) -> Refusal,
    pub to_old: unsafe extern "C" fn(*const u8, usize, *mut u8, usize) -> Refusal,
    pub gaps_zero: unsafe extern "C" fn(*const u8, usize) -> Answer,
    pub find: unsafe extern "C" fn(*const u8, usize, *mut u64, usize) -> Listed,
    pub link_begin: unsafe extern "C" fn(u64, *mut u32, usize) -> Linked,
    pub link_take: unsafe extern "C" fn(Link, *const u8, usize, *mut u32, usize) -> Linked,
    pub link_finish: unsafe extern "C" fn(Link, *const u32, usize) -> Opened,
}
