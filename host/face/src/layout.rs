//! The layout that the header gives these structs on every 64-bit Linux,
//! checked when this crate is compiled.

use crate::answers::{Answer, Begun, Entry, Job, Link, Linked, Listed, Opened, Refusal, Span, Stepped};
use std::mem::{offset_of, size_of};

const _: () = {
    assert!(size_of::<Refusal>() == 8);
    assert!(size_of::<Opened>() == 88);
    assert!(size_of::<Listed>() == 16);
    assert!(size_of::<Answer>() == 16);
    assert!(size_of::<Span>() == 24);
    assert!(size_of::<Entry>() == 88);
    assert!(size_of::<Job>() == 160);
    assert!(size_of::<Begun>() == 168);
    assert!(size_of::<Stepped>() == 192);
    assert!(size_of::<Link>() == 56);
    assert!(size_of::<Linked>() == 64);

    assert!(offset_of!(Opened, kind) == 56);
    assert!(offset_of!(Opened, room) == 72);
    assert!(offset_of!(Opened, version) == 80);
    assert!(offset_of!(Entry, source) == 24);
    assert!(offset_of!(Entry, field8) == 48);
    assert!(offset_of!(Entry, mode) == 64);
    assert!(offset_of!(Entry, position) == 68);
    assert!(offset_of!(Entry, magic) == 70);
    assert!(offset_of!(Entry, kind) == 72);
    assert!(offset_of!(Entry, single_value) == 76);
    assert!(offset_of!(Entry, double_value) == 80);
    assert!(offset_of!(Job, lowers) == 48);
    assert!(offset_of!(Job, old_first) == 56);
    assert!(offset_of!(Job, old_count) == 64);
    assert!(offset_of!(Job, boot) == 72);
    assert!(offset_of!(Job, about) == 104);
    assert!(offset_of!(Stepped, job) == 32);
    assert!(offset_of!(Link, length) == 32);
    assert!(offset_of!(Link, came) == 40);
    assert!(offset_of!(Link, index_end) == 48);
};
