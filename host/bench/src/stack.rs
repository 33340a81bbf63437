//! The deepest stack of a call: a thread's stack is painted before it starts, and looked at after it has ended.

use crate::call::{Call, Stage};
use crate::file::{File, Fill, Form, M, Order, Plan};
use crate::link::{Part, Piece};
use crate::map::Map;
use crate::suite::{self, MOST, OLD_RUN};
use face::Calls;
use libc::{pthread_attr_init, pthread_attr_t, pthread_create, pthread_join};
use std::ffi::{c_int, c_void};
use std::hint::black_box;
use std::mem::MaybeUninit;
use std::ptr::null_mut;

unsafe extern "C" {
    // the one call that the crate libc does not have
    fn pthread_attr_setstack(attr: *mut pthread_attr_t, at: *mut c_void, len: usize) -> c_int;
}

const PAINT: u8 = 0xa5;
const STACK: usize = 2 << 20;

/// What the thread does, and where its frame begins.
struct Work<'a> {
    call: &'a mut dyn FnMut(),
    top: usize,
}

extern "C" fn start(work: *mut c_void) -> *mut c_void {
    let mark = 0u8;
    // SAFETY: `depth` hands over its own work and waits for this thread's end.
    let work = unsafe { &mut *work.cast::<Work>() };
    work.top = black_box(&raw const mark) as usize;
    (work.call)();
    null_mut()
}

/// How many bytes of stack the call uses, with the frame of the function that makes it.
pub fn depth(call: &mut dyn FnMut()) -> usize {
    let mut stack = Map::new(STACK);
    stack.bytes().fill(PAINT);
    let mut work = Work { call, top: 0 };
    let mut attr = MaybeUninit::<pthread_attr_t>::uninit();
    let mut thread = 0;
    // SAFETY: the stack and the work live until the thread has ended; the attributes are set before they are used.
    unsafe {
        let base: *mut c_void = stack.pointer().cast();
        assert!(
            pthread_attr_init(attr.as_mut_ptr()) == 0 && pthread_attr_setstack(attr.as_mut_ptr(), base, STACK) == 0
        );
        let made = pthread_create(&mut thread, attr.as_ptr(), start, (&raw mut work).cast());
        assert!(made == 0 && pthread_join(thread, null_mut()) == 0, "no thread");
    }
    let base = stack.pointer() as usize;
    let lowest = stack.bytes().iter().position(|byte| *byte != PAINT).unwrap_or(STACK);
    work.top - (base + lowest)
}

/// A call by its name in the header, and its deepest stack in bytes.
pub struct Depth {
    pub name: &'static str,
    pub bytes: usize,
}

/// The deepest stack of each call of the header, over the orders of the index and both forms.
pub fn depths(calls: &Calls) -> Vec<Depth> {
    let alone = [
        ("open", Call::Open),
        ("list", Call::List),
        ("entry_at", Call::Entry),
        ("show", Call::Show),
        ("read", Call::Read),
        ("class", Call::Class),
        ("data", Call::Data),
        ("blank", Call::Blank),
        ("save", Call::BeginSave(65_536)),
        ("keep", Call::BeginKeep(65_536)),
        ("clear", Call::BeginClear),
        ("to_current", Call::ToCurrent),
        ("to_old", Call::ToOld),
        ("gaps_zero", Call::Gaps),
        ("find", Call::Find(Fill::Scans)),
    ];
    let mut depths: Vec<Depth> = alone
        .map(|(name, call)| Depth { name, bytes: deepest(call, &|stage| depth(&mut || stage.make(calls, call))) })
        .into();
    // a save over a scan and a clear of the highest slot have every kind of step there is
    let saves = deepest(Call::Replace(65_536), &|stage| depth(&mut stage.steps_of_save(calls)));
    let clears = deepest(Call::Clear(65_536), &|stage| depth(&mut stage.steps_of_clear(calls)));
    depths.push(Depth { name: "step", bytes: saves.max(clears) });
    depths.extend(links(calls));
    depths
}

/// The same of the three calls for a file that comes in pieces.
fn links(calls: &Calls) -> [Depth; 3] {
    let whole = Call::Link(Part::Whole);
    let begin = deepest(whole, &|Stage { lending, file, .. }| depth(&mut || _ = black_box(lending.begin(calls, file))));
    // all of it as one piece, and a single byte
    let one = deepest(whole, &|Stage { lending, file, .. }| {
        let link = lending.begin(calls, file);
        depth(&mut || _ = black_box(lending.take(calls, file, link, 0, file.map.size())))
    });
    let byte = deepest(Call::Take(Piece::Number), &|Stage { lending, file, .. }| {
        depth(&mut || _ = black_box(lending.take_piece(calls, file)))
    });
    let finish = deepest(whole, &|Stage { lending, file, .. }| {
        let link = lending.take_whole(calls, file);
        depth(&mut || _ = black_box(lending.finish(calls, link)))
    });
    [("link_begin", begin), ("link_take", one.max(byte)), ("link_finish", finish)]
        .map(|(name, bytes)| Depth { name, bytes })
}

/// The most that is measured, over files in every order and of both forms; no job runs on an old one.
fn deepest(call: Call, measure: &dyn Fn(&mut Stage) -> usize) -> usize {
    let of = |form, order| {
        let plan = match form {
            // a conversion is measured on what the old form can say, so that it is not refused
            _ if form == Form::Old || call.is_move() => Plan { used: 4000, form, ..suite::old(order, OLD_RUN) },
            _ => Plan { slots: 4096, m: M, used: 4000, run: 128, gap: 1, order, room: MOST, form },
        };
        measure(&mut Stage::new(File::new(plan), call))
    };
    let forms = if call.is_job() { &[Form::Current][..] } else { &Form::ALL };
    forms.iter().flat_map(|form| Order::ALL.map(|order| of(*form, order))).max().unwrap()
}
