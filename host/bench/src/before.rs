//! The library before a change beside the library after it: two builds, loaded into one process and timed by turns.
//!
//! `host/bench/before` makes the shared objects. Each side has several, alike but for where their code begins: where a
//! loop comes to lie can change its time more than a change of the library may. The least over them counts.

use crate::case::Case;
use crate::clock::{Contender, Spread, contest, turns};
use crate::{suite, table};
use face::{Answer, Calls, Link, Linked, Listed, Opened, Refusal};
use libc::{RTLD_LOCAL, RTLD_NOW, c_void, dlopen, dlsym};
use std::cell::RefCell;
use std::ffi::CString;
use std::time::Duration;

/// The word that makes the program do this and nothing else; then come the builds before, and behind `AND` those after.
pub const WORD: &str = "--before";
pub const AND: &str = "--after";

/// What a call may take after the change, times what it took before.
const LIMIT: f64 = 1.02;
const RUNS: usize = 9;
const BUDGET: Duration = Duration::from_millis(60);

fn words(text: &str) -> CString {
    CString::new(text).expect("no zeros in a name")
}

/// A call of a library that was loaded.
fn symbol(library: *mut c_void, name: &str) -> *mut c_void {
    // SAFETY: a name that ends with a zero.
    let found = unsafe { dlsym(library, words(name).as_ptr()) };
    assert!(!found.is_null(), "the library has no {name}");
    found
}

/// Stands for a call that an earlier library does not have; no case of this comparison makes it.
unsafe extern "C" fn not_there(_: *const u8, _: usize, _: *mut u8, _: usize) -> Refusal {
    unreachable!("the library has no such call")
}

/// The same for the one that asks.
unsafe extern "C" fn not_asked(_: *const u8, _: usize) -> Answer {
    unreachable!("the library has no such call")
}

/// The same for the one that searches.
unsafe extern "C" fn not_searched(_: *const u8, _: usize, _: *mut u64, _: usize) -> Listed {
    unreachable!("the library has no such call")
}

/// The same for those of the link.
unsafe extern "C" fn not_begun(_: u64, _: *mut u32, _: usize) -> Linked {
    unreachable!("the library has no such call")
}

unsafe extern "C" fn not_taken(_: Link, _: *const u8, _: usize, _: *mut u32, _: usize) -> Linked {
    unreachable!("the library has no such call")
}

unsafe extern "C" fn not_finished(_: Link, _: *const u32, _: usize) -> Opened {
    unreachable!("the library has no such call")
}

/// The calls of a shared object. An earlier library may answer with fewer fields: it is given memory for all of today's.
/// Of what it answers `why`, `done` and `first` are looked at, which stand where they always did. Its job goes back to it
/// byte for byte as it came, and it takes of that as many bytes as its own job has; so a shorter job does no harm.
#[expect(clippy::missing_transmute_annotations)] // the field that a call goes to says which it is
fn load(path: &str) -> Calls {
    // SAFETY: the library's own beginnings do nothing.
    let library = unsafe { dlopen(words(path).as_ptr(), RTLD_NOW | RTLD_LOCAL) };
    assert!(!library.is_null(), "{path} cannot be loaded");
    macro_rules! call {
        ($name:literal) => {
            // SAFETY: the header declares the call as the table does.
            unsafe { std::mem::transmute::<*mut c_void, _>(symbol(library, $name)) }
        };
    }
    Calls {
        open: call!("sdd_open"),
        list: call!("sdd_list"),
        entry_at: call!("sdd_entry_at"),
        show: call!("sdd_show"),
        read: call!("sdd_read"),
        class: call!("sdd_class"),
        data: call!("sdd_data"),
        blank: call!("sdd_blank"),
        save: call!("sdd_save"),
        keep: call!("sdd_keep"),
        clear: call!("sdd_clear"),
        step: call!("sdd_step"),
        to_current: not_there,
        to_old: not_there,
        gaps_zero: not_asked,
        find: not_searched,
        link_begin: not_begun,
        link_take: not_taken,
        link_finish: not_finished,
    }
}

/// The least times of a case, over the builds before and over those after.
fn run(case: &Case, before: &[Calls], after: &[Calls]) -> (f64, f64) {
    let stage = RefCell::new(case.stage());
    let mut contenders: Vec<Contender> =
        before.iter().chain(after).map(|calls| turns(|| stage.borrow_mut().make(calls, case.call))).collect();
    let times = contest(&mut contenders, BUDGET);
    let least = |times: &[f64]| times.iter().copied().fold(f64::INFINITY, f64::min);
    (least(&times[..before.len()]), least(&times[before.len()..]))
}

/// Measures and prints; whether every line keeps to the limit.
pub fn measure(words: &[String]) -> bool {
    let mut sides = words.split(|word| word == AND);
    let mut side = || sides.next().unwrap_or_default().iter().map(|path| load(path)).collect::<Vec<_>>();
    let (before, after) = (side(), side());
    assert!(!before.is_empty() && !after.is_empty(), "builds before, {AND}, and builds after");
    let cases = suite::before();
    let mut runs: Vec<Vec<(f64, f64)>> = vec![Vec::new(); cases.len()];
    for _ in 0..RUNS {
        cases.iter().zip(&mut runs).for_each(|(case, runs)| runs.push(run(case, &before, &after)));
    }
    let middle = |runs: &[(f64, f64)], of: &dyn Fn(&(f64, f64)) -> f64| Spread::of(runs.iter().map(of));
    let ratios: Vec<Spread> = runs.iter().map(|runs| middle(runs, &|(before, after)| after / before)).collect();
    let rows: Vec<Vec<String>> = cases
        .iter()
        .zip(&runs)
        .zip(&ratios)
        .map(|((case, runs), ratio)| {
            let time = |of: &dyn Fn(&(f64, f64)) -> f64| format!("{:.2}", middle(runs, of).middle);
            let fine = if ratio.middle <= LIMIT { "" } else { "TOO SLOW" };
            vec![case.name(), time(&|pair| pair.0), time(&|pair| pair.1), table::fine_ratio(*ratio), fine.to_string()]
        })
        .collect();
    table::print(&["call and file", "before µs", "after µs", "after over before", ""], &rows);
    ratios.iter().all(|ratio| ratio.middle <= LIMIT)
}

#[cfg(test)]
mod tests {
    use crate::call::{Call, Stage};
    use crate::file::{File, Form, M, Order, Plan};
    use face::{Calls, Refusal};
    use std::hint::black_box;
    use std::mem::transmute;

    /// A job as it was before: of so many numbers, so that the bootstrap and the entry stand lower. Before request 2026-05
    /// they were seven, without the old scan's run; before 2026-04 they were six, without `lowers`.
    #[repr(C)]
    struct ShortJob<const NUMBERS: usize> {
        numbers: [u64; NUMBERS],
        boot: [u8; 32],
        about: [u8; 54],
    }

    #[repr(C)]
    struct ShortBegun<const NUMBERS: usize> {
        why: Refusal,
        job: ShortJob<NUMBERS>,
    }

    #[repr(C)]
    struct ShortStepped<const NUMBERS: usize> {
        why: Refusal,
        done: u64,
        record: u64,
        written: u64,
        job: ShortJob<NUMBERS>,
    }

    const BOOT: [u8; 32] = [0xb0; 32];
    const ABOUT: [u8; 54] = [0xab; 54];

    extern "C" fn save<const NUMBERS: usize>(
        _: *const u8,
        _: usize,
        slot: u64,
        _: *const u8,
        len: usize,
        _: *const u8,
    ) -> ShortBegun<NUMBERS> {
        let mut numbers = [0; NUMBERS];
        numbers[..6].copy_from_slice(&[1, slot, len as u64, 4096, 7, 0]);
        ShortBegun { why: Refusal::NONE, job: ShortJob { numbers, boot: BOOT, about: ABOUT } }
    }

    /// Counts to three; a job that did not come back as it went is refused.
    extern "C" fn step<const NUMBERS: usize>(
        _: *mut u8,
        _: usize,
        _: *const u8,
        len: usize,
        mut job: ShortJob<NUMBERS>,
    ) -> ShortStepped<NUMBERS> {
        let [saves, _, scan_len, file_len, first, written, ..] = job.numbers[..] else { unreachable!("six or more") };
        let as_it_went = [saves, scan_len, file_len, first] == [1, len as u64, 4096, 7];
        let as_it_went = as_it_went && job.numbers[6..].iter().all(|number| *number == 0);
        let as_it_went = as_it_went && job.boot == BOOT && job.about == ABOUT;
        let number = if as_it_went { 0 } else { face::refused::JOB_DISAGREES };
        job.numbers[5] += u64::from(written < 3);
        let written = job.numbers[5];
        ShortStepped { why: Refusal { number, value: 0 }, done: u64::from(written == 3), record: 1, written, job }
    }

    /// A save by a library whose job has so many numbers.
    fn saves_with<const NUMBERS: usize>() {
        // the compiler must not see which functions these are, as it does not see those of a library that is loaded
        let save = black_box(save::<NUMBERS> as *const ());
        let step = black_box(step::<NUMBERS> as *const ());
        // SAFETY: the answer is written to memory for a longer one, and of the longer job the first bytes are taken.
        #[expect(clippy::missing_transmute_annotations)]
        let calls = unsafe { Calls { save: transmute(save), step: transmute(step), ..plain::calls() } };
        let order = Order::Rising;
        let plan = Plan { slots: 8, m: M, used: 1, run: 1, gap: 0, order, room: 8, form: Form::Current };
        let mut stage = Stage::new(File::new(plan), Call::Open);
        let stepped = stage.save(&calls);
        assert_eq!((stepped.done, stepped.written), (1, 3));
        assert_eq!(stage.free_place(&calls), 7);
    }

    #[test]
    fn a_shorter_job_of_an_earlier_library_comes_back_to_it_as_it_went() {
        saves_with::<6>();
        saves_with::<7>();
    }
}
