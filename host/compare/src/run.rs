//! A run: rounds of the themes from a seed, until there are cases enough.

use crate::tally::Tally;
use crate::themes::{GIANT, PAST, REACH, THEMES, Theme, WIDE};
use crate::world::{Disagreement, Subject, World};
use std::ffi::c_int;
use std::sync::atomic::{AtomicU64, Ordering::Relaxed};

/// What to run.
#[derive(Clone, Copy)]
pub struct Options {
    /// The seed, from which everything follows.
    pub seed: u64,
    /// How many calls at least.
    pub cases: u64,
    /// This round alone, to look at it again.
    pub only: Option<u64>,
    /// Whether files with room for 1,000,000 records take their turn.
    pub giants: bool,
}

/// Every so many rounds a wide file takes its turn, an old one with very many records, a current one of which the old
/// form can say no more, and a giant one.
const WIDE_EVERY: u64 = 150;
const PAST_EVERY: u64 = 200;
const REACH_EVERY: u64 = 200;
const GIANT_EVERY: u64 = 2_500;

static SEED: AtomicU64 = AtomicU64::new(0);
static ROUND: AtomicU64 = AtomicU64::new(0);

/// How a run ended: what was compared, and what differed if anything did.
pub struct Ended {
    /// What was compared.
    pub tally: Tally,
    /// The first call on which subject and model differ.
    pub wrong: Option<Disagreement>,
}

/// Runs rounds until there are cases enough, or until one disagrees.
pub fn run(subject: &mut dyn Subject, options: &Options) -> Ended {
    let mut tally = Tally::default();
    let mut round = options.only.unwrap_or(0);
    while tally.cases() < options.cases {
        SEED.store(options.seed, Relaxed);
        ROUND.store(round, Relaxed);
        // SAFETY: a clock of this process, which begins anew with each round.
        unsafe { libc::alarm(MOST_SECONDS) };
        let mut world = World::new(subject, round_seed(options.seed, round));
        world.tally = tally;
        let theme = theme_of(&mut world, round, options.giants);
        let ended = (theme.round)(&mut world);
        tally = std::mem::take(&mut world.tally);
        if let Err(mut wrong) = ended {
            wrong.what = format!("seed {} round {round} ({}): {}", options.seed, theme.name, wrong.what);
            return Ended { tally, wrong: Some(wrong) };
        }
        if options.only.is_some() {
            break;
        }
        round += 1;
    }
    Ended { tally, wrong: None }
}

/// Each round has a seed of its own, so that it can be run again by itself.
fn round_seed(seed: u64, round: u64) -> u64 {
    seed.wrapping_mul(0x2545_f491_4f6c_dd1d).rotate_left(17) ^ round.wrapping_mul(0xd134_2543_de82_ef95)
}

fn theme_of(world: &mut World, round: u64, giants: bool) -> &'static Theme {
    if giants && round % GIANT_EVERY == 400 {
        return &GIANT;
    }
    if round % WIDE_EVERY == 20 {
        return &WIDE;
    }
    if round % PAST_EVERY == 60 {
        return &PAST;
    }
    if round % REACH_EVERY == 130 {
        return &REACH;
    }
    let mut at = world.rng.below(THEMES.iter().map(|theme| theme.share).sum());
    for theme in &THEMES {
        if at < theme.share {
            return theme;
        }
        at -= theme.share;
    }
    unreachable!("the shares add up")
}

/// The status with which a process ends whose subject touched a guard page.
const FAULT: c_int = 86;

/// The same for one that was in one round for so many seconds, where the longest takes about one: a call does not end.
const ENDLESS: c_int = 87;
const MOST_SECONDS: u32 = 300;

/// Has a touch of a guard page, and a round that does not end, say which round of this seed it is, and end the process.
pub fn say_where_on_a_fault(seed: u64) {
    SEED.store(seed, Relaxed);
    // SAFETY: the handlers only write and exit.
    unsafe {
        libc::signal(libc::SIGSEGV, fault as extern "C" fn(c_int) as usize);
        libc::signal(libc::SIGBUS, fault as extern "C" fn(c_int) as usize);
        libc::signal(libc::SIGALRM, endless as extern "C" fn(c_int) as usize);
    }
}

extern "C" fn fault(_: c_int) {
    end(b"memory outside what was lent was touched: seed ", FAULT)
}

extern "C" fn endless(_: c_int) {
    end(b"a round did not end within five minutes: seed ", ENDLESS)
}

/// Says what happened and in which round, and ends the process.
fn end(what: &[u8], status: c_int) {
    say(what);
    say_number(SEED.load(Relaxed));
    say(b" round ");
    say_number(ROUND.load(Relaxed));
    say(b"\n");
    // SAFETY: ends the process.
    unsafe { libc::_exit(status) }
}

fn say(bytes: &[u8]) {
    // SAFETY: the pointer and the length are those of a slice.
    unsafe { libc::write(2, bytes.as_ptr().cast(), bytes.len()) };
}

/// A number in decimal, with nothing that a signal handler may not do.
fn say_number(mut number: u64) {
    let mut digits = [0; 20];
    let mut at = digits.len();
    loop {
        at -= 1;
        digits[at] = b'0' + (number % 10) as u8;
        number /= 10;
        if number == 0 {
            return say(&digits[at..]);
        }
    }
}
