//! Lengths by their bits: doubles of every kind as HEADLEN and as DATALEN of a scan, whose parts a subject is asked for,
//! beside the machine's own doubles.

use crate::rng::Rng;
use face::{Calls, Refusal, Span};
use std::collections::BTreeSet;
use std::ops::ControlFlow;

/// The classes of a sample, whose last one is a single word: HEADLEN can be no less than a sample has.
const CLASSES: u64 = 13;
const HEAD: u64 = sample::HEAD as u64;
/// No length is above this.
const MOST: u64 = 65_536;
/// The run is longer than the rules let the two lengths be, so that it is never what refuses one.
const RUN: usize = 66_048;

/// The bits of a double that count its fraction.
const FRACTION: u32 = 52;
/// How many fractions are tried with each sign and exponent: 2 x 2,048 of them make 10,002,432.
const FRACTIONS: usize = 2_442;
/// Every whole number up to this one is tried too, and the doubles next to it.
const WHOLE: u32 = 65_600;

/// Which of the two lengths.
#[derive(Clone, Copy, Debug)]
enum Length {
    Head,
    Data,
}

/// What was tried.
#[derive(Default)]
pub struct Tried {
    /// How many doubles.
    pub doubles: u64,
    /// Where the part ended that was answered, for each double that was HEADLEN of a scan.
    pub heads: BTreeSet<u64>,
    /// The same for DATALEN.
    pub datas: BTreeSet<u64>,
}

impl Tried {
    fn ends(&mut self, length: Length) -> &mut BTreeSet<u64> {
        match length {
            Length::Head => &mut self.heads,
            Length::Data => &mut self.datas,
        }
    }
}

/// Tries every double; what differs, in words, is the error.
pub fn lengths(calls: &Calls, seed: u64) -> Result<Tried, String> {
    let (mut run, mut tried) = (scan(), Tried::default());
    let ended = each_double(&mut Rng::new(seed), |bits| {
        tried.doubles += 1;
        for length in [Length::Head, Length::Data] {
            let expected = expected(length, bits);
            let answered = asked(calls, &mut run, length, bits);
            if answered != expected {
                let what = format!("{length:?} {bits:016x}: expected {expected:?}, answered {answered:?}");
                return ControlFlow::Break(what);
            }
            if expected.why == Refusal::NONE {
                tried.ends(length).insert(expected.to);
            }
        }
        ControlFlow::Continue(())
    });
    match ended {
        ControlFlow::Break(what) => Err(what),
        ControlFlow::Continue(()) => Ok(tried),
    }
}

/// Hands on every double that is tried, by its bits: each exponent with either sign, so zeros, subnormal numbers, infinities
/// and not-a-numbers too; and the whole numbers that a length may be, with their neighbours.
fn each_double(rng: &mut Rng, mut then: impl FnMut(u64) -> ControlFlow<String>) -> ControlFlow<String> {
    let edges = edges();
    for top in 0..1u64 << (64 - FRACTION) {
        for at in 0..FRACTIONS {
            let fraction = edges.get(at).copied().unwrap_or_else(|| random(rng));
            then(top << FRACTION | fraction)?;
        }
    }
    for whole in 0..=WHOLE {
        let bits = f64::from(whole).to_bits();
        for near in [bits.wrapping_sub(1), bits, bits + 1] {
            then(near)?;
        }
    }
    ControlFlow::Continue(())
}

/// The fractions at an edge: one digit, and all digits below or from a place on.
fn edges() -> Vec<u64> {
    let all = (1 << FRACTION) - 1;
    let mut edges = vec![all, all - 1];
    for place in 0..FRACTION {
        let below = (1 << place) - 1;
        edges.extend([1 << place, below, all - below]);
    }
    edges
}

/// A fraction by chance, half of them with zeros at their end, as whole numbers have them.
fn random(rng: &mut Rng) -> u64 {
    let fraction = rng.next() >> (64 - FRACTION);
    let zeros = if rng.percent(50) { rng.below(u64::from(FRACTION)) } else { 0 };
    fraction >> zeros << zeros
}

/// A scan without data, in more bytes than it needs.
fn scan() -> Vec<u8> {
    let mut run = sample::scan(RUN, 0);
    run[40..48].fill(0);
    run
}

/// The whole number that a double is by the machine's own conversions: it goes to an integer and back and is the same. The
/// cast makes a not-a-number 0, which is no such number, and the nearest there is of what no integer is.
fn whole(bits: u64) -> Option<u64> {
    let double = f64::from_bits(bits);
    let whole = double as u64;
    (double.is_sign_positive() && whole as f64 == double).then_some(whole)
}

/// What rules 4 and 5 make of that number: the last class, or the data.
fn expected(length: Length, bits: u64) -> Span {
    let span = |from, to| Span { why: Refusal::NONE, from, to };
    let broken = |rule| Span { why: Refusal { number: 11, value: rule }, from: 0, to: 0 };
    match (length, whole(bits)) {
        (Length::Head, Some(n)) if n % 8 == 0 && (HEAD..=MOST).contains(&n) => span(HEAD - 8, n),
        (Length::Head, _) => broken(4),
        (Length::Data, Some(n)) if n % 4 == 0 && n <= MOST => span(HEAD, HEAD + n),
        (Length::Data, _) => broken(5),
    }
}

/// What the subject says of the scan with these bits as that length; the scan is then as it was.
fn asked(calls: &Calls, run: &mut [u8], length: Length, bits: u64) -> Span {
    let at = match length {
        Length::Head => 32,
        Length::Data => 40,
    };
    let before: [u8; 8] = run[at..at + 8].try_into().unwrap();
    run[at..at + 8].copy_from_slice(&bits.to_be_bytes());
    // SAFETY: the pointer and the length are those of a slice, which the calls only look at.
    let answered = unsafe {
        match length {
            Length::Head => (calls.class)(run.as_ptr(), run.len(), CLASSES),
            Length::Data => (calls.data)(run.as_ptr(), run.len()),
        }
    };
    run[at..at + 8].copy_from_slice(&before);
    answered
}
