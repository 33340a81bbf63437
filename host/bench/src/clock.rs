//! Times, taken so that a busy machine does little harm: contenders by turns, many short samples, the least of them.

use std::time::{Duration, Instant};

/// One contender: makes its call so many times.
pub type Contender<'a> = Box<dyn FnMut(u32) + 'a>;

/// Calls `call` so many times.
pub fn turns<'a>(mut call: impl FnMut() + 'a) -> Contender<'a> {
    Box::new(move |times| {
        for _ in 0..times {
            call();
        }
    })
}

/// The shortest sample that the clock is trusted with.
const SAMPLE: f64 = 12e-6;

/// How many calls make a sample.
fn calibrate(contender: &mut Contender) -> u32 {
    let mut times = 1;
    loop {
        let least = (0..3).map(|_| seconds(contender, times)).fold(f64::INFINITY, f64::min);
        if least >= SAMPLE || times >= 1 << 16 {
            return times;
        }
        times *= 2;
    }
}

fn seconds(contender: &mut Contender, times: u32) -> f64 {
    let began = Instant::now();
    contender(times);
    began.elapsed().as_secs_f64()
}

/// The least time of a call of each contender in microseconds, over as many rounds as fit. In every round each has its
/// turn, so that what slows the machine for a while meets them all.
pub fn contest(contenders: &mut [Contender], budget: Duration) -> Vec<f64> {
    let times: Vec<u32> = contenders.iter_mut().map(calibrate).collect();
    let mut least = vec![f64::INFINITY; contenders.len()];
    let began = Instant::now();
    let mut round = 0;
    while round < 10 || began.elapsed() < budget {
        for turn in 0..contenders.len() {
            let i = (turn + round) % contenders.len();
            let each = seconds(&mut contenders[i], times[i]) / f64::from(times[i]) * 1e6;
            least[i] = least[i].min(each);
        }
        round += 1;
    }
    least
}

/// The middle one, with the lowest and the highest.
#[derive(Clone, Copy, Debug)]
pub struct Spread {
    pub middle: f64,
    pub low: f64,
    pub high: f64,
}

impl Spread {
    /// Of these numbers, at least one.
    pub fn of(numbers: impl IntoIterator<Item = f64>) -> Spread {
        let mut all: Vec<f64> = numbers.into_iter().collect();
        all.sort_by(f64::total_cmp);
        let n = all.len();
        let middle = if n % 2 == 1 { all[n / 2] } else { (all[n / 2 - 1] + all[n / 2]) / 2.0 };
        Spread { middle, low: all[0], high: all[n - 1] }
    }
}
