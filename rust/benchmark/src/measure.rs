//! Measuring: calls that take turns on the same buffers, each timed many times.
use crate::clock::thread_time;
use std::time::{Duration, Instant};

/// Fewer turns say too little.
const LEAST_TURNS: usize = 5;

/// A turn of a call that is shorter than this repeats it, so that reading the clock costs nothing.
const LEAST_TURN: Duration = Duration::from_micros(200);

/// The times of one call, in nanoseconds, one for each of its turns.
#[derive(Default)]
pub struct Times(Vec<f64>);

impl Times {
    /// The least: what the call takes when nothing else wants the machine. Others can only add to it.
    pub fn least(&self) -> f64 {
        least(&self.0)
    }

    pub fn median(&self) -> f64 {
        median(self.0.clone())
    }

    /// Adds the times of later turns.
    pub fn add(&mut self, later: Times) {
        self.0.extend(later.0);
    }
}

pub fn least(numbers: &[f64]) -> f64 {
    numbers.iter().copied().fold(f64::INFINITY, f64::min)
}

/// The greatest of some numbers, none of them negative.
pub fn greatest(numbers: &[f64]) -> f64 {
    numbers.iter().copied().fold(0.0, f64::max)
}

/// The median of some numbers; of an even count, the greater of the middle two.
pub fn median(mut numbers: Vec<f64>) -> f64 {
    numbers.sort_by(f64::total_cmp);
    numbers[numbers.len() / 2]
}

/// Times calls that take turns on one context, for so long in all.
pub fn alternate<C, const N: usize>(long: Duration, context: &mut C, calls: [&dyn Fn(&mut C); N]) -> [Times; N] {
    // The first run of each is not counted: it warms the caches and says how often a turn repeats the call.
    let repeats = calls.map(|call| {
        let once = timed(context, call, 1).max(1.0);
        (LEAST_TURN.as_nanos() as f64 / once).ceil() as u32
    });
    let mut times: [Times; N] = std::array::from_fn(|_| Times::default());
    let start = Instant::now();
    while start.elapsed() < long || times[0].0.len() < LEAST_TURNS {
        for i in 0..N {
            times[i].0.push(timed(context, calls[i], repeats[i]));
        }
    }
    times
}

/// Nanoseconds of the processor a call, over so many calls in a row.
fn timed<C>(context: &mut C, call: &dyn Fn(&mut C), repeats: u32) -> f64 {
    let start = thread_time();
    for _ in 0..repeats {
        call(context);
    }
    (thread_time() - start) / f64::from(repeats)
}
