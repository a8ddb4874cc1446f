//! How times are taken: the least of many short repetitions, in turn.

use std::hint::black_box;
use std::time::{Duration, Instant};

/// The least time of one repetition, and the number of repetitions: many short
/// ones, so that some are not interrupted on a busy machine.
const REPETITION: Duration = Duration::from_micros(400);
pub const REPETITIONS: usize = 151;
/// What takes longer than this is repeated a few times alone.
pub const SLOW: Duration = Duration::from_millis(20);
pub const FEW_REPETITIONS: usize = 3;

/// Takes the ns of one call, over this many.
pub type Timer<'f> = &'f dyn Fn(u32) -> f64;

/// The timer of a function. The calls stand in a loop of their own for each
/// function, so that none is called through a pointer.
pub fn timer(function: impl Fn() -> u32) -> impl Fn(u32) -> f64 {
    move |calls| {
        let started = Instant::now();
        for _ in 0..calls {
            black_box(function());
        }
        started.elapsed().as_nanos() as f64 / f64::from(calls)
    }
}

/// The least ns per call of some functions, measured in turn.
pub fn least<const N: usize>(timers: [Timer; N]) -> [f64; N] {
    let slowest = timers.map(|time| time(1)).into_iter().fold(0.0, f64::max);
    let repetitions = match slowest > SLOW.as_nanos() as f64 {
        true => FEW_REPETITIONS,
        false => REPETITIONS,
    };
    let calls = timers.map(calls);
    let mut least = [f64::MAX; N];
    for _ in 0..repetitions {
        for (function, time) in timers.iter().enumerate() {
            least[function] = least[function].min(time(calls[function]));
        }
    }
    least
}

/// A number of calls that takes about one repetition.
fn calls(time: Timer) -> u32 {
    let mut calls = 1;
    while time(calls) * f64::from(calls) < REPETITION.as_nanos() as f64 {
        calls *= 2;
    }
    calls
}
