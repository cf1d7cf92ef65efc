//! The clock.

use std::hint::black_box;
use std::time::{Duration, Instant};

/// How long a call is tried again and again. It is tried three times at least.
const PATIENCE: Duration = Duration::from_millis(400);

/// A round takes at least so many nanoseconds.
const ROUND: f64 = 1e5;

/// The nanoseconds of a call in the best of several rounds. A call that is shorter than a round is made several times in it, and letting go
/// of what it answers is then counted; else it is not.
pub fn nanoseconds<T>(mut call: impl FnMut() -> T) -> f64 {
    let began = Instant::now();
    let mut round = |calls: u32| {
        let start = Instant::now();
        for _ in 1..calls {
            black_box(call());
        }
        let last = black_box(call());
        let time = start.elapsed().as_nanos() as f64;
        drop(last);
        time / f64::from(calls)
    };
    let mut calls = 1;
    let mut best = round(1);
    while best * f64::from(calls) < ROUND {
        calls *= 2;
        best = round(calls);
    }
    let mut rounds = 1;
    while rounds < 3 || began.elapsed() < PATIENCE {
        best = best.min(round(calls));
        rounds += 1;
    }
    best
}
