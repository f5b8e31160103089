//! Times of many rounds.

use std::{
    hint::black_box,
    time::{Duration, Instant},
};

/// Microseconds: the 10th percentile and the median.
#[derive(Clone, Copy)]
pub struct Times {
    pub low: f64,
    pub median: f64,
}

impl Times {
    pub fn of(mut times: Vec<Duration>) -> Times {
        times.sort();
        let microseconds = |place: usize| times[place].as_nanos() as f64 / 1_000.0;
        Times {
            low: microseconds(times.len() / 10),
            median: microseconds(times.len() / 2),
        }
    }
}

/// How long a call takes.
pub fn time<T>(call: impl FnOnce() -> T) -> Duration {
    let start = Instant::now();
    black_box(call());
    start.elapsed()
}

/// Calls `round` with ascending numbers until the time is over, though not fewer times than are named. Gives how
/// often.
pub fn repeat(least: usize, span: Duration, mut round: impl FnMut(usize)) -> usize {
    let start = Instant::now();
    let mut rounds = 0;
    while rounds < least || start.elapsed() < span {
        round(rounds);
        rounds += 1;
    }
    rounds
}
