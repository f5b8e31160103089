//! Lists in rounds on all cores. What is compared does not depend on the number of threads.

use super::{counts::Counts, list};
use std::{
    num::NonZero,
    ops::Range,
    panic::catch_unwind,
    sync::atomic::{AtomicU64, Ordering},
    thread,
};

/// The lists of a round.
const ROUND: u64 = 1_000;

/// Rounds from list 0 on, until there are so many additions; or the number of the first list that differs.
pub fn rounds(additions: u64, threads: usize) -> Result<Counts, u64> {
    let mut counts = Counts::default();
    let mut next = 0;
    while counts.answers.total() < additions {
        counts.merge(&round(next..next + ROUND, threads)?);
        next += ROUND;
    }
    Ok(counts)
}

/// As many threads as the machine runs at once.
pub fn all_cores() -> usize {
    thread::available_parallelism().map_or(1, NonZero::get)
}

/// All lists of the round, so that of several that differ the first is named.
fn round(numbers: Range<u64>, threads: usize) -> Result<Counts, u64> {
    let next = AtomicU64::new(numbers.start);
    let share = || share(&next, numbers.end);
    let shares: Vec<_> = thread::scope(|scope| {
        let started: Vec<_> = (0..threads).map(|_| scope.spawn(share)).collect();
        let joined = started.into_iter().map(|thread| thread.join());
        joined.map(|share| share.expect("a share")).collect()
    });
    let differing = shares.iter().filter_map(|(_, differing)| *differing);
    if let Some(first) = differing.min() {
        return Err(first);
    }
    let mut counts = Counts::default();
    shares.iter().for_each(|(share, _)| counts.merge(share));
    Ok(counts)
}

/// The lists that nobody else has taken, and the first of them that differs.
fn share(next: &AtomicU64, end: u64) -> (Counts, Option<u64>) {
    let mut counts = Counts::default();
    let mut differing = None;
    loop {
        let number = next.fetch_add(1, Ordering::Relaxed);
        if number >= end {
            return (counts, differing);
        }
        match catch_unwind(|| list(number)) {
            Ok(own) => counts.merge(&own),
            Err(_) => differing = differing.or(Some(number)),
        }
    }
}
