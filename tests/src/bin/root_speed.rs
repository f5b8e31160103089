//! Times the proved root, called through the library, against `f32::sqrt` on normal numbers.

use std::{hint::black_box, time::Instant};
use togbefulo_tests::{generator::Generator, library};

const NUMBERS: usize = 8192;
const ROUNDS: usize = 500;

fn main() {
    let numbers = normal_numbers();
    println!(
        "{NUMBERS} normal numbers, {ROUNDS} rounds, nanoseconds a root: median, 10th percentile"
    );
    let ways: [(&str, [Round; 2]); 2] = [
        (
            "throughput",
            [throughput(library::root), throughput(f32::sqrt)],
        ),
        ("latency", [latency(library::root), latency(f32::sqrt)]),
    ];
    for (name, rounds) in ways {
        let [proved, machine] = interleaved(rounds, &numbers);
        println!(
            "{name}: root {:.2}, {:.2}; f32::sqrt {:.2}, {:.2}; ratio {:.2}, {:.2}",
            proved[0],
            proved[1],
            machine[0],
            machine[1],
            proved[0] / machine[0],
            proved[1] / machine[1]
        );
    }
}

/// Positive normal numbers of every size.
fn normal_numbers() -> Vec<f32> {
    let mut generator = Generator::new(2);
    let mut number = || f32::from_bits(generator.between(0x00800000, 0x7F7FFFFF));
    (0..NUMBERS).map(|_| number()).collect()
}

type Round = Box<dyn Fn(&[f32])>;

/// Roots that do not wait for one another; the black box keeps each a root of its own.
fn throughput(root: impl Fn(f32) -> f32 + 'static) -> Round {
    Box::new(move |numbers| {
        for &x in numbers {
            black_box(root(x));
        }
    })
}

/// Roots of which each waits for the one before, through one addition on either side.
fn latency(root: impl Fn(f32) -> f32 + 'static) -> Round {
    Box::new(move |numbers| {
        let mut x = 1.0;
        for &y in numbers {
            x = root(x + y);
        }
        black_box(x);
    })
}

/// Times both sides in turn, so that a disturbed stretch of time falls on both.
fn interleaved(sides: [Round; 2], numbers: &[f32]) -> [[f64; 2]; 2] {
    let mut times = [Vec::new(), Vec::new()];
    for _ in 0..ROUNDS {
        for (side, times) in sides.iter().zip(&mut times) {
            let start = Instant::now();
            side(black_box(numbers));
            times.push(start.elapsed().as_nanos() as f64 / numbers.len() as f64);
        }
    }
    times.map(|mut times| {
        times.sort_by(f64::total_cmp);
        [times[ROUNDS / 2], times[ROUNDS / 10]]
    })
}
