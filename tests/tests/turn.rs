//! The proved direction of k/n turn beside f64 sine and cosine, and beside document 01's own operations.

use std::f64::consts::TAU;
use togbefulo_tests::{
    arithmetic::{self, word},
    generator::Generator,
    library,
};

const LARGEST: u32 = 1 << 24;
const NEARNESS: f64 = 0.000_001;
const SAMPLES: usize = 4_000_000;

/// Compares turns and keeps the worst distance from sine and cosine.
#[derive(Default)]
struct Comparison {
    compared: u64,
    worst: f64,
}

impl Comparison {
    fn compare(&mut self, k: u32, n: u32) {
        let given = library::turn(k, n);
        let expected = arithmetic::turn(k, n);
        assert_eq!(words(given), words(expected), "bits of turn({k}, {n})");
        let (sin, cos) = (TAU * f64::from(k) / f64::from(n)).sin_cos();
        let distance = (f64::from(given.0) - cos)
            .abs()
            .max((f64::from(given.1) - sin).abs());
        assert!(distance <= NEARNESS, "turn({k}, {n}) is off by {distance}");
        self.worst = self.worst.max(distance);
        self.compared += 1;
    }

    fn print(&self) {
        println!("{} turns compared, worst {:e}", self.compared, self.worst);
    }
}

fn words(pair: (f32, f32)) -> [u32; 2] {
    [word(pair.0), word(pair.1)]
}

#[test]
fn every_turn_of_up_to_1024() {
    let mut comparison = Comparison::default();
    for n in 1..=1024 {
        for k in 0..n {
            comparison.compare(k, n);
        }
    }
    comparison.print();
}

#[test]
fn turns_from_anywhere() {
    let mut generator = Generator::new(3);
    let mut comparison = Comparison::default();
    for _ in 0..SAMPLES {
        let n = generator.between(1, LARGEST);
        let k = generator.between(0, n - 1);
        comparison.compare(k, n);
    }
    comparison.print();
}

/// Both sides of each eighth, where the polynomials change places and signs.
#[test]
fn turns_next_to_the_eighths() {
    let mut generator = Generator::new(4);
    let mut comparison = Comparison::default();
    let largest = LARGEST - 1000..=LARGEST;
    let others: Vec<u32> = (0..20_000).map(|_| generator.between(8, LARGEST)).collect();
    for n in largest.chain(others) {
        for eighth in 0..8 {
            let at = (u64::from(n) * eighth / 8) as u32;
            for k in at.saturating_sub(2)..=at + 2 {
                comparison.compare(k % n, n);
            }
        }
        comparison.compare(n - 1, n);
    }
    comparison.print();
}

/// Where the paper defines no direction, the function gives that of no turn.
#[test]
fn turns_outside() {
    let mut generator = Generator::new(5);
    let edges = [0, 1, 2, 3, 8, 1 << 23, LARGEST - 1, LARGEST, LARGEST + 1];
    let wrapping = [1 << 29, 1 << 30, 1 << 31, u32::MAX - 1, u32::MAX];
    let mut numbers = [&edges[..], &wrapping].concat();
    numbers.extend(generator.words(300));
    let mut compared = 0;
    for &k in &numbers {
        for &n in numbers.iter().filter(|&&n| k >= n || n > LARGEST) {
            assert_eq!(
                words(library::turn(k, n)),
                [0x3F800000, 0],
                "turn({k}, {n})"
            );
            compared += 1;
        }
    }
    println!("{compared} turns outside compared");
}
