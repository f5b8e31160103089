//! The search for the twist of a seamless torus, and the share of it that each vertex has, four at
//! a time.

use super::four::Four;
use crate::optimised::twists::{Ends, Twist, GROUP};

/// The twist of a loop, or nothing where c0, s0 or a score is not finite.
pub fn search(ends: Ends) -> Option<Twist> {
    ends.search(greatest)
}

#[inline(always)]
fn greatest(c0: f32, s0: f32, x: &[f32; GROUP], y: &[f32; GROUP]) -> f32 {
    let (c0, s0) = (Four::all(c0), Four::all(s0));
    let mut most = Four::all(0.0);
    for (x, y) in x.as_chunks::<4>().0.iter().zip(y.as_chunks::<4>().0) {
        most = most.greater(c0 * Four::load(x) + s0 * Four::load(y));
    }
    most.greatest_lane()
}

/// What the vertices of a loop have of its twist: k·j/(4096·N) turn.
pub struct Shares {
    steps: Four,
    /// An eighth of a turn, in steps of 1/(4096·N).
    eighth: Four,
    /// The sign of a backward twist's sines.
    sign: Four,
}

impl Shares {
    pub fn of(twist: Twist, vertices: usize) -> Shares {
        Shares {
            steps: Four::all(twist.steps as f32),
            eighth: Four::all((512 * vertices) as f32),
            sign: Four::all(if twist.backward { -0.0 } else { 0.0 }),
        }
    }

    /// The cosines and the sines at four vertices from this one on. All numbers before the
    /// quotient are whole and below 2^24, so that nothing is rounded.
    #[inline(always)]
    pub fn four(&self, first: usize) -> [Four; 2] {
        let eighth = self.eighth;
        let steps = (Four::all(first as f32) + Four::ascending()) * self.steps;
        // A share is less than half a turn: it lies in one of four octants.
        let two = eighth + eighth;
        let past = [eighth, two, two + eighth].map(|bound| steps.is_not_below(bound));
        let within = steps - (eighth & past[0]) - (eighth & past[1]) - (eighth & past[2]);
        let odd = past[0] ^ past[1] ^ past[2];
        let [c, s] = within_octant(within.or_where(odd, eighth - within) / eighth);
        let exchanged = past[0] ^ past[2];
        let negative = Four::all(-0.0) & past[1];
        [
            c.or_where(exchanged, s) ^ negative,
            s.or_where(exchanged, c) ^ self.sign,
        ]
    }
}

/// Document 01's cosine and sine of an angle in the first octant.
#[inline(always)]
fn within_octant(y: Four) -> [Four; 2] {
    let a = y * Four::all(f32::from_bits(0x3F490FDB));
    let z = a * a;
    let next = |number: f32, bracket: Four| Four::all(number) + z * bracket;
    let s = next(-1.0 / 5040.0, Four::all(1.0 / 362880.0));
    let s = a * next(1.0, next(-1.0 / 6.0, next(1.0 / 120.0, s)));
    let c = next(-1.0 / 720.0, Four::all(1.0 / 40320.0));
    let c = next(1.0, next(-1.0 / 2.0, next(1.0 / 24.0, c)));
    [c, s]
}
