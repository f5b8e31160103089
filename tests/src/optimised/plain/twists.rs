//! The search for the twist of a seamless torus, and the share of it that each vertex has.

use crate::{
    arithmetic::cosine_and_sine,
    optimised::twists::{Ends, Twist, GROUP},
};
use std::array;

/// The twist of a loop, or nothing where c0, s0 or a score is not finite.
pub fn search(ends: Ends) -> Option<Twist> {
    ends.search(greatest)
}

/// The upper half of the scores is put over the lower half until one is left, so that the compiler
/// can use registers.
#[inline(always)]
fn greatest(c0: f32, s0: f32, x: &[f32; GROUP], y: &[f32; GROUP]) -> f32 {
    let mut scores: [f32; GROUP] = array::from_fn(|j| c0 * x[j] + s0 * y[j]);
    let mut half = GROUP / 2;
    while half > 0 {
        let (low, high) = scores.split_at_mut(half);
        for (a, &b) in low.iter_mut().zip(&*high) {
            *a = if *a > b { *a } else { b };
        }
        half /= 2;
    }
    scores[0]
}

/// What each vertex of a loop has of its twist, k·j/(4096·N) turn, as a cosine and a sine.
pub fn shares(twist: Twist, vertices: usize) -> Vec<[f32; 2]> {
    let eighth = (512 * vertices) as f32;
    let sign = if twist.backward { -1.0 } else { 1.0 };
    let share = |j: u32| {
        let [cos, sin] = share((twist.steps * j) as f32, eighth);
        [cos, sign * sin]
    };
    (0..vertices as u32).map(share).collect()
}

/// The direction of so many steps, of which an eighth of a turn has `eighth`. A share is less than
/// half a turn. All numbers before the quotient are whole and below 2^24, so that nothing is
/// rounded.
#[inline(always)]
fn share(steps: f32, eighth: f32) -> [f32; 2] {
    let past = |eighths: f32| steps >= eighths * eighth;
    let turned = |octant: bool| if octant { eighth } else { 0.0 };
    let within = steps - turned(past(1.0)) - turned(past(2.0)) - turned(past(3.0));
    let odd = past(1.0) ^ past(2.0) ^ past(3.0);
    let y = if odd { eighth - within } else { within } / eighth;
    let (c, s) = cosine_and_sine(y * f32::from_bits(0x3F490FDB));
    let exchanged = past(1.0) ^ past(3.0);
    let (cos, sin) = if exchanged { (s, c) } else { (c, s) };
    [if past(2.0) { -cos } else { cos }, sin]
}
