//! Seventy small bodies, of which the table has entries for sixty-four.

use super::{bytes, capsule, closed_cylinder, ribbon, seamless_torus, torus, tube};
use crate::paper::description::Input;

pub fn file() -> Vec<u8> {
    let mut records: Vec<Input> = (0..70)
        .map(|place| small(place as f32, place % 6))
        .collect();
    // Without an entry left, a fold is still 13, and too many vertices are 2.
    records.push(ribbon(1.0, &[[0.0; 3], [2.0, 0.0, 0.0], [1.0, 0.0, 0.0]]));
    records.push(closed_cylinder(256, 4096, false, [1.0, 1.0]));
    bytes(&records)
}

/// A body of one of the kinds, near x.
fn small(x: f32, kind: u32) -> Input {
    let [from, to] = [[x, 0.0, 0.0], [x + 0.5, 1.0, -0.25]];
    match kind {
        0 => ribbon(0.75, &[from, to]),
        1 => tube(3, 0.25, &[from, to]),
        2 => capsule(3, 1, 0.25, &[from, to]),
        3 => torus(3, 0.25, &[from, to, [x, 1.5, 0.5]]),
        4 => closed_cylinder(3, 1, x > 30.0, [0.5, 1.0 + x]),
        _ => seamless_torus(3, 0.25, &[from, to, [x, 1.5, 0.5]]),
    }
}
