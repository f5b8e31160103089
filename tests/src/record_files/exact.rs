//! Bodies that fill both buffers of `sweep` to the last element, with others between them that need one vertex, or
//! two triangles, too many. Every kind has an even number of triangles, so two are the least.

use super::{bytes, ribbon, torus, tube};
use crate::paper::description::Input;

pub fn file() -> Vec<u8> {
    // 4,082 vertices and as many triangles: 14 of each are left.
    let mut records: Vec<Input> = [512, 512, 512, 300, 150, 49]
        .map(|vertices| ribbon(0.5, &zigzag(vertices)))
        .into();
    records.push(torus(4, 0.125, &TRIANGLE));
    // 15 vertices: 3.
    records.push(tube(5, 0.125, &zigzag(3)));
    // 12 vertices and 16 triangles: 4.
    records.push(tube(4, 0.125, &zigzag(3)));
    // 14 of both.
    records.push(tube(7, 0.125, &zigzag(2)));
    // Nothing is left: 3 again.
    records.push(ribbon(0.5, &zigzag(2)));
    bytes(&records)
}

const TRIANGLE: [[f32; 3]; 3] = [[0.0, 0.0, 0.0], [1.0, 0.0, 0.5], [0.0, 1.0, -0.5]];

fn zigzag(vertices: u32) -> Vec<[f32; 3]> {
    let vertex = |i: u32| [i as f32, 0.5 * (i % 2) as f32, 0.25 * (i % 3) as f32];
    (0..vertices).map(vertex).collect()
}
