//! A harness in millimetres, y upwards: three hoses and a flat cable come through a grommet. The hoses are tied
//! together; all are clipped to a post and part beyond it.

use super::{bytes, capsule, closed_cylinder, record, ribbon, torus, tube};
use crate::arithmetic::turn;

type Xyz = [f32; 3];

pub fn file() -> Vec<u8> {
    bytes(&[
        closed_cylinder(20, 6, false, [13.0, 150.0]),
        tube(12, 8.0, &smooth(&UPPER, 4)),
        tube(12, 8.0, &smooth(&MIDDLE, 4)),
        tube(12, 8.0, &smooth(&LOWER, 4)),
        ribbon(18.0, &smooth(&FLAT, 5)),
        capsule(10, 3, 3.5, &smooth(&CLIP, 2)),
        torus(
            8,
            5.0,
            &upright_ring([-128.0, 73.0, 16.0], [0.0, 47.0, 21.0], 24),
        ),
        capsule(12, 4, 11.0, &smooth(&PLUG, 3)),
        torus(8, 3.0, &level_ring([87.5, 178.0, -8.5], 11.5, 16)),
        record(
            SEAMLESS_TORUS,
            8,
            0,
            4.0,
            &upright_ring([-62.0, 80.5, 21.0], [18.0, 34.0, 18.5], 30),
        ),
    ])
}

/// The kind of the tie. Its loop is not flat: as a torus it would show a jump in its stripes.
const SEAMLESS_TORUS: u32 = 6;

/// The hoses run one above the other until they have passed the post.
const UPPER: [Xyz; 8] = [
    [-210.0, 98.0, 10.0],
    [-160.0, 98.0, 12.0],
    [-100.0, 98.0, 16.0],
    [-40.0, 98.0, 24.0],
    [20.0, 98.0, 26.0],
    [62.0, 106.0, 16.0],
    [84.0, 140.0, -2.0],
    [88.0, 190.0, -10.0],
];

const MIDDLE: [Xyz; 8] = [
    [-210.0, 80.0, 10.0],
    [-160.0, 80.0, 12.0],
    [-100.0, 80.0, 16.0],
    [-40.0, 80.0, 24.0],
    [20.0, 80.0, 26.0],
    [75.0, 80.0, 10.0],
    [125.0, 84.0, -22.0],
    [180.0, 86.0, -40.0],
];

const LOWER: [Xyz; 8] = [
    [-210.0, 62.0, 10.0],
    [-160.0, 62.0, 12.0],
    [-100.0, 62.0, 16.0],
    [-40.0, 62.0, 24.0],
    [20.0, 62.0, 26.0],
    [64.0, 54.0, 34.0],
    [96.0, 26.0, 56.0],
    [108.0, -20.0, 74.0],
];

/// The edge of the flat cable that is next to the viewer.
const FLAT: [Xyz; 8] = [
    [-200.0, 42.0, 28.0],
    [-160.0, 42.0, 28.0],
    [-100.0, 42.0, 30.0],
    [-40.0, 42.0, 34.0],
    [20.0, 42.0, 36.0],
    [75.0, 44.0, 34.0],
    [130.0, 40.0, 44.0],
    [185.0, 30.0, 62.0],
];

/// From the post over the hoses, down in front of them and back below.
const CLIP: [Xyz; 7] = [
    [0.0, 114.0, 15.0],
    [0.0, 114.0, 28.0],
    [0.0, 106.0, 39.0],
    [0.0, 75.0, 40.0],
    [0.0, 44.0, 39.0],
    [0.0, 34.0, 28.0],
    [0.0, 34.0, 15.0],
];

/// Over the end of the middle hose.
const PLUG: [Xyz; 2] = [[158.0, 85.6, -33.6], [184.0, 86.2, -41.4]];

/// An oval round hoses that run along x. Its radii are those of y and z; by the number of x it swings to either side,
/// twice on its way round.
fn upright_ring(middle: Xyz, radii: Xyz, vertices: u32) -> Vec<Xyz> {
    let [x, y, z] = middle;
    let vertex = |i| {
        let (cos, sin) = turn(i, vertices);
        let (_, twice) = turn(2 * i % vertices, vertices);
        [x + radii[0] * twice, y + radii[1] * sin, z + radii[2] * cos]
    };
    (0..vertices).map(vertex).collect()
}

/// A circle round a hose that runs upwards.
fn level_ring(middle: Xyz, radius: f32, vertices: u32) -> Vec<Xyz> {
    let [x, y, z] = middle;
    let vertex = |i| {
        let (cos, sin) = turn(i, vertices);
        [x + radius * cos, y, z + radius * sin]
    };
    (0..vertices).map(vertex).collect()
}

/// A curve through all of the points, with so many segments between two of them (Catmull and Rom's).
fn smooth(points: &[Xyz], segments: u32) -> Vec<Xyz> {
    let last = points.len() - 1;
    let mut curve = Vec::new();
    for span in 0..last {
        let around = [span.max(1) - 1, span, span + 1, (span + 2).min(last)];
        let around = around.map(|place| points[place]);
        curve.extend((0..segments).map(|i| between(around, i as f32 / segments as f32)));
    }
    curve.push(points[last]);
    curve
}

/// At t from 0 to 1 between the second and the third of four points.
fn between([before, from, to, after]: [Xyz; 4], t: f32) -> Xyz {
    [0, 1, 2].map(|axis| {
        let [a, b, c, d] = [before[axis], from[axis], to[axis], after[axis]];
        let bend = 2.0 * a - 5.0 * b + 4.0 * c - d;
        b + 0.5 * t * (c - a + t * (bend + t * (3.0 * (b - c) + d - a)))
    })
}
