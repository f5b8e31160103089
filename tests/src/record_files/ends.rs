//! Records that end the reading, and such of unknown kinds, with good ones before and behind.

use super::{bytes, capsule, record, ribbon, seamless_torus, torus, tube};
use crate::paper::description::Input;

const BEND: [[f32; 3]; 4] = [
    [0.0, 0.0, 0.0],
    [1.0, 0.0, 0.0],
    [1.5, 1.0, 0.0],
    [1.5, 1.5, 1.0],
];

fn good() -> [Input; 2] {
    [tube(5, 0.25, &BEND), torus(3, 0.125, &BEND)]
}

/// Straight on along x.
fn straight(vertices: u32) -> Vec<[f32; 3]> {
    (0..vertices).map(|i| [i as f32, 0.0, 0.0]).collect()
}

/// A curve of 512 vertices is read, one of 513 ends the reading, though behind it stand good records.
pub fn long_curve() -> Vec<u8> {
    let long = |vertices| ribbon(0.5, &straight(vertices));
    let [first, second] = good();
    bytes(&[first, long(512), long(513), second])
}

/// Of an unknown kind too.
pub fn long_curve_of_unknown_kind() -> Vec<u8> {
    let [first, second] = good();
    bytes(&[first, record(7, 3, 1, 1.0, &straight(513)), second])
}

/// Good records, then all but the last byte of a head.
pub fn short() -> Vec<u8> {
    let mut file = bytes(&good());
    file.extend(&bytes(&[ribbon(0.5, &BEND)])[..27]);
    file
}

/// Good records, then one that ends within a coordinate.
pub fn short_curve() -> Vec<u8> {
    let mut file = bytes(&good());
    let record = bytes(&[capsule(4, 2, 0.25, &BEND)]);
    file.extend(&record[..record.len() - 6]);
    file
}

/// Unknown kinds, whose coordinates are read all the same, round the last kind that is known.
pub fn unknown() -> Vec<u8> {
    let [first, second] = good();
    let unknown = |kind: u32, vertices| record(kind, 3, 1, 1.0, &straight(vertices));
    bytes(&[
        unknown(0, 0),
        unknown(7, 2),
        first,
        unknown(8, 512),
        seamless_torus(4, 0.25, &BEND),
        unknown(257, 1),
        unknown(1 << 31, 3),
        second,
        unknown(u32::MAX, 4),
    ])
}
