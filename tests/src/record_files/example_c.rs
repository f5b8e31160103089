//! The bodies of examples/set.c, whose file is compared with what `sweep` makes of these records.

use super::{bytes, capsule, closed_cylinder, tube};

pub fn file() -> Vec<u8> {
    let hose = [
        [-40.0, 60.0, 15.0],
        [-20.0, 60.0, 17.0],
        [0.0, 62.0, 18.0],
        [20.0, 68.0, 15.0],
        [34.0, 80.0, 8.0],
    ];
    let kinked = [[0.0; 3], [0.0, 0.0, 50.0], [0.0, 0.0, 10.0]];
    let plug = [[30.0, 76.0, 10.0], [38.0, 84.0, 6.0]];
    bytes(&[
        closed_cylinder(16, 4, false, [12.0, 90.0]),
        tube(12, 5.0, &hose),
        tube(12, 5.0, &kinked),
        capsule(12, 3, 7.0, &plug),
    ])
}
