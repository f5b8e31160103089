//! Three bodies or more of every kind, with refused records and unknown kinds between them, and a
//! short record at the end: what the gate runs `sweep` on. Records have many lengths, and no two
//! bodies are alike.

use super::{
    bytes, capsule, closed_cylinder, folded_at_start, record, ribbon, seamless_torus, torus, tube,
};
use crate::paper::description::Input;

pub fn file() -> Vec<u8> {
    let mut left_out = left_out().into_iter();
    let mut records = Vec::new();
    for body in bodies() {
        records.push(body);
        records.extend(left_out.next());
    }
    records.extend(left_out);
    // Refused records just before it do not keep the last body out, and a short one behind it does not either.
    records.push(ribbon(1.75, &bend(6)));
    let mut file = bytes(&records);
    let short = bytes(&[tube(4, 0.25, &bend(5))]);
    file.extend(&short[..short.len() - 6]);
    file
}

fn bodies() -> Vec<Input> {
    (0..3u32)
        .flat_map(|round| {
            let size = 0.25 + 0.125 * round as f32;
            [
                closed_cylinder(3 + round, 1 + 2 * round, round == 1, [size, 2.0]),
                capsule(5 - round, 3 - round, size, &bend(4 + 3 * round)),
                tube(4 + round, size, &bend(9 - 2 * round)),
                torus(3 + round, 0.5 * size, &bend(3 + round)),
                seamless_torus(5 - round, size, &bend(4 + round)),
                ribbon(size, &bend(2 + 5 * round)),
            ]
        })
        .collect()
}

/// Refused by every number that a list of a few records can meet, each commented with its own, and unknown kinds.
fn left_out() -> Vec<Input> {
    let [a, b] = [[0.0; 3], [1.0, 2.0, -1.0]];
    let mut not_finite = bend(7);
    not_finite[4][1] = f32::INFINITY;
    let mut cylinder_with_curve = closed_cylinder(3, 1, false, [1.0, 1.0]);
    cylinder_with_curve.curve = bend(2).concat();
    let far = [[f32::MAX, 0.0, 0.0], [f32::MAX, 1.0, 0.0]];
    let far_loop = [far[0], far[1], [f32::MAX, 1.0, 1.0]];
    vec![
        record(0, 3, 1, 1.0, &bend(5)),
        // 10
        ribbon(1.0, &[]),
        cylinder_with_curve,
        torus(3, 1.0, &bend(2)),
        seamless_torus(3, 1.0, &bend(2)),
        // 20
        tube(2, 0.5, &bend(3)),
        capsule(257, 1, 0.5, &bend(2)),
        seamless_torus(257, 0.5, &bend(5)),
        record(7, 3, 1, 1.0, &[]),
        // 21
        capsule(3, 0, 0.5, &bend(3)),
        closed_cylinder(3, 0, true, [1.0, 1.0]),
        // 22
        ribbon(-1.0, &bend(4)),
        closed_cylinder(3, 1, false, [1.0, f32::NAN]),
        // 11
        tube(3, 0.5, &not_finite),
        // 12
        capsule(3, 1, 0.5, &[a, b, b]),
        torus(3, 0.5, &[a, b, [2.0, 0.0, 1.0], a]),
        // 13
        ribbon(0.5, &[a, b, a]),
        seamless_torus(3, 0.5, &folded_at_start([a, b, [2.0, 0.0, 1.0]])),
        record(u32::MAX, 3, 1, 1.0, &bend(11)),
        // 3, 4
        closed_cylinder(256, 4_096, false, [1.0, 1.0]),
        torus(256, 0.25, &bend(8)),
        // 23
        tube(6, f32::MAX, &far),
        seamless_torus(4, f32::MAX, &far_loop),
    ]
}

/// Along x, up and down and to and fro.
fn bend(vertices: u32) -> Vec<[f32; 3]> {
    let vertex = |i: u32| [i as f32, 0.5 * (i % 2) as f32, 0.25 * (i % 3) as f32];
    (0..vertices).map(vertex).collect()
}
