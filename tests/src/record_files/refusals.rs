//! Every refusal that a record can meet, and an accepted body behind the records of each number.

use super::{
    capsule, closed_cylinder, folded_at_start, record, ribbon, seamless_torus, torus, tube,
};
use crate::{
    paper::{description::Input, records},
    sweep,
};

type Xyz = [f32; 3];

const LOOP: [Xyz; 4] = [
    [0.0, 0.0, 0.0],
    [1.0, 0.0, 0.5],
    [1.0, 1.0, -0.5],
    [-0.5, 1.0, 0.25],
];

/// Infinities and NaNs, quiet and signalling, of both signs.
const NOT_FINITE: [u32; 8] = [
    0x7F800000, 0xFF800000, 0x7FC00000, 0xFFC00000, 0x7F800001, 0xFF800001, 0x7FFFFFFF, 0xFFFFFFFF,
];

pub fn file() -> Vec<u8> {
    let groups = [
        accepted(),
        unknown_kinds(),
        vertices_outside(),
        not_finite(),
        lengths_outside(),
        folds(),
        divisions_outside(),
        longitudes_outside(),
        sizes_outside(),
        overflows(),
        too_large(),
    ];
    let mut words = Vec::new();
    for (place, group) in groups.iter().enumerate() {
        words.extend(group.iter().flat_map(records::words));
        // Small, so that the stretch of a 23 is covered in part only.
        words.extend(records::words(&ribbon(1.0 + place as f32, &LOOP[..2])));
    }
    words.extend(centre_by_its_highest_bit());
    sweep::bytes(&words)
}

/// Zeros of both signs, subnormals, fields that a kind lacks full of what it would refuse, and a
/// torus that folds where it closes.
fn accepted() -> Vec<Input> {
    let zeros = [[-0.0, 0.0, -0.0], [-0.0, -0.0, 2.0], [0.0, 1.0, -0.0]];
    let small = f32::from_bits(1);
    let tiny = [
        [small, -small, 0.0],
        [0.0, -1.0, f32::from_bits(0x807FFFFF)],
    ];
    let mut untidy = ribbon(0.5, &zeros);
    untidy.fields.divisions = u32::MAX;
    untidy.fields.longitudes = u32::MAX;
    untidy.fields.length = f32::from_bits(0x7F800001);
    vec![
        untidy,
        tube(4, small, &zeros),
        capsule(3, 1, f32::from_bits(0x00400000), &tiny),
        capsule(3, 0, 0.25, &LOOP),
        torus(3, 0.125, &zeros),
        torus(3, 0.125, &folded_at_start([LOOP[0], LOOP[1], LOOP[2]])),
        closed_cylinder(3, 1, true, [1.0, small]),
        seamless_torus(3, 0.125, &zeros),
        seamless_torus(4, small, &LOOP),
    ]
}

fn unknown_kinds() -> Vec<Input> {
    let unknown = |kind| record(kind, 3, 1, 1.0, &LOOP);
    [0, 7, u32::MAX].map(unknown).into()
}

/// 10: too few vertices, and a closed cylinder with any.
fn vertices_outside() -> Vec<Input> {
    let mut cylinder = closed_cylinder(3, 1, false, [1.0, 1.0]);
    cylinder.curve = LOOP[..2].concat();
    vec![
        ribbon(1.0, &[]),
        ribbon(1.0, &LOOP[..1]),
        tube(3, 1.0, &LOOP[..1]),
        capsule(3, 1, 1.0, &LOOP[..1]),
        torus(3, 1.0, &LOOP[..2]),
        seamless_torus(3, 1.0, &LOOP[..2]),
        cylinder,
    ]
}

/// The five kinds that have a curve.
fn swept(curve: &[Xyz]) -> [Input; 5] {
    [
        ribbon(0.25, curve),
        tube(3, 0.25, curve),
        capsule(3, 1, 0.25, curve),
        torus(3, 0.25, curve),
        seamless_torus(3, 0.25, curve),
    ]
}

/// 11: at every coordinate in turn.
fn not_finite() -> Vec<Input> {
    let mut records = Vec::new();
    for place in 0..LOOP.len() * 3 {
        let mut curve = LOOP;
        let pattern = NOT_FINITE[place % NOT_FINITE.len()];
        curve.as_flattened_mut()[place] = f32::from_bits(pattern);
        records.extend(swept(&curve));
    }
    records
}

/// 12: a vertex twice, segments too short, too long and infinite, and of a torus the closing one.
fn lengths_outside() -> Vec<Input> {
    let [a, b, c, d] = LOOP;
    let near = [f32::from_bits(0x35000000), 0.0, 0.0];
    let mut records = Vec::new();
    for end in [b, [0.0, 1.0e13, 0.0], [f32::MAX, 0.0, 0.0]] {
        records.extend(swept(&[b, end, [f32::MIN, 0.0, 0.0], d]));
    }
    records.extend(swept(&[a, near, c]));
    records.push(torus(3, 0.25, &[a, b, c, a]));
    records.push(seamless_torus(3, 0.25, &[a, b, c, a]));
    records
}

/// 13: back along the same line, of both tori also onto the closing segment, and of the seamless
/// one from there onto the first.
fn folds() -> Vec<Input> {
    let [a, b, c, _] = LOOP;
    let mut records = swept(&[c, a, b, [0.5, 0.0, 0.25]]).to_vec();
    let closing = [a, b, c, [2.0, 2.0, -1.0]];
    records.push(torus(3, 0.25, &closing));
    records.push(seamless_torus(3, 0.25, &closing));
    records.push(seamless_torus(3, 0.25, &folded_at_start([a, b, c])));
    records
}

/// 20: both sides of the limits, and numbers that are permitted ones in their low bits.
fn divisions_outside() -> Vec<Input> {
    let mut records = Vec::new();
    for divisions in [0, 2, 257, 65_539, u32::MAX] {
        records.push(tube(divisions, 0.25, &LOOP));
        records.push(capsule(divisions, 1, 0.25, &LOOP));
        records.push(torus(divisions, 0.25, &LOOP));
        records.push(seamless_torus(divisions, 0.25, &LOOP));
        records.push(closed_cylinder(divisions, 1, false, [1.0, 1.0]));
    }
    records
}

/// 21: longitudes and layers, some of which are permitted once they wrap.
fn longitudes_outside() -> Vec<Input> {
    let mut records = vec![capsule(3, 0, 0.25, &LOOP[..3])];
    for longitudes in [257, 65_537, 1 << 31, (1 << 31) + 1, u32::MAX] {
        records.push(capsule(3, longitudes, 0.25, &LOOP));
    }
    for layers in [0, 4_097, 65_537, u32::MAX] {
        records.push(closed_cylinder(3, layers, true, [1.0, 1.0]));
    }
    records
}

/// 22: zeros, a negative number, infinities and NaNs, for every size.
fn sizes_outside() -> Vec<Input> {
    let mut records = Vec::new();
    let others = [0x00000000, 0x80000000, 0x80000001, 0xBF800000];
    for size in NOT_FINITE.into_iter().chain(others).map(f32::from_bits) {
        records.extend(swept(&LOOP).map(|mut input| {
            input.fields.size = size;
            input
        }));
        records.push(closed_cylinder(3, 1, false, [size, 1.0]));
        records.push(closed_cylinder(3, 1, true, [1.0, size]));
    }
    records
}

/// 23: vertices that overflow, one ring of a closed cylinder or a whole body.
fn overflows() -> Vec<Input> {
    let far = [[f32::MAX, 0.0, 0.0], [f32::MAX, 1.0, 0.0]];
    vec![
        closed_cylinder(3, 25, false, [1.0, f32::MAX]),
        ribbon(1.0, &LOOP[1..]),
        tube(6, f32::MAX, &far),
        capsule(3, 2, f32::MAX, &far),
        seamless_torus(4, f32::MAX, &[far[0], far[1], [f32::MAX, 1.0, 1.0]]),
    ]
}

/// 3, also where the triangles are too many too, then 4.
fn too_large() -> Vec<Input> {
    vec![
        closed_cylinder(256, 4_096, false, [1.0, 1.0]),
        capsule(256, 256, 0.25, &LOOP),
        closed_cylinder(64, 40, false, [1.0, 1.0]),
        torus(
            256,
            0.25,
            &[LOOP, LOOP.map(|[x, y, z]| [x, y, z + 2.0])].concat(),
        ),
    ]
}

/// Any word but 0 is true.
fn centre_by_its_highest_bit() -> Vec<u32> {
    let mut words = records::words(&closed_cylinder(3, 2, true, [1.0, 3.0]));
    words[3] = 1 << 31;
    words
}
