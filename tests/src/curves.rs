//! Curves drawn at random in several manners, so that zeros of both signs, subnormals, large values and sharp
//! bends all occur. Most are accepted by document 01's checks, but not all.

use crate::{
    generator::Generator,
    loops::{coil, tilted},
};

/// How a curve is drawn.
#[derive(Clone, Copy, Debug, PartialEq, Eq)]
pub enum Manner {
    /// Steps in any direction, of one size.
    Walk,
    /// A heading that turns a little at each vertex.
    Hose,
    /// Every coordinate one of a few values.
    Lattice,
    /// A walk with zeros and subnormals put in.
    Sprinkled,
    /// One or two coordinates far out and the same throughout.
    Far,
    /// Bends close to a fold.
    Zigzag,
    /// The first segment next to where the first frame is formed in the other way.
    Brink,
    /// Round an axis and back to where it began, in a plane or winding like a helix.
    Loop,
}

pub const MANNERS: [Manner; 8] = [
    Manner::Walk,
    Manner::Hose,
    Manner::Lattice,
    Manner::Sprinkled,
    Manner::Far,
    Manner::Zigzag,
    Manner::Brink,
    Manner::Loop,
];

/// Zeros, subnormals and the smallest normal number, of both signs.
pub const TINY: [f32; 8] = [
    0.0,
    -0.0,
    f32::from_bits(0x00000001),
    f32::from_bits(0x80000001),
    f32::from_bits(0x007FFFFF),
    f32::from_bits(0x80400000),
    f32::MIN_POSITIVE,
    -f32::MIN_POSITIVE,
];

/// Values so large that a segment between two different ones would be too long.
const FAR: [f32; 6] = [
    f32::MAX,
    f32::MIN,
    f32::from_bits(0x7F7FFFFE),
    f32::from_bits(0xFF000000),
    f32::from_bits(0x71234567),
    f32::from_bits(0xDF000000),
];

/// Bits of directions for which document 01's 2^-4 is met exactly or just missed.
const BRINKS: [[u32; 3]; 8] = [
    [0x3F800000, 0x4077DEF6, 0x00000000],
    [0x3F800000, 0x4077DEF7, 0x80000000],
    [0x80000000, 0x4077DEF6, 0x3F800000],
    [0x00000000, 0x4077DEF7, 0x3F800000],
    [0x00000000, 0xBF77DEF6, 0xBE800000],
    [0x80000000, 0xBF77DEF7, 0xBE800000],
    [0xBF800000, 0x410A9066, 0x40000000],
    [0xBF800000, 0x410A9067, 0x40000000],
];

/// A curve of so many vertices, three floats each.
pub fn draw(generator: &mut Generator, manner: Manner, vertices: usize) -> Vec<f32> {
    let curve = match manner {
        Manner::Walk => walk(generator, vertices),
        Manner::Hose => hose(generator, vertices),
        Manner::Lattice => lattice(generator, vertices),
        Manner::Sprinkled => sprinkled(generator, vertices),
        Manner::Far => far(generator, vertices),
        Manner::Zigzag => zigzag(generator, vertices),
        Manner::Brink => brink(generator, vertices),
        Manner::Loop => closed(generator, vertices),
    };
    curve.concat()
}

/// The size of a curve's steps: from the shortest permitted segments to the longest.
fn scale(generator: &mut Generator) -> f32 {
    if generator.one_in(4) {
        generator.power_of_two(-19, 39)
    } else {
        generator.power_of_two(-4, 6)
    }
}

/// At a zero of either sign, or as far from it as some steps.
fn start(generator: &mut Generator, scale: f32) -> [f32; 3] {
    let far = generator.power_of_two(0, 5) * scale;
    [0; 3].map(|_| match generator.between(0, 2) {
        0 => 0.0,
        1 => -0.0,
        _ => far * generator.unit(),
    })
}

fn moved(from: [f32; 3], step: [f32; 3]) -> [f32; 3] {
    [0, 1, 2].map(|axis| from[axis] + step[axis])
}

/// One component moves; each other one is left as it is in one step of four.
fn step(generator: &mut Generator, scale: f32) -> [f32; 3] {
    let moving = generator.between(0, 2);
    [0, 1, 2].map(|axis| {
        if axis != moving && generator.one_in(4) {
            0.0
        } else {
            scale * generator.unit()
        }
    })
}

fn walk(generator: &mut Generator, vertices: usize) -> Vec<[f32; 3]> {
    let scale = scale(generator);
    let mut at = start(generator, scale);
    let mut curve = Vec::new();
    for _ in 0..vertices {
        curve.push(at);
        at = moved(at, step(generator, scale));
    }
    curve
}

fn hose(generator: &mut Generator, vertices: usize) -> Vec<[f32; 3]> {
    let scale = scale(generator);
    let mut at = start(generator, scale);
    let mut heading = [scale, 0.0, -0.0];
    let mut curve = Vec::new();
    for _ in 0..vertices {
        curve.push(at);
        heading = moved(heading, step(generator, scale * 0.25));
        at = moved(at, heading);
    }
    curve
}

fn lattice(generator: &mut Generator, vertices: usize) -> Vec<[f32; 3]> {
    let scale = scale(generator);
    let coordinate = |generator: &mut Generator| match generator.between(0, 3) {
        0 => generator.one_of(&TINY),
        _ => scale * generator.one_of(&[-2.0, -1.0, -0.5, 0.5, 1.0, 2.0]),
    };
    (0..vertices)
        .map(|_| [0; 3].map(|_| coordinate(generator)))
        .collect()
}

fn sprinkled(generator: &mut Generator, vertices: usize) -> Vec<[f32; 3]> {
    let mut curve = walk(generator, vertices);
    for coordinate in curve.as_flattened_mut() {
        if generator.one_in(5) {
            *coordinate = generator.one_of(&TINY);
        } else if generator.one_in(16) {
            *coordinate = f32::from_bits(generator.word() & 0x807FFFFF);
        }
    }
    curve
}

fn far(generator: &mut Generator, vertices: usize) -> Vec<[f32; 3]> {
    let mut curve = walk(generator, vertices);
    let axes = [0, 1, 2].map(|_| generator.between(0, 2) as usize);
    for &axis in &axes[..generator.one_of(&[1, 1, 2])] {
        let value = generator.one_of(&FAR);
        curve.iter_mut().for_each(|vertex| vertex[axis] = value);
    }
    curve
}

/// To and fro along one axis, with sideways steps that keep to about one direction.
fn zigzag(generator: &mut Generator, vertices: usize) -> Vec<[f32; 3]> {
    let scale = scale(generator);
    let sideways = scale * generator.one_of(&[0.02, 0.03, 0.05, 0.1, 1.0]);
    let drift = [0; 3].map(|_| generator.one_of(&[-1.0, 0.5, 1.0]));
    let main = generator.between(0, 2) as usize;
    let mut at = start(generator, scale);
    let mut curve = Vec::new();
    for vertex in 0..vertices {
        curve.push(at);
        let mut next = drift.map(|component| sideways * (component + 0.3 * generator.unit()));
        let along = scale * (1.5 + 0.5 * generator.unit());
        next[main] = if vertex % 2 == 0 { along } else { -along };
        at = moved(at, next);
    }
    curve
}

/// From a zero, so that the first segment's difference is the direction times a power of two.
fn brink(generator: &mut Generator, vertices: usize) -> Vec<[f32; 3]> {
    let scale = scale(generator);
    let direction = generator.one_of(&BRINKS).map(f32::from_bits);
    let mut at = direction.map(|component| scale * component);
    let mut curve = vec![[0; 3].map(|_| generator.one_of(&[0.0, -0.0]))];
    for _ in 1..vertices {
        curve.push(at);
        at = moved(at, step(generator, scale));
    }
    curve
}

fn closed(generator: &mut Generator, vertices: usize) -> Vec<[f32; 3]> {
    let scale = scale(generator);
    let middle = start(generator, scale);
    let windings = generator.between(0, 4);
    let wire = generator.one_of(&[0.0, 0.125, -0.125, 0.5, -0.5, 1.5]);
    let lean = generator.one_of(&[0.0, 0.5]);
    let axis = generator.between(0, 2);
    let curve = tilted(coil(vertices as u32, windings, wire), lean, axis as usize);
    let placed = |vertex: [f32; 3]| moved(middle, vertex.map(|x| scale * x));
    curve.into_iter().map(placed).collect()
}
