//! Descriptions with curves, drawn at random, of which document 01 accepts every one.

use crate::{
    curves::{self, Manner, MANNERS, TINY},
    generator::Generator,
    paper::{
        curve,
        description::{Fields, Input},
    },
};

/// The papers' kinds.
pub const KINDS: [(u32, &str); 6] = [
    (1, "ribbon"),
    (2, "tube"),
    (3, "capsule"),
    (4, "torus"),
    (5, "closed cylinder"),
    (6, "seamless torus"),
];

/// Any of them, as often as another.
pub fn any_kind(generator: &mut Generator) -> u32 {
    generator.one_of(&KINDS).0
}

/// How long a body is along its curve.
#[derive(Clone, Copy)]
pub enum Extent {
    /// A dozen vertices or layers, and a few hundred in one body of 32.
    Usual,
    /// The most that are permitted.
    Longest,
}

/// An input of this kind which document 01 accepts, unless a vertex turns out not to be finite.
pub fn accepted(generator: &mut Generator, kind: u32, extent: Extent) -> Input {
    loop {
        let input = drawn(generator, kind, extent);
        if curve::check(input.description(), &input.curve).is_ok() {
            return input;
        }
    }
}

fn drawn(generator: &mut Generator, kind: u32, extent: Extent) -> Input {
    let fields = fields(generator, kind, extent);
    if kind == 5 {
        let curve = Vec::new();
        return Input { fields, curve };
    }
    let least = if kind == 4 || kind == 6 { 3 } else { 2 };
    let vertices = run(generator, extent).max(least);
    // Over a long lattice some two neighbours are nearly sure to be the same point.
    let manner = loop {
        let manner = generator.one_of(&MANNERS);
        if manner != Manner::Lattice || vertices < 50 {
            break manner;
        }
    };
    let curve = curves::draw(generator, manner, vertices as usize);
    Input { fields, curve }
}

/// Fields that the kind lacks hold anything, since they are ignored.
fn fields(generator: &mut Generator, kind: u32, extent: Extent) -> Fields {
    let mut fields = Fields {
        kind,
        divisions: generator.word(),
        longitudes: generator.word(),
        centred: generator.one_in(2),
        size: size(generator),
        length: f32::from_bits(generator.word()),
    };
    if kind != 1 {
        fields.divisions = usually(generator, (3, 12), (13, 256));
    }
    if kind == 3 {
        fields.longitudes = usually(generator, (0, 6), (7, 256));
    }
    if kind == 5 {
        fields.longitudes = run(generator, extent);
        fields.length = size(generator);
    }
    fields
}

fn run(generator: &mut Generator, extent: Extent) -> u32 {
    match extent {
        Extent::Usual => usually(generator, (1, 13), (14, 400)),
        Extent::Longest => 4096,
    }
}

/// A number of the first range, and in one case of 32 of the second.
fn usually(generator: &mut Generator, usual: (u32, u32), rare: (u32, u32)) -> u32 {
    let range = if generator.one_in(32) { rare } else { usual };
    generator.between(range.0, range.1)
}

/// A positive number: three of eight of about a curve's own size, the others of any.
fn size(generator: &mut Generator) -> f32 {
    let size = match generator.between(0, 7) {
        0 => generator.one_of(&TINY).abs(),
        1 => f32::from_bits(generator.between(1, 0x007FFFFF)),
        2 => f32::from_bits(generator.between(0x72000000, 0x7F7FFFFF)),
        3 => f32::from_bits(generator.between(0x7F000000, 0x7F7FFFFF)),
        4 => f32::from_bits(generator.between(1, 0x7F7FFFFF)),
        _ => generator.power_of_two(-8, 8) * (1.5 + 0.5 * generator.unit()),
    };
    if size > 0.0 {
        size
    } else {
        f32::MAX
    }
}
