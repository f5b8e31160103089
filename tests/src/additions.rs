//! Additions drawn at random, so that document 01's refusals and accepted bodies all occur.

use crate::{
    buffers::{Buffers, Lengths},
    curves::{self, Manner},
    generator::Generator,
    inputs::{self, any_kind, Extent},
    paper::{
        curve,
        description::{Fields, Input},
    },
    tables,
};

/// What an addition is meant to meet. Numbers and rooms can overrule it.
#[derive(Clone, Copy, Debug)]
enum Aim {
    Small,
    Usual,
    Fault,
    Large,
    Overflow,
}

const AIMS: [Aim; 8] = [
    Aim::Small,
    Aim::Small,
    Aim::Usual,
    Aim::Usual,
    Aim::Fault,
    Aim::Fault,
    Aim::Large,
    Aim::Overflow,
];

/// A list of additions: of any sort, or of small bodies that find no fault but the number of entries.
pub fn list(generator: &mut Generator) -> Vec<Input> {
    if generator.one_in(8) {
        return (0..70).map(|_| small_of_any_kind(generator)).collect();
    }
    let length = generator.between(0, 40);
    (0..length).map(|_| addition(generator)).collect()
}

/// For no body, for a few, and next to the 385 words of 64.
pub const TABLES: [usize; 12] = [1, 6, 7, 13, 31, 100, 384, 385, 385, 386, 391, 400];

pub fn lent(generator: &mut Generator) -> Buffers {
    let lengths = lengths(generator);
    holding_anything(generator, lengths)
}

/// Lent buffers that hold anything, and in one of two cases a table of contents, as far as there is room for it.
pub fn holding_anything(generator: &mut Generator, lengths: Lengths) -> Buffers {
    let mut lent = Buffers::garbage(generator, lengths);
    if generator.one_in(2) {
        let bodies = generator.between(0, 64) as usize;
        let table = tables::table(&tables::rows(generator, bodies));
        let held = table.len().min(lengths.table);
        lent.table[..held].copy_from_slice(&table[..held]);
    }
    lent
}

/// Lengths of lent buffers, too short for most lists or long enough.
pub fn lengths(generator: &mut Generator) -> Lengths {
    let mut length = || match generator.between(0, 3) {
        0 => generator.between(0, 1_000) as usize,
        _ => generator.between(1_000, 20_000) as usize,
    };
    let [vertices, triangles] = [length(), length()];
    Lengths {
        table: generator.one_of(&TABLES),
        vertices,
        triangles,
    }
}

/// Kinds that are none of the paper's, some of which are one once they are cut to 8 or 16 bits.
pub const UNKNOWN_KINDS: [u32; 7] = [0, 7, 8, 257, 65_542, 1 << 31, u32::MAX];

pub fn addition(generator: &mut Generator) -> Input {
    match generator.one_of(&AIMS) {
        Aim::Small => small_of_any_kind(generator),
        Aim::Usual => usual(generator),
        Aim::Fault => faulty(generator),
        Aim::Large => large(generator),
        Aim::Overflow => overflow(generator),
    }
}

fn usual(generator: &mut Generator) -> Input {
    let kind = any_kind(generator);
    inputs::accepted(generator, kind, Extent::Usual)
}

/// An accepted body of as few vertices as the kind can have, or hardly more.
pub fn small(generator: &mut Generator, kind: u32) -> Input {
    let fields = Fields {
        kind,
        divisions: generator.between(3, 4),
        longitudes: generator.between(1, 2),
        centred: generator.one_in(2),
        size: generator.power_of_two(-3, 3),
        length: generator.power_of_two(-3, 3),
    };
    let vertices = match kind {
        5 => 0,
        6 => generator.between(3, 5),
        _ => generator.between(3, 4),
    };
    let manner = match kind {
        4 | 6 => generator.one_of(&[Manner::Hose, Manner::Loop]),
        _ => Manner::Hose,
    };
    // A torus may fold where it closes.
    loop {
        let curve = curves::draw(generator, manner, vertices as usize);
        let input = Input { fields, curve };
        if curve::check(input.description(), &input.curve).is_ok() {
            return input;
        }
    }
}

pub fn small_of_any_kind(generator: &mut Generator) -> Input {
    let kind = any_kind(generator);
    small(generator, kind)
}

/// What a set of these bodies takes up, each of which is accepted.
pub fn taken(additions: &[Input]) -> Lengths {
    let mut taken = Lengths {
        table: 1,
        vertices: 0,
        triangles: 0,
    };
    for input in additions {
        let counts = input.description().counts(input.curve.len() / 3);
        let [vertices, triangles] = counts.expect("an accepted body");
        taken.table += 6;
        taken.vertices += 3 * vertices as usize;
        taken.triangles += 3 * triangles as usize;
    }
    taken
}

/// Many divisions, longitudes or layers.
fn large(generator: &mut Generator) -> Input {
    let mut input = small_of_any_kind(generator);
    input.fields.divisions = generator.between(5, 256);
    input.fields.longitudes = match input.fields.kind {
        5 => generator.one_of(&[1, 20, 4_096]),
        _ => generator.between(0, 256),
    };
    input
}

/// Sizes with which vertices come out infinite, or nearly.
fn overflow(generator: &mut Generator) -> Input {
    let mut input = small_of_any_kind(generator);
    if input.fields.kind == 5 {
        input.fields.longitudes = generator.one_of(&[2, 25, 31]);
        input.fields.length = f32::MAX;
    } else {
        let vertices = input.curve.len() / 3;
        input.curve = curves::draw(generator, Manner::Far, vertices);
        input.fields.size = f32::MAX * generator.one_of(&[0.125, 0.5, 1.0]);
    }
    input
}

/// One fault, and in one of three two.
fn faulty(generator: &mut Generator) -> Input {
    let mut input = usual(generator);
    spoil(generator, &mut input);
    if generator.one_in(3) {
        spoil(generator, &mut input);
    }
    input
}

/// Puts in what one of the numbers 10 to 13 and 20 to 23 refuses, where the kind knows it.
fn spoil(generator: &mut Generator, input: &mut Input) {
    let vertices = input.curve.len() / 3;
    match generator.between(0, 9) {
        0 => input.curve.push(1.0),
        1 => input.curve.truncate(generator.between(0, 8) as usize),
        2 => input.fields.divisions = generator.one_of(&[0, 2, 257, 65_539, u32::MAX]),
        3 => input.fields.longitudes = generator.one_of(&[0, 257, 4_097, 1 << 31, u32::MAX]),
        4 => input.fields.size = generator.one_of(&[0.0, -0.0, -1.0, f32::NAN, f32::INFINITY]),
        5 => input.fields.length = generator.one_of(&[0.0, -1.0, f32::NAN, f32::MAX]),
        _ if vertices < 3 => input.curve.extend([0.0; 3]),
        6 => fold_at_vertex_0(&mut input.curve),
        number => {
            let place = 3 * generator.between(2, vertices as u32 - 1) as usize;
            match number {
                7 => input.curve[place] = f32::from_bits(generator.word() | 0x7F800000),
                8 => input.curve.copy_within(place - 3..place, place),
                _ => input.curve.copy_within(place - 6..place - 3, place),
            }
        }
    }
}

/// Puts the last vertex on the first segment, so that the closing one comes back along it. Kind 6
/// alone looks there.
pub fn fold_at_vertex_0(curve: &mut [f32]) {
    let last = curve.len() - 3;
    for axis in 0..3 {
        curve[last + axis] = curve[axis] + 0.75 * (curve[3 + axis] - curve[axis]);
    }
}
