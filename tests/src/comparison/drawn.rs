//! What a list is made of: lent buffers that hold anything, and additions.

use crate::{
    additions,
    buffers::{Buffers, Lengths},
    generator::Generator,
    paper::description::Input,
};

pub struct Drawn {
    pub lent: Buffers,
    pub additions: Vec<Input>,
}

pub fn list(generator: &mut Generator) -> Drawn {
    match generator.between(0, 7) {
        0 | 1 => fitted(generator),
        2 => many(generator),
        _ => any(generator),
    }
}

fn any(generator: &mut Generator) -> Drawn {
    let length = generator.between(0, 60);
    let additions = (0..length).map(|_| addition(generator)).collect();
    let lengths = lengths(generator);
    let lent = additions::holding_anything(generator, lengths);
    Drawn { lent, additions }
}

fn addition(generator: &mut Generator) -> Input {
    let mut input = additions::addition(generator);
    if generator.one_in(50) {
        input.fields.kind = generator.one_of(&additions::UNKNOWN_KINDS);
    }
    input
}

/// Mostly some thousand elements and a table of 64 bodies, at times less, and rarely much more.
fn lengths(generator: &mut Generator) -> Lengths {
    let scale = match generator.between(0, 63) {
        0 => 10,
        1..=8 => 0,
        _ => 1,
    };
    Lengths {
        table: match generator.between(0, 7) {
            0 => generator.one_of(&additions::TABLES),
            _ => generator.between(385, 400) as usize,
        },
        vertices: (generator.between(0, 1_000) + scale * generator.between(0, 6_000)) as usize,
        triangles: (generator.between(0, 2_000) + scale * generator.between(0, 10_000)) as usize,
    }
}

/// More small bodies than there are entries, and in one of two cases room for them.
fn many(generator: &mut Generator) -> Drawn {
    let additions: Vec<Input> = (0..70)
        .map(|_| additions::small_of_any_kind(generator))
        .collect();
    let mut lengths = lengths(generator);
    if generator.one_in(2) {
        let all = additions::taken(&additions);
        lengths.vertices = all.vertices;
        lengths.triangles = all.triangles;
    }
    let lent = additions::holding_anything(generator, lengths);
    Drawn { lent, additions }
}

/// Small bodies, and buffers of exactly their size, of one element less or of more; then any additions.
fn fitted(generator: &mut Generator) -> Drawn {
    let count = generator.between(1, 20);
    let mut additions: Vec<Input> = (0..count)
        .map(|_| additions::small_of_any_kind(generator))
        .collect();
    let exact = additions::taken(&additions);
    let lengths = Lengths {
        table: next_to(generator, exact.table, 60),
        vertices: next_to(generator, exact.vertices, 1_000),
        triangles: next_to(generator, exact.triangles, 2_000),
    };
    let more = generator.between(0, 5);
    additions.extend((0..more).map(|_| addition(generator)));
    let lent = additions::holding_anything(generator, lengths);
    Drawn { lent, additions }
}

/// Exactly as much, one element less, or more by a few or by up to `most`.
fn next_to(generator: &mut Generator, exact: usize, most: u32) -> usize {
    match generator.between(0, 5) {
        0 | 1 => exact,
        2 => exact - 1,
        3 => exact + generator.between(1, 6) as usize,
        _ => exact + generator.between(0, most) as usize,
    }
}
