//! The lists of additions: every refusal that a record can meet, more than 64 bodies, damaged tables, additions from
//! anywhere, and bodies that fit exactly or lack one element.

use super::{
    digest::WHOLE,
    script::{Damage, Script},
};
use crate::{
    additions,
    buffers::Lengths,
    generator::Generator,
    paper::{curve, description::Input, records, twist},
    record_files, sweep,
};

pub fn script() -> Script {
    let mut generator = Generator::new(40);
    let mut script = Script::new();
    add_all(&mut script, WHOLE, &refused());
    add_all(&mut script, WHOLE, &many(&mut generator));
    add_all(&mut script, WHOLE, &anything(&mut generator));
    add_damaged(&mut script, &mut generator);
    for last in 1..=6 {
        add_fitted(&mut script, &mut generator, last);
    }
    script
}

fn add_all(script: &mut Script, lent: Lengths, inputs: &[Input]) {
    script.begin(lent);
    inputs.iter().for_each(|input| script.add(input));
}

fn refused() -> Vec<Input> {
    let file = record_files::file("refusals");
    records::read(&sweep::words(&file.expect("a known name")))
}

/// Two ribbons more than there are entries.
fn many(generator: &mut Generator) -> Vec<Input> {
    let ribbon = |_| {
        let mut input = additions::small(generator, 1);
        input.curve.truncate(6);
        input
    };
    (0..66).map(ribbon).collect()
}

/// Drawn additions that have a short record.
fn anything(generator: &mut Generator) -> Vec<Input> {
    let drawn = std::iter::repeat_with(|| additions::addition(generator));
    let short = |input: &Input| input.curve.len().is_multiple_of(3) && input.curve.len() <= 30;
    let fit = drawn.filter(|input| short(input) && !has_several_twists(input));
    fit.take(80).collect()
}

/// Whether a seamless torus has several best twists, of which an addition may take any: what it
/// leaves is not foretold.
fn has_several_twists(input: &Input) -> bool {
    let description = match input.fields.kind {
        6 => input.description(),
        _ => return false,
    };
    curve::check(description, &input.curve).is_ok()
        && twist::permitted(description, &input.curve).len() > 1
}

/// A small body that is foretold.
fn small(generator: &mut Generator, kind: u32) -> Input {
    let mut drawn = std::iter::repeat_with(|| additions::small(generator, kind));
    let found = drawn.find(|input| !has_several_twists(input));
    found.expect("one of an endless list")
}

/// Three bodies and every sort of damage, with a body refused for each and another between them, for its divisions.
fn add_damaged(script: &mut Script, generator: &mut Generator) {
    let bodies = [2, 3, 6].map(|kind| small(generator, kind));
    add_all(script, WHOLE, &bodies);
    let mut other = small(generator, 2);
    other.fields.divisions = 2;
    for damage in damages(additions::taken(&bodies)) {
        script.add_damaged(damage, &additions::small_of_any_kind(generator));
        script.add(&other);
    }
    script.add(&small(generator, 4));
}

/// The entries of the three bodies begin at the words 1, 7 and 13.
fn damages(taken: Lengths) -> [Damage; 14] {
    let shorter = |buffer: usize| {
        let mut lent = WHOLE;
        match buffer {
            0 => lent.table = taken.table - 1,
            1 => lent.vertices = taken.vertices - 1,
            _ => lent.triangles = taken.triangles - 1,
        }
        Damage::Lent(lent)
    };
    [
        Damage::Word(0, 65),
        Damage::Word(0, u32::MAX),
        Damage::Word(1, 0),
        Damage::Word(7, 7),
        Damage::Word(13, 65_537),
        Damage::Word(3, 1),
        Damage::Word(15, u32::MAX),
        Damage::Word(11, 0),
        Damage::Word(16, 1 << 28),
        Damage::Word(18, u32::MAX),
        Damage::Lent(Lengths { table: 0, ..WHOLE }),
        shorter(0),
        shorter(1),
        shorter(2),
    ]
}

/// Two small bodies, the last of this kind, in buffers of exactly their size, then each of these one element shorter.
fn add_fitted(script: &mut Script, generator: &mut Generator, last: u32) {
    let bodies = [1 + last % 6, last].map(|kind| small(generator, kind));
    let exact = additions::taken(&bodies);
    add_all(script, exact, &bodies);
    for lacking in [[1, 0, 0], [0, 1, 0], [0, 0, 1]] {
        let lent = Lengths {
            table: exact.table - lacking[0],
            vertices: exact.vertices - lacking[1],
            triangles: exact.triangles - lacking[2],
        };
        add_all(script, lent, &bodies);
    }
}
