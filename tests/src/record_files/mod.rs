//! Files of records for `sweep`, each under the name by which it is stored.

mod ends;
mod entries;
mod exact;
mod example_c;
mod harness;
mod mixed;
mod refusals;
mod sample;

use crate::{
    paper::{
        description::{Fields, Input},
        records,
    },
    sweep,
};
use std::{
    fs,
    path::{Path, PathBuf},
};

/// The example of the README.
pub const EXAMPLE: &str = "harness";

/// What the gate runs `sweep` on: crates/sweep has it as its input.
pub const GATE: &str = "mixed";

/// A file's name, and what makes its bytes.
pub type RecordFile = (&'static str, fn() -> Vec<u8>);

pub const FILES: [RecordFile; 13] = [
    ("sample", sample::file),
    (GATE, mixed::file),
    (EXAMPLE, harness::file),
    ("example_c", example_c::file),
    ("refusals", refusals::file),
    ("entries", entries::file),
    ("exact", exact::file),
    ("count_513", ends::long_curve),
    ("short", ends::short),
    ("short_curve", ends::short_curve),
    ("empty", Vec::new),
    ("unknown", ends::unknown),
    ("unknown_513", ends::long_curve_of_unknown_kind),
];

/// The bytes of the file with this name.
pub fn file(name: &str) -> Option<Vec<u8>> {
    let known = FILES.iter().find(|(known, _)| *known == name);
    known.map(|(_, file)| file())
}

/// Where the file of this name is stored: its records, and what `sweep` makes of them. The
/// example's set is among the examples. Its records are made there from a text by docs/records.py,
/// and tests/scripts compares them with the stored ones.
pub fn stored(name: &str) -> [PathBuf; 2] {
    let tests = Path::new(env!("CARGO_MANIFEST_DIR"));
    let set = match name {
        EXAMPLE => tests.join("../examples"),
        _ => tests.join("records"),
    };
    [
        tests.join("records").join(name).with_extension("records"),
        set.join(name).with_extension("set"),
    ]
}

/// The bytes of both.
pub fn read_stored(name: &str) -> [Vec<u8>; 2] {
    stored(name).map(|path| {
        let bytes = fs::read(&path);
        bytes.unwrap_or_else(|why| panic!("{}: {why}", path.display()))
    })
}

/// A record of this kind; what a kind lacks is 0.
fn record(kind: u32, divisions: u32, longitudes: u32, size: f32, curve: &[[f32; 3]]) -> Input {
    let fields = Fields {
        kind,
        divisions,
        longitudes,
        centred: false,
        size,
        length: 0.0,
    };
    let curve = curve.concat();
    Input { fields, curve }
}

fn ribbon(width: f32, curve: &[[f32; 3]]) -> Input {
    record(1, 0, 0, width, curve)
}

fn tube(divisions: u32, radius: f32, curve: &[[f32; 3]]) -> Input {
    record(2, divisions, 0, radius, curve)
}

fn capsule(divisions: u32, longitudes: u32, radius: f32, curve: &[[f32; 3]]) -> Input {
    record(3, divisions, longitudes, radius, curve)
}

fn torus(divisions: u32, radius: f32, curve: &[[f32; 3]]) -> Input {
    record(4, divisions, 0, radius, curve)
}

fn seamless_torus(divisions: u32, radius: f32, curve: &[[f32; 3]]) -> Input {
    record(6, divisions, 0, radius, curve)
}

/// A loop of four whose closing segment comes back along the first, which a torus lets pass and a
/// seamless torus does not.
fn folded_at_start([a, b, c]: [[f32; 3]; 3]) -> [[f32; 3]; 4] {
    let halfway = [0, 1, 2].map(|axis| 0.5 * (a[axis] + b[axis]));
    [a, b, c, halfway]
}

/// Stands on the ground, or is centred there.
fn closed_cylinder(divisions: u32, layers: u32, centred: bool, sizes: [f32; 2]) -> Input {
    let mut input = record(5, divisions, layers, sizes[0], &[]);
    input.fields.centred = centred;
    input.fields.length = sizes[1];
    input
}

fn bytes(records: &[Input]) -> Vec<u8> {
    let words: Vec<u32> = records.iter().flat_map(records::words).collect();
    sweep::bytes(&words)
}
