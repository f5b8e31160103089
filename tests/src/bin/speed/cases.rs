//! The lists of additions that are timed.

use togbefulo_tests::{
    arithmetic::turn,
    buffers::{Buffers, Lengths},
    generator::Generator,
    inputs::KINDS,
    loops,
    paper::description::{Fields, Input},
};

/// Additions that fill a set exactly.
pub struct Case {
    pub name: String,
    pub list: Vec<Input>,
}

impl Case {
    /// Vertices and triangles of all bodies.
    pub fn counts(&self) -> [usize; 2] {
        let mut totals = [0; 2];
        for input in &self.list {
            let counts = input.description().counts(input.curve.len() / 3);
            for (total, count) in totals.iter_mut().zip(counts.expect("accepted")) {
                *total += count as usize;
            }
        }
        totals
    }

    /// Buffers of exactly the lengths that the bodies need.
    pub fn buffers(&self) -> Buffers {
        let [vertices, triangles] = self.counts();
        let lengths = Lengths {
            table: 1 + 6 * self.list.len(),
            vertices: 3 * vertices,
            triangles: 3 * triangles,
        };
        Buffers::garbage(&mut Generator::new(38), lengths)
    }
}

/// The titles and cases of the table.
pub fn all() -> Vec<(&'static str, Vec<Case>)> {
    let growth = [10, 30, 100, 300, 1_000, 3_000, 4_096].map(capsule);
    vec![
        (
            "a capsule, 32 divisions, L 8, curve vertices:",
            growth.into(),
        ),
        (
            "one body, 24 divisions, 200 curve vertices or layers:",
            kinds(),
        ),
        (
            "one body, 24 divisions, 10 curve vertices:",
            [4, 6].map(|kind| alone(kind, 10)).into(),
        ),
        (
            "a set, 8 to 24 divisions, 10 to 60 curve vertices or layers:",
            vec![set()],
        ),
    ]
}

/// 32 divisions and 8 longitudes along a curve of so many vertices.
pub fn capsule(vertices: u32) -> Case {
    Case {
        name: format!("{vertices}"),
        list: vec![input(3, [32, 8], vertices)],
    }
}

/// One body of each kind.
fn kinds() -> Vec<Case> {
    KINDS.map(|(kind, _)| alone(kind, 200)).into()
}

/// One body: so many curve vertices or layers, 24 divisions, 8 longitudes.
fn alone(kind: u32, run: u32) -> Case {
    let name = KINDS[kind as usize - 1].1;
    Case {
        name: name.to_string(),
        list: vec![input(kind, [24, if kind == 5 { run } else { 8 }], run)],
    }
}

/// 64 bodies of all kinds, 2 to 6 longitudes.
fn set() -> Case {
    let mut generator = Generator::new(39);
    let kinds = KINDS.len() as u32;
    let body = |place: u32| {
        let (kind, run) = (1 + place % kinds, generator.between(10, 60));
        let longitudes = match kind {
            5 => run,
            _ => generator.between(2, 6),
        };
        input(kind, [generator.between(8, 24), longitudes], run)
    };
    Case {
        name: "64 of all kinds".to_string(),
        list: (0..64).map(body).collect(),
    }
}

fn input(kind: u32, [divisions, longitudes]: [u32; 2], vertices: u32) -> Input {
    let fields = Fields {
        kind,
        divisions,
        longitudes,
        centred: true,
        size: 0.75,
        length: 20.0,
    };
    let curve = match kind {
        4 | 6 => coil(vertices),
        5 => Vec::new(),
        _ => helix(vertices),
    };
    Input { fields, curve }
}

/// An open curve: 64 vertices in a turn.
fn helix(vertices: u32) -> Vec<f32> {
    let vertex = |k: u32| {
        let (cos, sin) = turn(k % 64, 64);
        [10.0 * cos, 10.0 * sin, 0.25 * k as f32]
    };
    (0..vertices).flat_map(vertex).collect()
}

/// A closed curve, wound twice round a circle: its frame comes back turned by about a quarter.
fn coil(vertices: u32) -> Vec<f32> {
    let coordinates = loops::coil(vertices, 2, 0.3).into_flattened();
    coordinates.into_iter().map(|x| 10.0 * x).collect()
}
