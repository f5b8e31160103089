//! Prints how many elements the program `neighbours` compares: of the bodies, by document 01's counts, and past
//! them, by what is left of the buffers. The cases are the program's, and none of them is refused; none of the
//! elements may differ. The last line is of five words that the program writes down itself, two of them wrong.

use togbefulo_tests::{
    arithmetic::Point,
    paper::{
        curve::check,
        description::{Description, Fields},
        twist,
        vertices::vertices,
    },
};

/// The elements of the table, of the vertex buffer and of the triangle buffer.
const TABLE: usize = 385;
const VERTICES: usize = 12_288;
const TRIANGLES: usize = 12_288;

/// A linear congruential generator by its state.
#[derive(Clone, Copy)]
struct State(u32);

impl State {
    fn next(self) -> State {
        State(self.0.wrapping_mul(1_664_525).wrapping_add(1_013_904_223))
    }

    /// A number below `n`, out of the upper half.
    fn below(self, n: u32) -> u32 {
        (self.0 >> 16) % n
    }
}

/// What the first body is drawn from. From here no seamless torus has several best twists.
const FIRST_STATE: State = State(644);

/// A body, and what its curve is drawn from.
#[derive(Clone, Copy)]
struct Case {
    fields: Fields,
    vertices: u32,
    seed: State,
}

impl Case {
    /// The coordinates of the curve, three a vertex.
    fn curve(self) -> Vec<f32> {
        if matches!(self.fields.kind, 4 | 6) {
            closed_curve(self.vertices, self.seed)
        } else {
            open_curve(self.vertices, self.seed)
        }
    }

    /// Vertices and triangles of a body that nothing refuses. A seamless torus has only one best
    /// twist, so that it is the same body in the set and alone.
    fn counts(self) -> [usize; 2] {
        let curve = self.curve();
        let description = Description::of(self.fields).expect("a kind of the paper");
        check(description, &curve).expect("a case that is accepted");
        let twist = twist::only(description, &curve);
        let mut drawn = vertices(description, &curve, twist).into_iter();
        let finite = |p: Point| [p.x, p.y, p.z].into_iter().all(f32::is_finite);
        assert!(drawn.all(finite), "a vertex that is not finite");
        let counts = description.counts(curve.len() / 3);
        counts.expect("counts").map(|count| count as usize)
    }
}

fn eighths(count: u32) -> f32 {
    count as f32 / 8.0
}

/// x and y wander, z rises.
fn open_curve(vertices: u32, seed: State) -> Vec<f32> {
    let (mut state, mut z) = (seed, 0);
    let mut curve = Vec::new();
    for _ in 0..vertices {
        let x = state.next();
        let y = x.next();
        state = y.next();
        curve.extend([x.below(16), y.below(16), z].map(eighths));
        z += 2 + state.below(8);
    }
    curve
}

/// Seen along z an arch over its closing segment: y is a product that is 0 at both ends; z wanders.
fn closed_curve(vertices: u32, seed: State) -> Vec<f32> {
    let mut state = seed;
    let mut curve = Vec::new();
    for i in 0..vertices {
        state = state.next();
        let y = i * (vertices - 1 - i);
        curve.extend([4 * i, 4 * y, state.below(16)].map(eighths));
    }
    curve
}

/// Each place among the three has its own sizes and its own curve.
fn small_case(kind: u32, place: u32) -> Case {
    Case {
        fields: Fields {
            kind,
            divisions: 3 + place,
            longitudes: 1 + place,
            centred: place == 1,
            size: eighths(2 + place),
            length: eighths(5 + place),
        },
        vertices: if kind == 5 { 0 } else { 3 + place },
        seed: State(place),
    }
}

fn triples_of_kinds() -> Vec<[Case; 3]> {
    let triple = |number: u32| {
        let (first, middle, last) = (number / 36, number / 6 % 6, number % 6);
        [
            small_case(1 + first, 0),
            small_case(1 + middle, 1),
            small_case(1 + last, 2),
        ]
    };
    (0..216).map(triple).collect()
}

/// A case takes seven states, and its curve is drawn from the eighth.
fn drawn_case(state: State) -> Case {
    let round = state.next();
    let along = round.next();
    let steps = along.next();
    let centred = steps.next();
    let size = centred.next();
    let length = size.next();
    let kind = 1 + state.below(6);
    let vertices = match kind {
        4 | 6 => 3 + along.below(15),
        5 => 0,
        _ => 2 + along.below(16),
    };
    let longitudes = if vertices < 4 {
        1 + steps.below(8)
    } else {
        steps.below(9)
    };
    Case {
        fields: Fields {
            kind,
            divisions: 3 + round.below(20),
            longitudes,
            centred: centred.below(2) == 1,
            size: eighths(1 + size.below(16)),
            length: eighths(1 + length.below(16)),
        },
        vertices,
        seed: length.next(),
    }
}

/// Each case is drawn from the seed of the one before.
fn drawn_triples(count: usize) -> Vec<[Case; 3]> {
    let mut state = FIRST_STATE;
    let mut draw = || {
        let case = drawn_case(state);
        state = case.seed;
        case
    };
    (0..count).map(|_| [draw(), draw(), draw()]).collect()
}

/// The elements of the three bodies, with their entries and word 0, and those past them.
fn elements(triple: [Case; 3]) -> [usize; 2] {
    let (mut coordinates, mut indices) = (0, 0);
    for [vertices, triangles] in triple.map(Case::counts) {
        coordinates += 3 * vertices;
        indices += 3 * triangles;
    }
    let entries = 1 + 6 * triple.len();
    let past = [TABLE - entries, VERTICES - coordinates, TRIANGLES - indices];
    [entries + coordinates + indices, past.into_iter().sum()]
}

fn line(name: &str, triples: &[[Case; 3]]) -> String {
    let (mut bodies, mut past) = (0, 0);
    for &triple in triples {
        let elements = elements(triple);
        bodies += elements[0];
        past += elements[1];
    }
    let count = triples.len();
    format!("{name}: {count} triples, {bodies} elements of bodies, {past} past them, 0 differ")
}

fn main() {
    println!("{}", line("kinds", &triples_of_kinds()));
    println!("{}", line("drawn", &drawn_triples(400)));
    println!("wrong: 0 triples, 3 elements of bodies, 2 past them, 2 differ");
}
