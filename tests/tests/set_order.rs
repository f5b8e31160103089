//! Any set of faults of an addition, its table and its buffers is answered with the one that comes first in
//! document 01's order for add, and only 23 alone touches a buffer.

use togbefulo_tests::{
    buffers::{Buffers, Lengths},
    generator::Generator,
    inputs::KINDS,
    library,
    met::Met,
    paper::description::{Fields, Input},
    readings,
};

const ORDER: [u32; 12] = [1, 10, 20, 21, 22, 11, 12, 13, 2, 3, 4, 23];

/// The entry of a body that is in the set already: any kind and n, 5 vertices and 7 triangles of whatever is there.
const ENTRY: [u32; 6] = [2, 99, 0, 5, 0, 7];

/// Seven vertices in a plane far out, so that a size as large takes some vertex of every kind out of the range.
const LOOP: [[f32; 3]; 7] = [
    [3.0, 0.0, f32::MAX],
    [1.0, 2.0, f32::MAX],
    [-1.0, 2.5, f32::MAX],
    [-3.0, 1.0, f32::MAX],
    [-3.0, -1.0, f32::MAX],
    [-1.0, -2.5, f32::MAX],
    [1.0, -2.0, f32::MAX],
];

/// Whether a kind knows the number at all.
fn knows(kind: u32, number: u32) -> bool {
    match number {
        11..=13 => kind != 5,
        20 => kind != 1,
        21 => kind == 3 || kind == 5,
        _ => true,
    }
}

fn input(kind: u32, has: impl Fn(u32) -> bool) -> Input {
    let large = if has(23) { f32::MAX } else { 1.0 };
    let fields = Fields {
        kind,
        divisions: if has(20) { 2 } else { 4 },
        // A length as large as can be overflows at 25 layers.
        longitudes: if has(21) { 4_097 } else { 25 },
        centred: false,
        size: if has(22) { -0.0 } else { large },
        length: large,
    };
    let mut curve = match kind {
        5 => Vec::new(),
        _ => curve(&has),
    };
    if has(10) {
        curve.push(1.0);
    }
    Input { fields, curve }
}

/// The loop with the faults of a curve, all round its vertex 3.
fn curve(has: &impl Fn(u32) -> bool) -> Vec<f32> {
    let mut curve = LOOP;
    let [before, at] = [curve[2], curve[3]];
    if has(13) {
        curve[4] = [0, 1, 2].map(|axis| at[axis] + 0.75 * (before[axis] - at[axis]));
    }
    if has(12) {
        curve[4] = at;
    }
    if has(11) {
        curve[3][1] = f32::NAN;
    }
    curve.concat()
}

/// Buffers that have exactly the room of an addition without a fault, or one element less.
fn lent(generator: &mut Generator, kind: u32, has: impl Fn(u32) -> bool) -> Buffers {
    let sound = input(kind, |_| false);
    let counts = sound.description().counts(sound.curve.len() / 3);
    let [vertices, triangles] = counts.expect("a sound addition");
    let lengths = Lengths {
        table: 13 - usize::from(has(2)),
        vertices: 3 * (5 + vertices) as usize - usize::from(has(3)),
        triangles: 3 * (7 + triangles) as usize - usize::from(has(4)),
    };
    let mut buffers = Buffers::garbage(generator, lengths);
    buffers.table[0] = 1;
    buffers.table[1..7].copy_from_slice(&ENTRY);
    if has(1) {
        buffers.table[1] = 7;
    }
    buffers
}

#[test]
fn the_first_refusal_is_answered() {
    let mut generator = Generator::new(22);
    let mut met = Met::default();
    for (kind, _) in KINDS {
        for set in 0..1u32 << ORDER.len() {
            let place = |number| ORDER.iter().position(|&known| known == number);
            let has = |number| place(number).is_some_and(|place| set >> place & 1 == 1);
            if ORDER
                .iter()
                .any(|&number| has(number) && !knows(kind, number))
            {
                continue;
            }
            let expected = ORDER.into_iter().find(|&number| has(number)).unwrap_or(0);
            let input = input(kind, has);
            let before = lent(&mut generator, kind, has);
            let [mut proved, mut read] = [before.clone(), before.clone()];
            let answer = library::add(&input, &mut proved);
            let reading = readings::add(&input, &mut read, Some(&proved.vertices));
            assert_eq!(reading, expected, "read: {input:?}");
            assert_eq!(answer, expected, "kind {kind}, faults {set:012b}");
            assert!(proved.is_same(&read), "kind {kind}, faults {set:012b}");
            let touched = !proved.is_same(&before);
            assert_eq!(touched, [0, 23].contains(&answer), "answered {answer}");
            met.count(answer);
        }
    }
    println!("sets of faults: {met}");
    assert_eq!(
        met.answers(),
        [0, 1, 2, 3, 4, 10, 11, 12, 13, 20, 21, 22, 23]
    );
}
