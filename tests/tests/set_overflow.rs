//! Refusal 23 at its brink: the least size or length with which some vertex is not finite, and the number below it,
//! with which all are.

use togbefulo_tests::{
    additions,
    arithmetic::Point,
    buffers::{Buffers, Lengths},
    curves::{self, Manner},
    generator::Generator,
    inputs::KINDS,
    library,
    paper::{curve, description::Input, twist, vertices::vertices},
    readings,
};

/// The radius or width, of a closed cylinder the length.
fn with_size(input: &Input, size: f32) -> Input {
    let mut input = input.clone();
    match input.fields.kind {
        5 => input.fields.length = size,
        _ => input.fields.size = size,
    }
    input
}

/// The vertices by the papers. A curve of which several twists are best is not drawn here.
fn reading(input: &Input) -> Vec<Point> {
    let twist = twist::only(input.description(), &input.curve);
    vertices(input.description(), &input.curve, twist)
}

/// The places of the vertex coordinates that are not finite.
fn not_finite(input: &Input) -> Vec<usize> {
    let floats = reading(input).into_iter();
    let floats = floats.flat_map(|p| [p.x, p.y, p.z]);
    let places = floats.enumerate().filter(|(_, x)| !x.is_finite());
    places.map(|(place, _)| place).collect()
}

/// The least size that overflows, by halves, where the largest does.
fn brink(input: &Input) -> Option<f32> {
    let overflows = |bits| !not_finite(&with_size(input, f32::from_bits(bits))).is_empty();
    let (mut low, mut high) = (1, f32::MAX.to_bits());
    if !overflows(high) {
        return None;
    }
    while low + 1 < high {
        let middle = low + (high - low) / 2;
        if overflows(middle) {
            high = middle;
        } else {
            low = middle;
        }
    }
    Some(f32::from_bits(high))
}

/// A small body along a curve of this manner, a closed cylinder with any number of layers. Nothing where a refusal
/// comes before 23.
fn drawn(generator: &mut Generator, kind: u32, manner: Manner) -> Option<Input> {
    let mut input = additions::small(generator, kind);
    let vertices = input.curve.len() / 3;
    match kind {
        5 => input.fields.longitudes = generator.between(1, 100),
        _ => input.curve = curves::draw(generator, manner, vertices),
    }
    let checked = curve::check(input.description(), &input.curve);
    let twists = || twist::permitted(input.description(), &input.curve);
    (checked.is_ok() && twists().len() == 1).then_some(input)
}

fn compare(generator: &mut Generator, input: &Input) -> u32 {
    let lengths = Lengths {
        table: 7,
        vertices: 2_000,
        triangles: 3_000,
    };
    let mut proved = Buffers::garbage(generator, lengths);
    proved.table[0] = 0;
    let mut read = proved.clone();
    let answer = library::add(input, &mut proved);
    let expected = readings::add(input, &mut read, Some(&proved.vertices));
    assert_eq!(answer, expected, "{input:?}");
    assert!(proved.is_same(&read), "answered {answer}: {input:?}");
    answer
}

/// Both sides of the brink; the places that are not finite, and how many there are in all.
fn compare_brink(generator: &mut Generator, input: &Input) -> Option<(Vec<usize>, usize)> {
    let size = brink(input)?;
    let above = with_size(input, size);
    let below = with_size(input, f32::from_bits(size.to_bits() - 1));
    assert_eq!(compare(generator, &above), 23);
    assert_eq!(compare(generator, &below), 0);
    let length = 3 * reading(&above).len();
    Some((not_finite(&above), length))
}

/// Far out any size that is large enough takes a vertex out of the range.
#[test]
fn far_bodies() {
    let mut generator = Generator::new(34);
    let (mut compared, mut first_vertex) = (0, 0);
    for round in 0..3_600 {
        let (kind, _) = KINDS[round % KINDS.len()];
        let Some(input) = drawn(&mut generator, kind, Manner::Far) else {
            continue;
        };
        if let Some((places, _)) = compare_brink(&mut generator, &input) {
            compared += 1;
            first_vertex += u32::from(places.iter().all(|&place| place < 3));
        }
    }
    println!(
        "{compared} far bodies at the brink, {first_vertex} with the first vertex alone not finite"
    );
    assert!(first_vertex > 0);
}

/// Near a fold a frame gets a little longer than 1, so that the last vertex of all can be the only one.
#[test]
fn bodies_near_a_fold() {
    let mut generator = Generator::new(35);
    let (mut compared, mut last_coordinate) = (0, 0);
    for round in 0..300_000 {
        let kind = [2, 4, 6][round % 3];
        let Some(input) = drawn(&mut generator, kind, Manner::Zigzag) else {
            continue;
        };
        if let Some((places, length)) = compare_brink(&mut generator, &input) {
            compared += 1;
            last_coordinate += u32::from(places == [length - 1]);
        }
    }
    println!("{compared} bodies near a fold, {last_coordinate} with the last coordinate alone not finite");
    assert!(last_coordinate > 0);
}
