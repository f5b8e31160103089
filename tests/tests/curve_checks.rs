//! The proved checks of a description with its curve: exactly at each bound, at each place of a curve, in the
//! order of the numbers, and beside the reading of the papers on curves from anywhere.

use togbefulo_tests::{
    additions::fold_at_vertex_0,
    arithmetic::turn,
    curves::{self, MANNERS},
    generator::Generator,
    inputs::{self, any_kind, Extent, KINDS},
    library::{self, UNKNOWN_KIND},
    met::Met,
    paper::{
        curve::{self, LEAST_SQUARE, MOST_SQUARE},
        description::{Description, Fields},
    },
    special_curves::{self, segment_of_square, with_segment, Bend},
};

/// The kinds that have a curve.
const SWEPT: [u32; 5] = [1, 2, 3, 4, SEAMLESS];
const SEAMLESS: u32 = 6;

/// The kinds whose curve is closed.
fn is_closed(kind: u32) -> bool {
    kind == 4 || kind == SEAMLESS
}

/// Sizes that every kind accepts, with any curve.
fn fields(kind: u32) -> Fields {
    Fields {
        kind,
        divisions: 3,
        longitudes: 1,
        centred: false,
        size: 1.0,
        length: 1.0,
    }
}

fn read(fields: Fields, curve: &[f32]) -> u32 {
    match Description::of(fields).map(|description| curve::check(description, curve)) {
        None => UNKNOWN_KIND,
        Some(Ok(())) => 0,
        Some(Err(refusal)) => refusal as u32,
    }
}

/// Compares answers and counts them.
#[derive(Default)]
struct Comparison {
    met: Met,
}

impl Comparison {
    /// With the reading, on any input.
    fn compare(&mut self, fields: Fields, curve: &[f32]) {
        let answer = library::check(fields, curve);
        assert_eq!(answer, read(fields, curve), "{fields:?}, {curve:?}");
        self.met.count(answer);
    }

    /// With the answer for which the input was made, which is the reading's too.
    fn expect(&mut self, fields: Fields, curve: &[f32], expected: u32) {
        assert_eq!(read(fields, curve), expected, "read: {fields:?}, {curve:?}");
        self.compare(fields, curve);
    }

    fn end(&self, name: &str) {
        println!("{name}: {}", self.met);
    }
}

/// Seven vertices round an axis, in which a torus and an open curve find no fault.
fn sound_curve() -> Vec<[f32; 3]> {
    let vertex = |i| {
        let (cos, sin) = turn(i, 7);
        [3.0 * cos, 2.0 * sin, 0.5 * (i % 3) as f32]
    };
    (0..7).map(vertex).collect()
}

#[test]
fn lengths() {
    let mut comparison = Comparison::default();
    let long: Vec<f32> = (0..4098)
        .flat_map(|i| [i as f32, (i % 2) as f32, (i % 3) as f32])
        .collect();
    let lengths = (0..=30).chain(12280..=12294);
    for length in lengths {
        for (kind, _) in KINDS {
            let least = [6, 6, 6, 9, 0, 9][kind as usize - 1];
            let most = if kind == 5 { 0 } else { 12288 };
            let permitted = length % 3 == 0 && (least..=most).contains(&length);
            let expected = if permitted { 0 } else { 10 };
            comparison.expect(fields(kind), &long[..length], expected);
        }
        for kind in [0, 7, u32::MAX] {
            comparison.expect(fields(kind), &long[..length], UNKNOWN_KIND);
        }
    }
    comparison.end("lengths");
}

#[test]
fn values_not_finite_at_each_place() {
    let mut comparison = Comparison::default();
    let patterns = [
        0x7F800000, 0xFF800000, 0x7FC00000, 0xFFC00000, 0x7F800001, 0xFFFFFFFF,
    ];
    let sound = sound_curve().concat();
    for kind in SWEPT {
        comparison.expect(fields(kind), &sound, 0);
        for place in 0..sound.len() {
            for pattern in patterns {
                let mut curve = sound.clone();
                curve[place] = f32::from_bits(pattern);
                comparison.expect(fields(kind), &curve, 11);
            }
        }
    }
    comparison.expect(fields(5), &sound, 10);
    comparison.end("values not finite");
}

/// The number, its two neighbours below and its two above, each with what a segment of that square is answered.
fn round(bound: f32, below: u32, above: u32) -> [(f32, u32); 5] {
    let neighbour = |steps: i32| f32::from_bits(bound.to_bits().wrapping_add_signed(steps));
    [
        (neighbour(-2), below),
        (neighbour(-1), below),
        (bound, 0),
        (neighbour(1), above),
        (neighbour(2), above),
    ]
}

/// Segments next to both bounds, along each axis and both ways, at each place of a curve. Only
/// closed curves have a closing segment.
#[test]
fn segments_next_to_the_bounds() {
    let mut comparison = Comparison::default();
    let shortest = round(LEAST_SQUARE, 12, 0).map(|(square, answer)| (square, answer, 1.0));
    let scale = (1u64 << 36) as f32;
    let longest = round(MOST_SQUARE, 0, 12).map(|(square, answer)| (square, answer, scale));
    for (square, answer, scale) in shortest.into_iter().chain(longest) {
        for (main, minor) in [(0, 1), (0, 2), (1, 0), (1, 2), (2, 0), (2, 1)] {
            let segment = segment_of_square(square, main, minor);
            for place in 0..special_curves::VERTICES {
                let curve = with_segment(segment, scale, place);
                let opposite: Vec<f32> = curve.iter().map(|x| -x).collect();
                for kind in SWEPT {
                    let closing = place == special_curves::VERTICES - 1;
                    let unseen = closing && !is_closed(kind);
                    let expected = if unseen { 0 } else { answer };
                    comparison.expect(fields(kind), &curve, expected);
                    comparison.expect(fields(kind), &opposite, expected);
                }
            }
        }
    }
    comparison.end("segments next to the bounds");
}

/// Ends of a segment between which one or two differences are so large that a product, their sum or the
/// difference itself is infinite; the first is large without that.
const LONG_SEGMENTS: [([f32; 2], [f32; 2]); 7] = [
    ([0.0, 0.0], [1.2e12, 0.0]),
    ([0.0, 0.0], [1.8e19, 0.0]),
    ([0.0, 0.0], [1.9e19, 0.0]),
    ([0.0, 0.0], [1.5e19, -1.5e19]),
    ([0.0, 0.0], [f32::MAX, 0.0]),
    ([f32::MIN, 0.0], [f32::MAX, 0.0]),
    ([f32::MIN, f32::MAX], [f32::MAX, f32::MIN]),
];

#[test]
fn segments_that_overflow() {
    let mut comparison = Comparison::default();
    for (start, end) in LONG_SEGMENTS {
        for axes in [[0, 1, 2], [1, 2, 0], [2, 0, 1]] {
            for place in 0..6 {
                let vertex = |i: usize| {
                    let mut vertex = [0.0; 3];
                    let ends = if i <= place { start } else { end };
                    vertex[axes[0]] = ends[0];
                    vertex[axes[1]] = ends[1];
                    vertex[axes[2]] = (i * i) as f32;
                    vertex
                };
                let curve: Vec<f32> = (0..7).flat_map(vertex).collect();
                for kind in SWEPT {
                    comparison.expect(fields(kind), &curve, 12);
                }
            }
        }
    }
    comparison.end("segments that overflow");
}

/// Bends next to the bound at each vertex. An open curve has none at its ends. Of the closed ones
/// only a seamless torus is asked for the one at vertex 0.
#[test]
fn bends_next_to_a_fold() {
    const LAST: usize = special_curves::VERTICES - 1;
    let mut comparison = Comparison::default();
    let bends = special_curves::bends(&mut Generator::new(14), 60);
    let mut compare = |bend: &Bend, answer: u32| {
        for place in 0..special_curves::VERTICES {
            for kind in SWEPT {
                let seen = match place {
                    0 => kind == SEAMLESS,
                    LAST => is_closed(kind),
                    _ => true,
                };
                let expected = if seen { answer } else { 0 };
                comparison.expect(fields(kind), &bend.curve(place), expected);
            }
        }
    };
    bends.below.iter().for_each(|bend| compare(bend, 13));
    bends.at.iter().for_each(|bend| compare(bend, 0));
    bends.above.iter().for_each(|bend| compare(bend, 0));
    let [below, at, above] = [&bends.below, &bends.at, &bends.above].map(Vec::len);
    println!(
        "bends: {below} of the first refused 1 + c, {at} of exactly 2^-12, {above} of the next"
    );
    assert!(below.min(at).min(above) >= 100);
    comparison.end("bends");
}

/// A fault of a curve and its place.
#[derive(Clone, Copy, Debug)]
struct Fault {
    number: u32,
    place: usize,
}

/// The sound curve with the faults put in, higher numbers first, so that none undoes a lower one.
fn faulty_curve(faults: &[Fault]) -> Vec<f32> {
    let mut curve = sound_curve();
    let vertices = curve.len();
    let mut faults = faults.to_vec();
    faults.sort_by_key(|fault| std::cmp::Reverse(fault.number));
    for Fault { number, place } in faults {
        let next = (place + 1) % vertices;
        let before = curve[(place + vertices - 1) % vertices];
        let at = curve[place];
        match number {
            11 => curve[place][place % 3] = f32::NAN,
            12 => curve[next] = at,
            13 => curve[next] = [0, 1, 2].map(|axis| at[axis] + 0.75 * (before[axis] - at[axis])),
            _ => unreachable!("{number} is no fault of a curve"),
        }
    }
    curve.concat()
}

/// The places at which a kind looks for a fault in the sound curve.
fn places(kind: u32, number: u32) -> std::ops::Range<usize> {
    match (number, is_closed(kind)) {
        (11, _) | (12, true) => 0..7,
        (12, false) => 0..6,
        (_, true) if kind == SEAMLESS => 0..7,
        (_, true) => 1..7,
        (_, false) => 1..6,
    }
}

/// Wherever two faults stand, the lower number is answered.
#[test]
fn lower_numbers_of_a_curve_come_first() {
    let mut comparison = Comparison::default();
    for kind in SWEPT {
        for (low, high) in [(11, 12), (11, 13), (12, 13)] {
            for low_place in places(kind, low) {
                let number = low;
                let low = Fault {
                    number,
                    place: low_place,
                };
                comparison.expect(fields(kind), &faulty_curve(&[low]), number);
                for place in places(kind, high) {
                    let high = Fault {
                        number: high,
                        place,
                    };
                    comparison.expect(fields(kind), &faulty_curve(&[high]), high.number);
                    comparison.expect(fields(kind), &faulty_curve(&[low, high]), number);
                }
            }
        }
    }
    comparison.end("two faults of a curve");
}

const ORDER: [u32; 7] = [10, 20, 21, 22, 11, 12, 13];

/// Any set of faults of sizes and curve is answered with the one that comes first in add's order.
#[test]
fn the_first_refusal_is_answered() {
    let mut comparison = Comparison::default();
    for set in 0..1 << ORDER.len() {
        let chosen = |place: &usize| set >> place & 1 == 1;
        let faults: Vec<u32> = (0..ORDER.len()).filter(chosen).map(|i| ORDER[i]).collect();
        for kind in SWEPT {
            let known = |number: &u32| match number {
                20 => kind != 1,
                21 => kind == 3,
                _ => true,
            };
            let faults: Vec<u32> = faults.iter().copied().filter(known).collect();
            let (fields, curve) = with_faults(kind, &faults);
            let expected = faults.first().copied().unwrap_or(0);
            comparison.expect(fields, &curve, expected);
        }
    }
    comparison.end("sets of faults");
}

fn with_faults(kind: u32, faults: &[u32]) -> (Fields, Vec<f32>) {
    let mut fields = fields(kind);
    let mut of_curve = Vec::new();
    for &number in faults {
        match number {
            20 => fields.divisions = 257,
            21 => fields.longitudes = 257,
            22 => fields.size = -0.0,
            11..=13 => of_curve.push(Fault { number, place: 3 }),
            _ => {}
        }
    }
    let mut curve = faulty_curve(&of_curve);
    if faults.contains(&10) {
        curve.pop();
    }
    (fields, curve)
}

/// Faults at the far end of curves of the most vertices.
#[test]
fn longest_curves() {
    let mut generator = Generator::new(15);
    let mut comparison = Comparison::default();
    for kind in SWEPT {
        let input = inputs::accepted(&mut generator, kind, Extent::Longest);
        comparison.expect(input.fields, &input.curve, 0);
        let last = input.curve.len() - 3;
        let mut short = input.curve.clone();
        short.copy_within(last - 3..last, last);
        comparison.expect(input.fields, &short, 12);
        short[last + 2] = f32::INFINITY;
        comparison.expect(input.fields, &short, 11);
        let mut folded = input.curve.clone();
        folded.copy_within(last - 6..last - 3, last);
        comparison.expect(input.fields, &folded, 13);
        let mut folded = input.curve;
        fold_at_vertex_0(&mut folded);
        comparison.compare(input.fields, &folded);
        if kind == SEAMLESS {
            comparison.expect(input.fields, &folded, 13);
        }
    }
    comparison.end("longest curves");
}

#[test]
fn curves_from_anywhere() {
    let mut generator = Generator::new(16);
    let mut comparison = Comparison::default();
    for _ in 0..400_000 {
        let kind = any_kind(&mut generator);
        let vertices = match kind {
            5 => generator.one_of(&[0, 0, 0, 2]),
            _ => generator.between(1, 9),
        };
        let manner = generator.one_of(&MANNERS);
        let mut curve = curves::draw(&mut generator, manner, vertices as usize);
        disturb(&mut generator, &mut curve);
        let fields = Fields {
            kind,
            divisions: generator.one_of(&[2, 3, 3, 3, 8, 8, 256, 256, 257]),
            longitudes: generator.one_of(&[0, 1, 1, 1, 2, 2, 256, 256, 257]),
            centred: generator.one_in(2),
            size: generator.one_of(&[1.0, 1.0, 1.0, f32::MIN_POSITIVE, f32::MAX, 0.0, f32::NAN]),
            length: generator.one_of(&[1.0, 1.0, 1.0, f32::INFINITY]),
        };
        comparison.compare(fields, &curve);
    }
    comparison.end("curves from anywhere");
    let expected = [0, 10, 11, 12, 13, 20, 21, 22];
    assert_eq!(comparison.met.answers(), expected);
}

/// Now and then puts in any pattern, repeats or bends back to a vertex, folds at vertex 0, or
/// drops a float.
fn disturb(generator: &mut Generator, curve: &mut Vec<f32>) {
    let vertices = curve.len() as u32 / 3;
    if vertices < 3 || !generator.one_in(3) {
        return;
    }
    let place = 3 * generator.between(2, vertices - 1) as usize;
    match generator.between(0, 4) {
        0 => curve[place] = f32::from_bits(generator.word() | generator.one_of(&[0, 0x7F800000])),
        1 => curve.copy_within(place - 3..place, place),
        2 => curve.copy_within(place - 6..place - 3, place),
        3 => fold_at_vertex_0(curve),
        _ => drop(curve.pop()),
    }
}
