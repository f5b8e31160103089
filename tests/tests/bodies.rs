//! The proved vertices beside those of the adapted del-msh functions and of the reading of the
//! papers, bit for bit, what they leave untouched, and what they refuse.

use std::fmt;
use togbefulo_tests::{
    adapted,
    arithmetic::word,
    census::Census,
    generator::Generator,
    inputs::{self, Extent, KINDS},
    library,
    paper::{
        description::{Description, Fields, Input},
        twist::{self, Twist},
        vertices::vertices,
    },
};

/// What was compared, and what was met on the way.
#[derive(Default)]
struct Comparison {
    bodies: [u64; KINDS.len()],
    not_finite: u64,
    /// Bodies of kind 6 of which several k are best, and such of which none is.
    several_twists: u64,
    no_twist: u64,
    differing: u64,
    example: Option<Input>,
    coordinates: Census,
    sizes: Census,
    vertices: Census,
}

impl fmt::Display for Comparison {
    fn fmt(&self, f: &mut fmt::Formatter) -> fmt::Result {
        for ((_, name), bodies) in KINDS.iter().zip(self.bodies) {
            writeln!(f, "  {bodies} of the kind {name}")?;
        }
        writeln!(f, "  curves, {}", self.coordinates)?;
        writeln!(f, "  sizes, {}", self.sizes)?;
        writeln!(f, "  vertices, {}", self.vertices)?;
        writeln!(f, "  {} bodies hold a float not finite", self.not_finite)?;
        let [several, none] = [self.several_twists, self.no_twist];
        writeln!(
            f,
            "  of {several} bodies several k are best, of {none} none is"
        )?;
        write!(
            f,
            "  {} floats compared with del-msh and with the papers, {} differ",
            self.vertices.floats(),
            self.differing
        )
    }
}

impl Comparison {
    /// The body's vertices in a slice that is longer by `spare`, whose end must come back untouched.
    fn compare(&mut self, input: &Input, spare: usize) {
        let body = input.description().body(input.curve.len() / 3);
        let length = 3 * body.expect("a permitted body").vertex_count() as usize;
        let before = garbage(length + spare);
        let mut after = before.clone();
        let written = library::vertices(input.fields, &input.curve, &mut after);
        assert!(written, "{input:?}: refused");
        let (given, rest) = after.split_at(length);
        assert!(same_bits(rest, &before[length..]), "{input:?}: rest");
        let differing = self.differing(input, given);
        self.differing += differing as u64;
        if differing > 0 {
            self.example.get_or_insert(input.clone());
        }
        self.count(input, given);
    }

    /// How many floats differ. Of kind 6 it is with the best twist with which the fewest do, since
    /// add may take any of them, and where no twist is best every finite float is wrong.
    fn differing(&mut self, input: &Input, given: &[f32]) -> usize {
        let twists = twist::permitted(input.description(), &input.curve);
        self.several_twists += u64::from(twists.len() > 1);
        self.no_twist += u64::from(twists.is_empty());
        let differing = twists
            .into_iter()
            .map(|twist| differing_with(input, twist, given));
        let finite = || given.iter().filter(|x| x.is_finite()).count();
        differing.min().unwrap_or_else(finite)
    }

    fn count(&mut self, input: &Input, vertices: &[f32]) {
        self.bodies[input.fields.kind as usize - 1] += 1;
        self.not_finite += u64::from(!vertices.iter().all(|x| x.is_finite()));
        self.coordinates.count_all(&input.curve);
        self.sizes.count(input.fields.size);
        if input.fields.kind == 5 {
            self.sizes.count(input.fields.length);
        }
        self.vertices.count_all(vertices);
    }

    fn end(self, name: &str) {
        println!("{name}:\n{self}");
        assert_eq!(self.differing, 0, "one of them: {:?}", self.example);
    }
}

/// How many floats are not those of the reading and of the adapted functions with this twist.
fn differing_with(input: &Input, twist: Twist, given: &[f32]) -> usize {
    let reading = vertices(input.description(), &input.curve, twist);
    let reading: Vec<u32> = reading.iter().flat_map(|vertex| vertex.words()).collect();
    let source = adapted::body(input.description(), &input.curve, twist);
    let source: Vec<u32> = source.1.as_flattened().iter().map(|&x| word(x)).collect();
    let lengths = [source.len(), reading.len()];
    assert_eq!(lengths, [given.len(); 2], "{input:?}: lengths");
    let expected = source.iter().zip(&reading);
    let differ = given.iter().zip(expected);
    let differ = differ.filter(|&(&x, both)| both != (&word(x), &word(x)));
    differ.count()
}

/// Any patterns, NaNs among them.
fn garbage(length: usize) -> Vec<f32> {
    let words = Generator::new(length as u64).words(length);
    words.into_iter().map(f32::from_bits).collect()
}

/// Untouched memory keeps the very bits of a NaN.
fn same_bits(left: &[f32], right: &[f32]) -> bool {
    left.iter()
        .map(|x| x.to_bits())
        .eq(right.iter().map(|x| x.to_bits()))
}

/// Lends a copy of `before`; it must come back untouched.
fn compare_refused(fields: Fields, curve: &[f32], before: &[f32]) {
    let mut after = before.to_vec();
    let written = library::vertices(fields, curve, &mut after);
    let given = curve.len();
    assert!(!written, "{fields:?} with {given} coordinates: written");
    assert!(
        same_bits(&after, before),
        "{fields:?} with {given} coordinates: touched"
    );
}

/// Slices too short by one float, by one vertex, and empty.
fn compare_short(input: &Input) {
    let body = input.description().body(input.curve.len() / 3);
    let exact = 3 * body.expect("a permitted body").vertex_count() as usize;
    let before = garbage(exact - 1);
    for short in [exact - 1, exact - 3, 0] {
        compare_refused(input.fields, &input.curve, &before[..short]);
    }
}

const BODIES_OF_A_KIND: usize = 5_000;

#[test]
fn accepted_bodies() {
    let mut generator = Generator::new(7);
    let mut comparison = Comparison::default();
    for (kind, _) in KINDS {
        for _ in 0..BODIES_OF_A_KIND {
            let input = inputs::accepted(&mut generator, kind, Extent::Usual);
            assert_eq!(library::check(input.fields, &input.curve), 0, "{input:?}");
            let spare = generator.between(0, 7) as usize;
            comparison.compare(&input, spare);
            compare_short(&input);
        }
    }
    comparison.end("accepted bodies");
}

/// Each kind with as many curve vertices or layers as are permitted, a few times, and once with the most
/// divisions and longitudes too.
#[test]
fn longest_bodies() {
    let mut generator = Generator::new(8);
    let mut comparison = Comparison::default();
    for (kind, _) in KINDS {
        for round in 0..4 {
            let mut input = inputs::accepted(&mut generator, kind, Extent::Longest);
            if round == 0 {
                input.fields.divisions = 256;
            }
            if round == 0 && kind == 3 {
                input.fields.longitudes = 256;
            }
            assert_eq!(library::check(input.fields, &input.curve), 0, "{kind}");
            comparison.compare(&input, 5);
            compare_short(&input);
        }
    }
    comparison.end("longest bodies");
}

/// Lengths so large that a ring is infinite though the poles are not, and so small that their half is a zero.
#[test]
fn closed_cylinders_of_extreme_lengths() {
    let patterns = [
        0x7F7FFFFF, 0x7F7FFFFE, 0x7F7FFFF0, 0x00000001, 0x00000002, 0x00000003,
    ];
    let mut comparison = Comparison::default();
    for layers in 1..=128 {
        for length in patterns.map(f32::from_bits) {
            for centred in [false, true] {
                let fields = Fields {
                    kind: 5,
                    divisions: 3,
                    longitudes: layers,
                    centred,
                    size: 1.0,
                    length,
                };
                let curve = Vec::new();
                comparison.compare(&Input { fields, curve }, 1);
            }
        }
    }
    assert!(comparison.not_finite > 0, "no length overflowed");
    assert!(comparison.vertices.has_minus_zeros(), "no pole was at -0");
    comparison.end("closed cylinders of extreme lengths");
}

/// The writer looks at no float: where the numbers are permitted it writes for any floats. Where
/// no k of kind 6 is best, it leaves no finite one, so that add refuses the body with 23.
#[test]
fn bodies_of_any_floats() {
    let mut generator = Generator::new(9);
    let mut comparison = Comparison::default();
    for (kind, _) in KINDS {
        for _ in 0..2_000 {
            let mut input = inputs::accepted(&mut generator, kind, Extent::Usual);
            let wild = generator.one_of(&[1, 3, 20]);
            for x in input.curve.iter_mut().chain([&mut input.fields.size]) {
                if generator.one_in(wild) {
                    *x = any_float(&mut generator);
                }
            }
            input.fields.length = any_float(&mut generator);
            comparison.compare(&input, 3);
        }
    }
    comparison.end("bodies of any floats");
}

fn any_float(generator: &mut Generator) -> f32 {
    let special = [f32::NAN, f32::INFINITY, f32::NEG_INFINITY, 0.0, -0.0];
    if generator.one_in(3) {
        generator.one_of(&special)
    } else {
        f32::from_bits(generator.word())
    }
}

/// Numbers at and outside each limit; all that wrap or are cut at 16 bits to permitted ones among them.
const NUMBERS: [u32; 13] = [
    0,
    1,
    2,
    3,
    256,
    257,
    4096,
    4097,
    65536,
    65539,
    1 << 31,
    (1 << 31) + 1,
    u32::MAX,
];
const CURVE_LENGTHS: [usize; 15] = [0, 1, 2, 3, 4, 5, 6, 7, 8, 9, 10, 12285, 12288, 12290, 12291];

#[test]
fn numbers_outside_are_refused() {
    let curve = garbage(12291);
    let before = garbage(100_000);
    let mut refused = 0;
    for kind in [0, 1, 2, 3, 4, 5, 6, 7, 257, u32::MAX] {
        for divisions in NUMBERS {
            for longitudes in NUMBERS {
                let fields = Fields {
                    kind,
                    divisions,
                    longitudes,
                    centred: divisions % 2 == 0,
                    size: 1.0,
                    length: 1.0,
                };
                let outside = CURVE_LENGTHS
                    .into_iter()
                    .filter(|&length| !is_permitted(fields, length));
                for length in outside {
                    compare_refused(fields, &curve[..length], &before);
                    refused += 1;
                }
            }
        }
    }
    println!("{refused} bodies of numbers outside compared");
    assert!(refused > 20_000, "only {refused}");
}

fn is_permitted(fields: Fields, curve_length: usize) -> bool {
    let permitted = |description: Description| description.body(curve_length / 3).is_ok();
    curve_length.is_multiple_of(3) && Description::of(fields).is_some_and(permitted)
}
