//! The Rust that the proved code's time is held to, beside the proved code and the readings of
//! documents 01 and 02: every answer, and every element of all three buffers after each addition.
//! A yardstick that left work out would be none.

use togbefulo_tests::{
    adapted::Source,
    additions,
    arithmetic::turn,
    buffers::{Buffers, Lengths},
    generator::Generator,
    inputs::{self, any_kind, Extent, KINDS},
    library,
    met::Met,
    optimised::{self, plain_search, sse2_search, Ends, Plain, Sse2, Twist},
    paper::{description::Input, twist},
    readings, tables,
};

/// Every number that an addition can get, 1 last.
const ANSWERS: [u32; 13] = [0, 1, 2, 3, 4, 10, 11, 12, 13, 20, 21, 22, 23];

/// Plain, in registers, and the source with the same checks.
const FORMS: [fn(&Input, &mut Buffers) -> u32; 3] = [
    optimised::add::<Plain>,
    optimised::add::<Sse2>,
    optimised::add::<Source>,
];

/// Each form leaves what the core leaves, bit for bit: of several best twists it takes the core's.
fn compare(input: &Input, lent: &mut Buffers, met: &mut Met) {
    let mut core = lent.clone();
    let answer = library::add(input, &mut core);
    for (form, add) in FORMS.into_iter().enumerate() {
        let mut optimised = lent.clone();
        assert_eq!(add(input, &mut optimised), answer, "form {form}: {input:?}");
        let same = optimised.is_same(&core);
        assert!(same, "form {form}, answered {answer}: {input:?}");
    }
    let read = readings::add(input, lent, Some(&core.vertices));
    assert!(read == answer && core.is_same(lent), "{answer}: {input:?}");
    met.count(answer);
}

/// In buffers that hold anything, after a clear, and in one list of four without one.
#[test]
fn lists_of_additions() {
    let mut generator = Generator::new(36);
    let mut met = Met::default();
    for list in 0..1_000 {
        let mut lent = additions::lent(&mut generator);
        if list % 4 > 0 {
            assert_eq!(optimised::clear(&mut lent.table), 0);
        }
        for input in additions::list(&mut generator) {
            compare(&input, &mut lent, &mut met);
        }
    }
    println!("lists of additions, {met}");
    assert_eq!(met.answers(), ANSWERS);
}

/// Tables of which one word may be any.
#[test]
fn damaged_tables() {
    let mut generator = Generator::new(40);
    let mut met = Met::default();
    for _ in 0..3_000 {
        let bodies = generator.between(0, 64);
        let rows = tables::rows(&mut generator, bodies as usize);
        let mut lent = tables::over_garbage(&mut generator, &rows, SPARE);
        if generator.one_in(2) {
            let place = generator.between(0, 6 * bodies) as usize;
            lent.table[place] = generator.word() >> generator.one_of(&[0, 16, 26, 29]);
        }
        let kind = any_kind(&mut generator);
        let input = additions::small(&mut generator, kind);
        compare(&input, &mut lent, &mut met);
    }
    println!("damaged tables, {met}");
    assert_eq!(met.answers(), [0, 1, 2, 3, 4]);
}

/// Room for most bodies.
const SPARE: Lengths = Lengths {
    table: 6,
    vertices: 70,
    triangles: 100,
};

/// Sets that are full to the last element, so that nothing may be written past a body.
#[test]
fn bodies_that_fit_exactly() {
    let mut generator = Generator::new(37);
    let mut met = Met::default();
    for (kind, _) in KINDS {
        for round in 0..500 {
            let extent = match round {
                0 => Extent::Longest,
                _ => Extent::Usual,
            };
            let input = inputs::accepted(&mut generator, kind, extent);
            let counts = input.description().counts(input.curve.len() / 3);
            let [vertices, triangles] = counts.expect("accepted").map(|count| 3 * count as usize);
            let lengths = Lengths {
                table: 7,
                vertices,
                triangles,
            };
            let mut lent = Buffers::garbage(&mut generator, lengths);
            lent.table[0] = 0;
            compare(&input, &mut lent, &mut met);
        }
    }
    println!("bodies that fit exactly, {met}");
    assert_eq!(met.answers(), [0, 23]);
}

/// The search for the twist finds the first of the best, as the paper's reading lists them: for any
/// two numbers, and for such as a loop's ends have.
#[test]
fn twists() {
    let mut generator = Generator::new(41);
    let (mut several, mut none) = (0, 0);
    for _ in 0..60_000 {
        let ends = ends(&mut generator);
        let best = twist::best(twist::Ends {
            c0: ends.c0,
            s0: ends.s0,
        });
        for search in [plain_search, sse2_search] {
            let found = search(ends).map(number);
            assert_eq!(found, best.first().copied(), "{ends:?}");
        }
        several += usize::from(best.len() > 1);
        none += usize::from(best.is_empty());
    }
    println!("twists: {several} of 60000 with several best, {none} with none");
    assert!(several > 2_000 && none > 2_000);
}

fn number(twist: Twist) -> i32 {
    let steps = twist.steps as i32;
    if twist.backward {
        -steps
    } else {
        steps
    }
}

/// On or next to the direction of a k, or halfway between two, at any size, and any two numbers.
fn ends(generator: &mut Generator) -> Ends {
    if generator.one_in(4) {
        let [c0, s0] = [generator.word(), generator.word()].map(f32::from_bits);
        return Ends { c0, s0 };
    }
    let halves = generator.between(0, 8191);
    let (cos, sin) = turn(halves, 8192);
    let scale = match generator.between(0, 5) {
        0 => generator.power_of_two(-126, 127),
        1 => f32::from_bits(generator.between(1, 0x007FFFFF)),
        2 => f32::MAX,
        _ => 1.5 + 0.5 * generator.unit(),
    };
    let mut near =
        |x: f32| f32::from_bits((x * scale).to_bits().wrapping_add(generator.between(0, 4)));
    Ends {
        c0: near(cos),
        s0: near(sin),
    }
}
