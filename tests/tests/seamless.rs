//! Tori without a seam: loops whose end twist is known, the twist that the core takes beside all
//! 4,096, folds at vertex 0, and what a seam is.

use togbefulo_tests::{
    additions,
    arithmetic::{first_frame, turn, word, Point},
    buffers::{Buffers, Lengths},
    comparison::{adding, Counts},
    curves::{self, Manner},
    generator::Generator,
    inputs::{self, Extent, KINDS},
    library,
    loops::{self, coil, tilted},
    paper::{
        curve::{self, points, segments, LEAST_OPENING},
        description::{Fields, Input},
        twist::{self, Ends},
        vertices::{frames, vertices},
    },
    special_curves::{self, Bend},
};

const TORUS: u32 = 4;
const SEAMLESS: u32 = 6;

/// Every k that a twist can have.
const TWISTS: std::ops::RangeInclusive<i32> = -2047..=2048;

fn torus(kind: u32, divisions: u32, curve: Vec<f32>) -> Input {
    let fields = Fields {
        kind,
        divisions,
        longitudes: 0,
        centred: false,
        size: 0.25,
        length: 0.0,
    };
    Input { fields, curve }
}

/// Buffers of exactly the size of these bodies and a few elements more, which hold anything.
fn lent(generator: &mut Generator, bodies: &[Input]) -> Buffers {
    let taken = additions::taken(bodies);
    let lengths = Lengths {
        table: taken.table + 3,
        vertices: taken.vertices + 5,
        triangles: taken.triangles + 7,
    };
    Buffers::garbage(generator, lengths)
}

/// The floats of an accepted body. Every element of the buffers is compared with the readings and
/// with the adapted source.
fn added(input: &Input) -> Vec<f32> {
    let list = [input.clone()];
    let lent = lent(&mut Generator::new(73), &list);
    let added = adding::compare(lent, &list, &mut Counts::default());
    assert_eq!(added.answers, [0], "{input:?}");
    let floats = additions::taken(&list).vertices;
    added.left.vertices[..floats].to_vec()
}

/// Every k whose score is at least that of every other. Each is tried against each.
fn best_twists(ends: Ends) -> Vec<i32> {
    let score = |k: i32| {
        let (cos, sin) = twist::part(k, 1, 1);
        ends.c0 * cos + ends.s0 * sin
    };
    let scores: Vec<f32> = TWISTS.map(score).collect();
    let is_best = |&(_, own): &(i32, &f32)| scores.iter().all(|other| own >= other);
    let best = TWISTS.zip(&scores).filter(is_best);
    best.map(|(k, _)| k).collect()
}

/// Every k with which the body by the papers is this one, bit for bit. All bodies are made.
fn twists_of(input: &Input, floats: &[f32]) -> Vec<i32> {
    let is_same = |k: &i32| {
        let body = vertices(input.description(), &input.curve, Some(*k)).into_iter();
        let bits = body.flat_map(|p| [p.x, p.y, p.z]).map(f32::to_bits);
        bits.eq(floats.iter().map(|x| x.to_bits()))
    };
    TWISTS.filter(is_same).collect()
}

/// The twist that the core took, of all 4,096: one that is best gives the body that it left.
fn compare(curve: Vec<f32>) -> i32 {
    let input = torus(SEAMLESS, 3, curve);
    let twists = twists_of(&input, &added(&input));
    let best = best_twists(twist::ends(&input.curve));
    let taken = twists.iter().find(|k| best.contains(k));
    *taken.unwrap_or_else(|| panic!("{twists:?}, and not {best:?}: {input:?}"))
}

/// Every k is the best of some loop: one whose frame comes back turned by k/4096.
#[test]
fn every_twist() {
    for k in TWISTS {
        let curve = loops::with_end_twist(f64::from(k) / 4096.0);
        assert_eq!(twist::best(twist::ends(&curve)), [k]);
        added(&torus(SEAMLESS, 3, curve));
    }
    println!("{} twists, each of a loop of its own", TWISTS.count());
}

/// The ends of the range, 0, the eighths of a turn and their neighbours, with all 4,096 bodies
/// tried.
#[test]
fn every_twist_is_tried() {
    let mut compared = 0;
    for eighth in -4..=4 {
        for k in 512 * eighth - 1..=512 * eighth + 1 {
            if TWISTS.contains(&k) {
                let curve = loops::with_end_twist(f64::from(k) / 4096.0);
                assert_eq!(compare(curve), k);
                compared += 1;
            }
        }
    }
    println!("{compared} loops, each with all twists");
}

/// Half way between two twists both are best. Add may take either; of -2047 and 2048 too, which
/// are neighbours on the circle.
#[test]
fn several_best_twists() {
    for below in [-2048, -1536, -1024, -513, -512, -1, 0, 511, 512, 1024, 2047] {
        let both = [if below == -2048 { 2048 } else { below }, below + 1];
        let turns = (f64::from(below) + 0.5) / 4096.0;
        let mut curves = (-2_000..2_000).map(|units| loops::next_to_end_twist(turns, units));
        let are_best = |curve: &Vec<f32>| {
            let best = twist::best(twist::ends(curve));
            best.len() == 2 && both.iter().all(|k| best.contains(k))
        };
        let curve = curves.find(are_best);
        let taken = compare(curve.unwrap_or_else(|| panic!("no loop between {both:?}")));
        println!("of {both:?} the core takes {taken}");
        assert!(both.contains(&taken));
    }
}

/// The reading's list of the best is what trying each k against each other finds.
#[test]
fn the_best_twists() {
    let mut generator = Generator::new(74);
    let mut several = 0;
    for _ in 0..300 {
        let input = inputs::accepted(&mut generator, SEAMLESS, Extent::Usual);
        let ends = twist::ends(&input.curve);
        let mut best = twist::best(ends);
        best.sort_unstable();
        let tried = best_twists(ends);
        assert_eq!(best, tried, "{ends:?}");
        several += u32::from(best.len() > 1);
    }
    println!("300 loops, {several} with several best twists");
}

/// The source turns the frames by an arctangent; a best k is hardly more than half a step from it.
#[test]
fn the_best_twists_are_next_to_the_arctangent() {
    let mut generator = Generator::new(83);
    let mut farthest = 0.0f64;
    for _ in 0..10_000 {
        let input = inputs::accepted(&mut generator, SEAMLESS, Extent::Usual);
        let steps = 4096.0 * loops::end_twist(&input.curve);
        for k in twist::best(twist::ends(&input.curve)) {
            let around = (steps - f64::from(k)).rem_euclid(4096.0);
            farthest = farthest.max(around.min(4096.0 - around));
        }
    }
    println!("of 10000 loops the best twists are {farthest:.2} steps from the arctangent at most");
    assert!(farthest < 0.6);
}

/// Loops as they are drawn, with all 4,096 bodies tried.
#[test]
fn drawn_loops() {
    let mut generator = Generator::new(75);
    let mut compared = 0;
    for _ in 0..300 {
        let manner =
            generator.one_of(&[Manner::Loop, Manner::Walk, Manner::Lattice, Manner::Brink]);
        let vertices = generator.between(3, 12) as usize;
        let curve = curves::draw(&mut generator, manner, vertices);
        let input = torus(SEAMLESS, 3, curve);
        if curve::check(input.description(), &input.curve).is_ok() {
            compare(input.curve);
            compared += 1;
        }
    }
    println!("{compared} drawn loops, each with all twists");
    assert!(compared > 150);
}

/// In a plane the frame comes back as it was. Three vertices always lie in one.
#[test]
fn planar_loops() {
    let mut generator = Generator::new(76);
    let mut compared = 0;
    for vertices in [3, 4, 5, 8, 24, 100] {
        for axis in 0..3 {
            for lean in [0.0, 0.5, -3.0] {
                let circle = tilted(coil(vertices, 0, 0.0), lean, axis);
                assert_eq!(compare(circle.concat()), 0, "{vertices} round {axis}");
                compared += 1;
            }
        }
    }
    for _ in 0..100 {
        let input = inputs::accepted(&mut generator, SEAMLESS, Extent::Usual);
        let triangle = torus(SEAMLESS, 3, input.curve[..9].to_vec());
        // Bends next to a fold are rounded by more than a small twist.
        let openings = segments(&points(&triangle.curve), true);
        let openings =
            [(0, 1), (1, 2), (2, 0)].map(|(from, to)| curve::opening(openings[from], openings[to]));
        let checked = curve::check(triangle.description(), &triangle.curve);
        if checked.is_ok() && openings.iter().all(|&opening| opening > 0.01) {
            assert_eq!(compare(triangle.curve), 0);
            compared += 1;
        }
    }
    println!("{compared} planar loops, each with all twists");
}

/// Coils wind one way with k below 0 and the other way with k above 0, as far as half a turn.
#[test]
fn helical_loops() {
    let mut compared = 0;
    for vertices in [12, 24, 40] {
        for windings in 2..=3 {
            for wire in [0.05, 0.1, 0.15] {
                let k = compare(coil(vertices, windings, wire).concat());
                let mirrored = compare(coil(vertices, windings, -wire).concat());
                assert!(k < 0 && mirrored == -k, "{k} and {mirrored}");
                compared += 2;
            }
        }
    }
    println!("{compared} coils");
}

/// As many vertices as are permitted: the parts of the twist are those of 2^24 to a turn.
#[test]
fn the_longest_loop() {
    let curve = coil(4_096, 5, 0.3).concat();
    let k = compare(curve.clone());
    println!("a loop of 4096 vertices has the twist {k}");
    let mirrored: Vec<f32> = curve
        .chunks_exact(3)
        .flat_map(|v| [v[0], v[1], -v[2]])
        .collect();
    assert_eq!(compare(mirrored), -k);
}

/// Zigzags of one bend next to the fold, again and again: rounding makes their frame longer or
/// shorter at each bend. The search is for loops whose c0 and s0 overflow or are both 0.
#[test]
fn frames_that_grow_and_shrink() {
    let mut generator = Generator::new(77);
    let mut found = Vec::new();
    for _ in 0..300_000 {
        let Some([to, fro]) = zigzag(&mut generator) else {
            continue;
        };
        // Of 64 bends it shows which make the most of 4,096.
        let loop_of_64 = repeated(to, fro, 64);
        found.push((length(twist::ends(&loop_of_64)), to, fro));
    }
    let searched = found.len();
    found.sort_by(|a, b| a.0.total_cmp(&b.0));
    let [most_shrunk, most_grown] = [&found[..40], &found[found.len() - 40..]];
    let [mut least, mut most] = [f64::MAX, 0.0f64];
    let mut compared = 0;
    for &(_, to, fro) in most_shrunk.iter().chain(most_grown) {
        let input = torus(SEAMLESS, 3, repeated(to, fro, 4_096));
        if curve::check(input.description(), &input.curve).is_ok() {
            added(&input);
            let length = length(twist::ends(&input.curve));
            least = least.min(length);
            most = most.max(length);
            compared += 1;
        }
    }
    println!("{searched} bends searched, the {compared} most extreme made into loops of 4096");
    println!("the length of (c0, s0) is from {least:e} to {most:e}");
    assert!(least < 0.1 && most > 100.0, "the search does not reach far");
    assert!(
        least > 1e-6 && most < 1e6,
        "the search reaches further than it did"
    );
}

fn length(ends: Ends) -> f64 {
    f64::from(ends.c0).hypot(f64::from(ends.s0))
}

/// Two segments in whole numbers, so that sums of them are exact, which meet next to the fold. In
/// one case of two they lie in the plane of x and y, where the first frame is along z, as the
/// bends' axes are.
fn zigzag(generator: &mut Generator) -> Option<[Point; 2]> {
    let flat = generator.one_in(2);
    let mut whole = |most: f32| (most * generator.unit()).round();
    let to = Point::new(whole(4_096.0), whole(4_096.0), whole(4_096.0));
    let other = Point::new(whole(100.0), whole(100.0), whole(100.0));
    let [to, other] = match flat {
        true => [Point::new(to.x, to.y, 0.0), Point::new(0.0, 0.0, 1.0)],
        false => [to, other],
    };
    let aside = to.cross(other).normalize().times(to.norm());
    let part = 0.6 + 0.35 * generator.unit();
    let tilt = 0.0221 * (1.01 + 0.01 * generator.unit());
    let fro = to.times(-part).sum(aside.times(part * tilt));
    let fro = Point::new(fro.x.round(), fro.y.round(), fro.z.round());
    let opening = curve::opening(to, fro);
    (LEAST_OPENING..2.0 * LEAST_OPENING)
        .contains(&opening)
        .then_some([to, fro])
}

/// To and fro through so many vertices; the closing segment comes back from there.
fn repeated(to: Point, fro: Point, vertices: usize) -> Vec<f32> {
    let mut at = Point::new(0.0, 0.0, 0.0);
    let mut curve = Vec::new();
    for place in 0..vertices {
        curve.extend([at.x, at.y, at.z]);
        at = at.sum(if place % 2 == 0 { to } else { fro });
    }
    curve
}

/// A loop whose last segments run straight onto the first one in so many steps, so short that
/// their square is the smallest number of all. Their directions round to another length than 1,
/// and the frame gets longer or shorter with each. Add refuses it (12); the writer of a body alone
/// does not look.
fn with_tiny_steps(step: f32, count: u32) -> Vec<f32> {
    let front = [
        [0.0, 0.0, 0.0],
        [1.0, 0.0, 0.0],
        [1.0, 1.0, 0.5],
        [0.0, 1.0, -0.5],
        [-1.0, 0.5, 0.5],
    ];
    let steps = (1..=count).rev().map(|i| [-step * i as f32, 0.0, 0.0]);
    let curve: Vec<[f32; 3]> = front.into_iter().chain(steps).collect();
    curve.concat()
}

/// How many twists are best of a loop that add refuses (12). The body that the writer makes is
/// that of one of them, and none of its floats is finite where there is none.
fn compare_refused(curve: Vec<f32>) -> usize {
    let input = torus(SEAMLESS, 3, curve);
    assert_eq!(library::check(input.fields, &input.curve), 12);
    let mut floats = vec![0.0; 3 * input.curve.len()];
    let written = library::vertices(input.fields, &input.curve, &mut floats);
    assert!(written, "{input:?}");
    let best = twist::best(twist::ends(&input.curve));
    let is_same = |&k: &i32| {
        let body = vertices(input.description(), &input.curve, Some(k));
        let words = body.into_iter().flat_map(|vertex| vertex.words());
        words.eq(floats.iter().map(|&x| word(x)))
    };
    let none_is_finite = floats.iter().all(|x| !x.is_finite());
    let expected = best.iter().any(is_same) || best.is_empty() && none_is_finite;
    assert!(expected, "{} are best: {input:?}", best.len());
    best.len()
}

/// What no accepted loop is known to give: c0 and s0 so small that many scores are equal, both 0,
/// and finite ones with a score that is not.
#[test]
fn scores_of_refused_loops() {
    assert_eq!(compare_refused(with_tiny_steps(2.7e-23, 150)), 46);
    assert_eq!(compare_refused(with_tiny_steps(2.7e-23, 160)), 341);
    // The square of a segment of 10^30 is infinite, and its direction zero.
    let long = [
        [0.0; 3],
        [1.0, 0.0, 0.0],
        [1.0, 1.0, 1.0],
        [1.0e30, 0.0, 2.0],
    ];
    let ends = twist::ends(&long.concat());
    assert_eq!([ends.c0, ends.s0], [0.0; 2]);
    assert_eq!(compare_refused(long.concat()), 4_096);
    for count in 220..240 {
        let [below, above] = overflowing_steps(count);
        assert_eq!(compare_refused(with_tiny_steps(below, count)), 1);
        assert_eq!(compare_refused(with_tiny_steps(above, count)), 0);
        let ends = twist::ends(&with_tiny_steps(above, count));
        assert!(ends.c0.is_finite() && ends.s0.is_finite(), "{ends:?}");
    }
}

/// The longest tiny step with which all scores are finite, and the next number, with which one is
/// not. It is found by halves.
fn overflowing_steps(count: u32) -> [f32; 2] {
    let overflows = |bits| {
        let curve = with_tiny_steps(f32::from_bits(bits), count);
        twist::best(twist::ends(&curve)).is_empty()
    };
    let [mut low, mut high] = [3.8e-23f32, 4.58e-23].map(f32::to_bits);
    assert!(!overflows(low) && overflows(high));
    while low + 1 < high {
        let middle = low + (high - low) / 2;
        if overflows(middle) {
            high = middle;
        } else {
            low = middle;
        }
    }
    [low, high].map(f32::from_bits)
}

/// A bend at vertex 0 exactly at the bound and one unit to each side, by add: a seamless torus is
/// refused just below it, with every element as it was, and a torus never.
#[test]
fn folds_at_vertex_0() {
    let mut generator = Generator::new(78);
    let bends = special_curves::bends(&mut generator, 20);
    let mut compare = |bend: &Bend, expected: u32| {
        let list = [SEAMLESS, TORUS].map(|kind| torus(kind, 4, bend.curve(0)));
        let lent = lent(&mut generator, &list);
        let added = adding::compare(lent, &list, &mut Counts::default());
        assert_eq!(added.answers, [expected, 0], "{bend:?}");
    };
    bends.below.iter().for_each(|bend| compare(bend, 13));
    bends.at.iter().for_each(|bend| compare(bend, 0));
    bends.above.iter().for_each(|bend| compare(bend, 0));
    let [below, at, above] = [&bends.below, &bends.at, &bends.above].map(Vec::len);
    println!("folds at vertex 0: {below} refused, {at} at the bound, {above} above it");
    assert!(below.min(at).min(above) >= 30);
}

/// A seamless torus at every place among two bodies of any kinds, and any others: all 216 triples.
#[test]
fn between_each_two_kinds() {
    let mut generator = Generator::new(79);
    let mut counts = Counts::default();
    for (first, _) in KINDS {
        for (middle, _) in KINDS {
            for (last, _) in KINDS {
                let list =
                    [first, middle, last].map(|kind| twisted_if_seamless(&mut generator, kind));
                let lent = lent(&mut generator, &list);
                let added = adding::compare(lent, &list, &mut counts);
                assert_eq!(added.answers, [0; 3]);
                counts.lists += 1;
            }
        }
    }
    println!("{} triples of kinds", counts.lists);
    assert_eq!(counts.lists, 216);
    assert_eq!(counts.kinds, [108; KINDS.len()]);
    assert!(counts.twists.negative > 20 && counts.twists.positive > 20);
}

fn twisted_if_seamless(generator: &mut Generator, kind: u32) -> Input {
    match kind {
        SEAMLESS => torus(
            kind,
            4,
            loops::with_end_twist(0.5 * f64::from(generator.unit())),
        ),
        _ => additions::small(generator, kind),
    }
}

/// At vertex 0 the sine of a negative twist is -0, and its sign can be seen in a vertex: where the
/// curve, the frame and the axis across it are all zeros.
#[test]
fn the_sine_at_vertex_0() {
    let mut generator = Generator::new(80);
    let (mut compared, mut seen) = (0, 0);
    for _ in 0..2_000 {
        let zero = |generator: &mut Generator| generator.one_of(&[0.0, -0.0]);
        let mut curve: Vec<f32> = (0..3).map(|_| zero(&mut generator)).collect();
        let axis = generator.between(0, 2) as usize;
        curve.extend((0..3).map(|i| if i == axis { 1.0 } else { zero(&mut generator) }));
        curve.extend((0..9).map(|_| generator.one_of(&[-2.0, -1.0, 1.0, 2.0])));
        let input = torus(SEAMLESS, 4, curve);
        let checked = curve::check(input.description(), &input.curve);
        let best = twist::best(twist::ends(&input.curve));
        if checked.is_err() || best.iter().any(|&k| k >= 0) {
            continue;
        }
        let floats = added(&input);
        let other = first_ring_with_plus_0(&input);
        seen += u32::from(floats[..12].iter().map(|&x| word(x)).ne(other));
        compared += 1;
    }
    println!(
        "{compared} loops with a negative twist, {seen} of them show the sign of their first sine"
    );
    assert!(compared > 300 && seen > 100);
}

/// The words of ring 0 as they would be if the sine there were +0.
fn first_ring_with_plus_0(input: &Input) -> Vec<u32> {
    let segments = segments(&points(&input.curve), true);
    let direction = segments[0].normalize();
    let frame = first_frame(segments[0]);
    assert_eq!(frame.words(), frames(&segments)[0].words());
    let ex = frame.times(0.0).sum(direction.cross(frame).times(1.0));
    let ey = direction.cross(ex);
    let p = points(&input.curve)[0];
    let vertex = |(cos, sin): (f32, f32)| {
        let across = ex.times(cos).sum(ey.times(sin));
        p.sum(across.times(input.fields.size)).words()
    };
    let turns = (0..4).map(|i| turn(i, 4));
    turns.flat_map(vertex).collect()
}

type Xyz = [f64; 3];

fn dot(a: Xyz, b: Xyz) -> f64 {
    a[0] * b[0] + a[1] * b[1] + a[2] * b[2]
}

fn cross(a: Xyz, b: Xyz) -> Xyz {
    [0, 1, 2].map(|axis| {
        let (next, last) = ((axis + 1) % 3, (axis + 2) % 3);
        a[next] * b[last] - a[last] * b[next]
    })
}

fn minus(a: Xyz, b: Xyz) -> Xyz {
    [0, 1, 2].map(|axis| a[axis] - b[axis])
}

fn unit(a: Xyz) -> Xyz {
    a.map(|x| x / dot(a, a).sqrt())
}

/// `a` turned by the least rotation that takes the direction u to the direction w.
fn carried(a: Xyz, u: Xyz, w: Xyz) -> Xyz {
    let (c, q) = (dot(u, w), cross(u, w));
    let across = cross(q, a);
    [0, 1, 2].map(|axis| c * a[axis] + across[axis] + q[axis] * dot(q, a) / (1.0 + c))
}

/// The angle by which each piece of a torus is twisted, the one that closes it last: the spoke
/// from the curve to a ring's first vertex is carried across the bend to the next ring without a
/// twist, and the angle is measured from there to that ring's own spoke.
fn twists_of_pieces(input: &Input) -> Vec<f64> {
    let spokes = added(input);
    let ring = 3 * input.fields.divisions as usize;
    let point = |floats: &[f32]| [floats[0], floats[1], floats[2]].map(f64::from);
    let curve: Vec<Xyz> = input.curve.chunks_exact(3).map(point).collect();
    let count = curve.len();
    let spoke = |g: usize| minus(point(&spokes[g * ring..]), curve[g]);
    let direction = |g: usize| unit(minus(curve[(g + 1) % count], curve[g]));
    let twist = |g: usize| {
        let next = (g + 1) % count;
        let from = carried(spoke(g), direction(g), direction(next));
        let to = spoke(next);
        dot(direction(next), cross(from, to)).atan2(dot(from, to))
    };
    (0..count).map(twist).collect()
}

/// How much more the closing piece is twisted than the others are in the mean, and how far these
/// are from one another.
fn seam(input: &Input) -> [f64; 2] {
    let pieces = twists_of_pieces(input);
    let (closing, others) = pieces.split_last().expect("a piece");
    let mean = others.iter().sum::<f64>() / others.len() as f64;
    let farthest = others.iter().map(|twist| (twist - mean).abs());
    [(closing - mean).abs(), farthest.fold(0.0, f64::max)]
}

/// A torus is not twisted but in the piece that closes it, and there by the whole end twist: this
/// is the jump in its stripes. The pieces of a seamless torus are all twisted alike, the closing
/// one by at most half a step of 1/4096 turn more or less.
#[test]
fn there_is_no_seam() {
    /// For what rounding to `f32` may turn a spoke by, in radians.
    const ROUNDING: f64 = 2e-4;
    let step = std::f64::consts::TAU / 4096.0;
    let mut generator = Generator::new(81);
    let (mut largest, mut compared) = (0.0f64, 0);
    for _ in 0..500 {
        let vertices = generator.between(12, 60);
        let windings = generator.between(2, 4);
        let curve = coil(vertices, windings, 0.4 * generator.unit()).concat();
        let end_twist = std::f64::consts::TAU * loops::end_twist(&curve).abs();
        if end_twist < 0.2 {
            continue;
        }
        let [jump, uneven] = seam(&torus(TORUS, 6, curve.clone()));
        assert!((jump - end_twist).abs() < ROUNDING && uneven < ROUNDING);
        let [jump, uneven] = seam(&torus(SEAMLESS, 6, curve));
        assert!(jump < 0.5 * step + ROUNDING, "{jump} of {end_twist}");
        assert!(uneven < ROUNDING, "{uneven}");
        largest = largest.max(jump);
        compared += 1;
    }
    println!("{compared} loops: a torus jumps by its end twist, of 0.2 radians at least,");
    println!("and a seamless torus by {largest:.5} at most");
    assert!(compared > 200);
}
