//! Which way triangles face. Those of a capsule, a torus, seamless or not, a closed cylinder and a
//! tube face outwards: no directed edge is used twice (demand 3), so that the triangles of a body
//! all face outwards or all inwards, and the sign of its volume tells which. A ribbon has no
//! outside; which side its triangles face is measured at each of them.

use togbefulo_tests::{
    generator::Generator,
    library,
    paper::description::{Fields, Input},
};

type Xyz = [f64; 3];

fn minus(a: Xyz, b: Xyz) -> Xyz {
    [0, 1, 2].map(|axis| a[axis] - b[axis])
}

/// `a` and so much of `b`.
fn plus(a: Xyz, b: Xyz, factor: f64) -> Xyz {
    [0, 1, 2].map(|axis| a[axis] + factor * b[axis])
}

fn dot(a: Xyz, b: Xyz) -> f64 {
    a[0] * b[0] + a[1] * b[1] + a[2] * b[2]
}

fn cross(a: Xyz, b: Xyz) -> Xyz {
    [0, 1, 2].map(|axis| {
        let (next, last) = ((axis + 1) % 3, (axis + 2) % 3);
        a[next] * b[last] - a[last] * b[next]
    })
}

fn unit(a: Xyz) -> Xyz {
    a.map(|x| x / dot(a, a).sqrt())
}

fn direction(generator: &mut Generator) -> Xyz {
    loop {
        let drawn = [0; 3].map(|_| f64::from(generator.unit()));
        if (0.01..1.0).contains(&dot(drawn, drawn)) {
            return unit(drawn);
        }
    }
}

/// A body as the library makes it, its coordinates as `f64`.
#[derive(Clone)]
struct Mesh {
    vertices: Vec<Xyz>,
    triangles: Vec<[u32; 3]>,
}

impl Mesh {
    fn of(input: &Input) -> Mesh {
        assert_eq!(library::check(input.fields, &input.curve), 0, "{input:?}");
        let body = input.description().body(input.curve.len() / 3);
        let body = body.expect("a permitted body");
        let mut vertices = vec![0.0; 3 * body.vertex_count() as usize];
        assert!(library::vertices(input.fields, &input.curve, &mut vertices));
        let mut triangles = vec![0; 3 * body.triangle_count() as usize];
        assert!(library::triangles(body, 0, &mut triangles));
        Mesh {
            vertices: points(&vertices),
            triangles: triangles.as_chunks().0.to_vec(),
        }
    }

    fn corners(&self) -> impl Iterator<Item = [Xyz; 3]> + '_ {
        let corner = |index: u32| self.vertices[index as usize];
        self.triangles.iter().map(move |row| row.map(corner))
    }

    /// Above 0 where the triangles of a closed body face outwards. Seen from the first vertex, to
    /// lose few digits.
    fn volume(&self) -> f64 {
        let first = self.vertices[0];
        let parts = self.corners().map(|row| {
            let [a, b, c] = row.map(|corner| minus(corner, first));
            dot(a, cross(b, c)) / 6.0
        });
        parts.sum()
    }

    fn reversed(mut self) -> Mesh {
        self.triangles.iter_mut().for_each(|row| row.reverse());
        self
    }

    /// A tube with its two open ends closed, each by a fan round the end of the curve. The fans'
    /// edges are the reverse of those that the tube leaves open, so that they face as the tube
    /// does.
    fn with_ends(mut self, divisions: u32, curve: &[Xyz]) -> Mesh {
        let edges = |row: &[u32; 3]| [(0, 1), (1, 2), (2, 0)].map(|(i, j)| [row[i], row[j]]);
        let mut edges: Vec<[u32; 2]> = self.triangles.iter().flat_map(edges).collect();
        edges.sort_unstable();
        let open = edges
            .iter()
            .filter(|[from, to]| edges.binary_search(&[*to, *from]).is_err());
        let ends = self.vertices.len() as u32;
        let fan = |&[from, to]: &[u32; 2]| [to, from, ends + u32::from(from >= divisions)];
        let fans: Vec<[u32; 3]> = open.map(fan).collect();
        assert_eq!(fans.len() as u32, 2 * divisions);
        self.triangles.extend(fans);
        self.vertices.extend([curve[0], curve[curve.len() - 1]]);
        self
    }
}

fn points(coordinates: &[f32]) -> Vec<Xyz> {
    let points = coordinates.as_chunks().0.iter();
    points.map(|&point| point.map(f64::from)).collect()
}

/// An input with what all kinds need; a closed cylinder has no curve.
fn input(kind: u32, divisions: u32, steps: u32, radius: f64, curve: &[Xyz]) -> Input {
    let fields = Fields {
        kind,
        divisions,
        longitudes: steps,
        centred: false,
        size: radius as f32,
        length: 0.0,
    };
    let curve = curve.as_flattened().iter().map(|&x| x as f32).collect();
    Input { fields, curve }
}

/// The volume of the body whose cross sections at these heights are corners of a regular polygon
/// at these distances from a straight axis: between two of them it is a stump of a pyramid.
fn stacked(divisions: u32, sections: &[(f64, f64)]) -> f64 {
    let turn = std::f64::consts::TAU / f64::from(divisions);
    let area = 0.5 * f64::from(divisions) * turn.sin();
    let stumps = sections.windows(2).map(|pair| {
        let ((low, a), (high, b)) = (pair[0], pair[1]);
        (high - low) * area * (a * a + a * b + b * b) / 3.0
    });
    stumps.sum()
}

/// The sections of a capsule along a straight curve with vertices at these heights.
fn capsule_sections(longitudes: u32, radius: f64, heights: &[f64]) -> Vec<(f64, f64)> {
    let quarter = |j: u32| std::f64::consts::FRAC_PI_2 * f64::from(j) / f64::from(longitudes);
    let (bottom, top) = (heights[0], heights[heights.len() - 1]);
    let cap = |j: u32| (radius * quarter(j).sin(), radius * quarter(j).cos());
    let mut sections = vec![(bottom - radius, 0.0)];
    sections.extend((0..longitudes).rev().map(|j| (bottom - cap(j).0, cap(j).1)));
    sections.extend(
        heights[1..heights.len() - 1]
            .iter()
            .map(|&height| (height, radius)),
    );
    sections.extend((0..longitudes).map(|j| (top + cap(j).0, cap(j).1)));
    sections.push((top + radius, 0.0));
    sections
}

/// How far volumes are from what they ought to be.
fn assert_near(volume: f64, expected: f64, part: f64, input: &Input) {
    assert!(
        (volume - expected).abs() <= part * expected,
        "{volume} for {expected}: {input:?}"
    );
}

/// The volume of a mesh that faces outwards; the same mesh reversed has it below 0.
fn outward_volume(mesh: Mesh, input: &Input) -> f64 {
    let volume = mesh.volume();
    assert!(volume > 0.0, "inwards: {input:?}");
    assert!(
        mesh.reversed().volume() < 0.0,
        "the test cannot fail: {input:?}"
    );
    volume
}

const BODIES: usize = 3_000;
/// Of a volume, for what the rounding to `f32` may change.
const ROUNDING: f64 = 1e-4;

/// Segments of one length that keep within 28 degrees of an axis. At a radius of a quarter of that
/// length a body along them cannot cross itself: segments that are no neighbours stay more than
/// twice the radius apart.
fn gentle(generator: &mut Generator, vertices: u32, segment: f64) -> Vec<Xyz> {
    let axis = direction(generator);
    let mut at = direction(generator).map(|x| 10.0 * segment * x);
    let mut curve = vec![at];
    for _ in 1..vertices {
        let aside = [0; 3].map(|_| 0.27 * f64::from(generator.unit()));
        at = plus(at, unit(plus(axis, aside, 1.0)), segment);
        curve.push(at);
    }
    curve
}

fn straight(generator: &mut Generator, heights: &[f64]) -> Vec<Xyz> {
    let axis = direction(generator);
    let start = direction(generator).map(|x| 20.0 * x);
    let points = heights.iter().map(|&height| plus(start, axis, height));
    points.collect()
}

fn heights(generator: &mut Generator) -> Vec<f64> {
    let mut height = 0.0;
    let mut heights = vec![height];
    for _ in 0..generator.between(1, 8) {
        height += 2.0 + f64::from(generator.unit());
        heights.push(height);
    }
    heights
}

#[test]
fn straight_tubes_and_capsules() {
    let mut generator = Generator::new(60);
    for _ in 0..BODIES {
        let heights = heights(&mut generator);
        let curve = straight(&mut generator, &heights);
        let divisions = generator.between(3, 40);
        let radius = 1.5 + f64::from(generator.unit());
        let tube = input(2, divisions, 0, radius, &curve);
        let volume = outward_volume(Mesh::of(&tube).with_ends(divisions, &curve), &tube);
        let ends = [(0.0, radius), (heights[heights.len() - 1], radius)];
        assert_near(volume, stacked(divisions, &ends), ROUNDING, &tube);
        let least = if heights.len() < 4 { 1 } else { 0 };
        let longitudes = generator.between(least, 9);
        let capsule = input(3, divisions, longitudes, radius, &curve);
        let volume = outward_volume(Mesh::of(&capsule), &capsule);
        let sections = capsule_sections(longitudes, radius, &heights);
        assert_near(volume, stacked(divisions, &sections), ROUNDING, &capsule);
    }
    println!(
        "{BODIES} straight tubes and {BODIES} straight capsules have the volumes of their stumps"
    );
}

#[test]
fn closed_cylinders() {
    let mut generator = Generator::new(61);
    for _ in 0..BODIES {
        let mut input = input(
            5,
            generator.between(3, 40),
            generator.between(1, 20),
            0.0,
            &[],
        );
        let scale = f64::from(generator.power_of_two(-10, 10));
        let [radius, length] = [0; 2].map(|_| scale * (1.5 + f64::from(generator.unit())));
        input.fields.centred = generator.one_in(2);
        (input.fields.size, input.fields.length) = (radius as f32, length as f32);
        let volume = outward_volume(Mesh::of(&input), &input);
        let prism = stacked(input.fields.divisions, &[(0.0, radius), (length, radius)]);
        assert_near(volume, prism, ROUNDING, &input);
    }
    println!("{BODIES} closed cylinders have the volumes of their prisms");
}

/// Bends take a little from a straight body's volume: a ring between two segments keeps its
/// radius.
#[test]
fn bent_tubes_and_capsules() {
    let mut generator = Generator::new(62);
    let (mut least, mut most) = (f64::MAX, 0.0f64);
    for _ in 0..BODIES {
        let segment = f64::from(generator.power_of_two(-8, 8));
        let vertices = generator.between(2, 20);
        let curve = gentle(&mut generator, vertices, segment);
        let divisions = generator.between(3, 24);
        let radius = segment * (0.13 + 0.12 * f64::from(generator.unit()));
        let heights: Vec<f64> = (0..vertices).map(|i| segment * f64::from(i)).collect();
        let tube = input(2, divisions, 0, radius, &curve);
        let volume = outward_volume(Mesh::of(&tube).with_ends(divisions, &curve), &tube);
        let ends = [(0.0, radius), (heights[heights.len() - 1], radius)];
        let tube_part = volume / stacked(divisions, &ends);
        let longitudes = generator.between(1, 9);
        let capsule = input(3, divisions, longitudes, radius, &curve);
        let volume = outward_volume(Mesh::of(&capsule), &capsule);
        let sections = capsule_sections(longitudes, radius, &heights);
        let capsule_part = volume / stacked(divisions, &sections);
        least = least.min(tube_part).min(capsule_part);
        most = most.max(tube_part).max(capsule_part);
    }
    println!("{BODIES} bent tubes and {BODIES} bent capsules: {least:.3} to {most:.3} of the straight volume");
    assert!(least > 0.9 && most < 1.0 + ROUNDING);
}

/// A circle in any plane that waves a little out of it, of this many vertices. The frame that is
/// carried round a wave comes back turned, and the last piece of a torus is twisted by so much; a
/// seamless torus is twisted by a part of it in every piece.
fn loop_of(generator: &mut Generator, vertices: u32, radius: f64, wave: f64) -> Vec<Xyz> {
    let axis = direction(generator);
    let right = unit(cross(axis, direction(generator)));
    let forward = cross(axis, right);
    let middle = direction(generator).map(|x| 3.0 * radius * x);
    let vertex = |i: u32| {
        let angle = std::f64::consts::TAU * f64::from(i) / f64::from(vertices);
        let (sin, cos) = angle.sin_cos();
        let on_circle = plus(plus(middle, right, radius * cos), forward, radius * sin);
        let lift = sin * cos + 0.5 * (3.0 * angle).cos();
        plus(on_circle, axis, wave * radius * lift)
    };
    (0..vertices).map(vertex).collect()
}

#[test]
fn tori() {
    let mut generator = Generator::new(63);
    let mut near = 0;
    for _ in 0..BODIES {
        let vertices = generator.between(6, 90);
        let scale = f64::from(generator.power_of_two(-8, 8));
        let wave = generator.one_of(&[0.0, 0.1, 0.3]);
        let curve = loop_of(&mut generator, vertices, scale, wave);
        let divisions = generator.between(3, 24);
        let radius = scale * (0.16 + 0.12 * f64::from(generator.unit()));
        for kind in [4, 6] {
            let torus = input(kind, divisions, 0, radius, &curve);
            let volume = outward_volume(Mesh::of(&torus), &torus);
            // The rings of a fine one stand as close to square on the segments as makes no
            // difference.
            if vertices >= 48 && wave == 0.0 {
                let side = 2.0 * scale * (std::f64::consts::PI / f64::from(vertices)).sin();
                let round = [(0.0, radius), (side * f64::from(vertices), radius)];
                assert_near(volume, stacked(divisions, &round), 0.01, &torus);
                near += 1;
            }
        }
    }
    println!("{BODIES} tori and {BODIES} seamless tori face outwards,");
    println!("{near} of them compared with the volume round the circle");
    assert!(near > 600);
}

/// Standing on the side that a triangle of a ribbon faces and looking along the curve, one has the
/// other edge to the right. On the first segment that is the side of -y, or of -x where the
/// segment is within about 14.5 degrees of the axis y.
#[test]
fn ribbons() {
    let mut generator = Generator::new(64);
    let mut upright = 0;
    for _ in 0..BODIES {
        let vertices = generator.between(2, 20);
        let curve = gentle(&mut generator, vertices, 1.0);
        let ribbon = input(1, 0, 0, 0.2, &curve);
        let mesh = Mesh::of(&ribbon);
        for (place, [a, b, c]) in mesh.corners().enumerate() {
            let faced = cross(minus(b, a), minus(c, a));
            let [near, far, next] = [0, 1, 2].map(|i| mesh.vertices[place / 2 * 2 + i]);
            let right = cross(minus(next, near), faced);
            assert!(dot(minus(far, near), right) > 0.0, "{ribbon:?}");
        }
        let along = unit(minus(points(&ribbon.curve)[1], points(&ribbon.curve)[0]));
        let steep = along[0] * along[0] + along[2] * along[2];
        let [a, b, c] = mesh.corners().next().expect("a triangle");
        let faced = cross(minus(b, a), minus(c, a));
        if (steep - 0.0625).abs() > 1e-5 {
            assert!(
                faced[if steep > 0.0625 { 1 } else { 0 }] < 0.0,
                "{ribbon:?}"
            );
            upright += usize::from(steep < 0.0625);
        }
    }
    println!("{BODIES} ribbons face the side that has the other edge to the right, {upright} begin upright");
    assert!(upright > 50);
}
