//! Bodies alone, through the safe face.

use togbefulo::{Counts, Description, Point, Refusal};

const CURVE: [Point; 3] = [[0.0, 0.0, 0.0], [0.0, 0.0, 4.0], [3.0, 0.0, 8.0]];

/// Further out than any vertex below.
const MARK: f32 = 1e6;

/// One of each kind, with its curve.
fn bodies() -> [(Description, &'static [Point]); 6] {
    let (divisions, radius) = (5, 0.5);
    let capsule = Description::Capsule {
        divisions,
        longitudes: 2,
        radius,
    };
    let cylinder = Description::ClosedCylinder {
        divisions,
        layers: 4,
        centred: true,
        radius,
        length: 2.0,
    };
    [
        (Description::Ribbon { width: 2.0 }, &CURVE),
        (Description::Tube { divisions, radius }, &CURVE),
        (capsule, &CURVE),
        (Description::Torus { divisions, radius }, &CURVE),
        (cylinder, &[]),
        (Description::SeamlessTorus { divisions, radius }, &CURVE),
    ]
}

#[test]
fn counts() {
    let counts = bodies().map(|(body, curve)| body.counts(curve.len()).unwrap());
    let expected = [(6, 4), (15, 20), (27, 50), (15, 30), (27, 50), (15, 30)];
    let expected = expected.map(|(vertices, triangles)| Counts {
        vertices,
        triangles,
    });
    assert_eq!(counts, expected);
}

/// In exact and in longer slices, with the rest untouched; one short is refused and nothing written.
#[test]
fn vertices() {
    for (body, curve) in bodies() {
        let floats = body.counts(curve.len()).unwrap().floats();
        let mut out = vec![MARK; floats + 2];
        assert_eq!(body.write_vertices(curve, &mut out[..floats]), Ok(()));
        let mut longer = vec![MARK; floats + 2];
        assert_eq!(body.write_vertices(curve, &mut longer), Ok(()));
        assert_eq!(out, longer);
        assert!(out[..floats].iter().all(|x| x.abs() < MARK));
        assert_eq!(out[floats..], [MARK; 2]);
        let mut short = vec![MARK; floats - 1];
        let answer = body.write_vertices(curve, &mut short);
        assert_eq!(answer, Err(Refusal::NoVertices));
        assert!(short.iter().all(|&x| x == MARK));
    }
}

/// The highest first vertex is the one with which the last is numbered 2^28 − 1.
#[test]
fn triangles() {
    for (body, curve) in bodies() {
        let counts = body.counts(curve.len()).unwrap();
        let (words, most) = (counts.words(), (1 << 28) - counts.vertices);
        let mut out = vec![9; words + 1];
        assert_eq!(body.write_triangles(curve.len(), most, &mut out), Ok(()));
        assert_eq!(out[..words].iter().max(), Some(&((1 << 28) - 1)));
        assert_eq!(out[..words].iter().min(), Some(&most));
        assert_eq!(out[words], 9);
        out.fill(9);
        for first in [most + 1, u32::MAX] {
            let answer = body.write_triangles(curve.len(), first, &mut out);
            assert_eq!(answer, Err(Refusal::NoVertices));
        }
        let answer = body.write_triangles(curve.len(), 0, &mut out[..words - 1]);
        assert_eq!(answer, Err(Refusal::NoTriangles));
        assert_eq!(out, vec![9; words + 1]);
    }
}

/// A body in a set has the vertices and triangles of the body alone.
#[test]
fn alone_as_in_a_set() {
    let (mut table, mut vertices, mut triangles) = ([0; 37], [0.0; 315], [0; 552]);
    let mut set = togbefulo::Set::new(&mut table, &mut vertices, &mut triangles).unwrap();
    for (body, curve) in bodies() {
        assert_eq!(set.add(body, curve), Ok(()));
        let entry = set.entries().next_back().unwrap();
        let counts = body.counts(curve.len()).unwrap();
        assert_eq!(
            (entry.vertices, entry.triangles),
            (counts.vertices, counts.triangles)
        );
        let (mut alone, mut list) = (vec![0.0; counts.floats()], vec![0; counts.words()]);
        body.write_vertices(curve, &mut alone).unwrap();
        body.write_triangles(curve.len(), entry.first_vertex, &mut list)
            .unwrap();
        assert_eq!(set.vertices()[3 * entry.first_vertex as usize..], alone);
        assert_eq!(set.triangles()[3 * entry.first_triangle as usize..], list);
    }
    assert_eq!((set.vertices().len(), set.triangles().len()), (315, 552));
}

/// A loop that is not flat.
fn bent_loop() -> Vec<Point> {
    let vertex = |i| {
        let (cos, sin) = togbefulo::turn(i, 24);
        let (cos_twice, sin_twice) = togbefulo::turn(2 * i % 24, 24);
        let r = 10.0 + 3.0 * cos_twice;
        [r * cos, r * sin, 4.5 * sin_twice]
    };
    (0..24).map(vertex).collect()
}

fn distance_squared(a: &[f32], b: &[f32]) -> f32 {
    a.iter().zip(b).map(|(a, b)| (a - b) * (a - b)).sum()
}

/// How far each ring of a body of radius 1 is turned against the next: twice 1 - the cosine of the
/// turn. The last ring's next is the first.
fn turns(body: Description, curve: &[Point], divisions: usize) -> Vec<f32> {
    let mut out = vec![0.0; body.counts(curve.len()).unwrap().floats()];
    body.write_vertices(curve, &mut out).unwrap();
    let rings: Vec<&[f32]> = out.chunks(3 * divisions).collect();
    let turn = |g: usize| {
        let next = (g + 1) % rings.len();
        let along = distance_squared(&curve[g], &curve[next]);
        distance_squared(rings[g], rings[next]) / divisions as f32 - along
    };
    (0..rings.len()).map(turn).collect()
}

/// A torus takes up the turn of its frames where it closes, and a seamless torus nowhere.
#[test]
fn seamless_torus_closes_without_a_twist() {
    let (curve, radius) = (bent_loop(), 1.0);
    let (divisions, small, third) = (8, 0.2, 3.0);
    let torus = turns(Description::Torus { divisions, radius }, &curve, 8);
    let (closing, others) = torus.split_last().unwrap();
    assert!(others.iter().all(|turn| turn.abs() < small), "{torus:?}");
    assert!((closing - third).abs() < small, "{closing}");
    let seamless = turns(Description::SeamlessTorus { divisions, radius }, &curve, 8);
    assert!(
        seamless.iter().all(|turn| turn.abs() < small),
        "{seamless:?}"
    );
}

/// Sizes that the library's 16 bits would cut off are refused as they stand.
#[test]
fn sizes_beyond_sixteen_bits() {
    let tube = |divisions| Description::Tube {
        divisions,
        radius: 1.0,
    };
    let mut out = [9; 36];
    let beyond = 1 << 16;
    let answers = [
        tube(3 + beyond).write_triangles(2, 0, &mut out),
        tube(3).write_triangles(2 + beyond as usize, 0, &mut out),
        tube(3).write_triangles(0, 0, &mut out),
    ];
    let curve = Err(Refusal::CurveVertices);
    assert_eq!(answers, [Err(Refusal::Divisions), curve, curve]);
    assert_eq!(out, [9; 36]);
}
