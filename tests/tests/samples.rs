//! The samples of document 01's "Rulings and samples", on the proved functions and on the readings
//! that the other tests compare them with.

use togbefulo_tests::{
    adapted,
    arithmetic::{self, word},
    edges, library,
    paper::{
        curve,
        description::{Description, Fields},
    },
    topology::Body,
};

#[test]
fn turns_of_quarters() {
    let samples = [
        (0, 4, [0x3F800000, 0x00000000]),
        (1, 4, [0x80000000, 0x3F800000]),
        (2, 4, [0xBF800000, 0x80000000]),
    ];
    for (k, n, expected) in samples {
        for (cos, sin) in [library::turn(k, n), arithmetic::turn(k, n)] {
            assert_eq!([word(cos), word(sin)], expected, "turn({k}, {n})");
        }
    }
    println!("{} sampled turns compared", samples.len());
}

#[test]
fn roots_of_two_and_of_the_smallest_number() {
    let samples = [(0x40000000, 0x3FB504F3), (0x00000001, 0x1A3504F3)];
    for (x, expected) in samples.map(|(x, root)| (f32::from_bits(x), root)) {
        assert_eq!([word(library::root(x)), word(x.sqrt())], [expected; 2]);
    }
    println!("{} sampled roots compared", samples.len());
}

/// The body's list, which the library and the reading must give alike, with the paper's counts.
fn list(body: Body, vertices: u32, triangles: usize) -> Vec<u32> {
    let mut list = vec![0; 3 * triangles];
    assert!(library::triangles(body, 0, &mut list), "{body:?}");
    assert_eq!(list, body.triangles().concat(), "{body:?}");
    assert_eq!(body.vertex_count(), vertices, "{body:?}");
    list
}

#[test]
fn capsule_of_one_segment() {
    let capsule = Body::Capsule {
        divisions: 3,
        longitudes: 1,
        segments: 1,
    };
    let list = list(capsule, 8, 12);
    assert_eq!(list[..3], [0, 1, 2]);
    assert_eq!(list[33..], [7, 4, 6]);
}

#[test]
fn capsule_without_longitudes() {
    let capsule = |segments| Body::Capsule {
        divisions: 3,
        longitudes: 0,
        segments,
    };
    let mut out = [0; 36];
    assert!(library::triangles(capsule(3), 0, &mut out));
    assert!(!library::triangles(capsule(2), 0, &mut out));
}

#[test]
fn torus_of_three_vertices() {
    let torus = Body::Torus {
        divisions: 3,
        vertices: 3,
    };
    assert_eq!(list(torus, 9, 18)[48..], [8, 6, 2, 0, 2, 6]);
}

#[test]
fn tube_of_one_segment() {
    let tube = Body::Tube {
        divisions: 3,
        segments: 1,
    };
    let list = list(tube, 6, 6);
    assert_eq!(list[..6], [0, 4, 1, 0, 3, 4]);
    assert_eq!(edges::count(&list, 6).unmatched, 6);
}

#[test]
fn ribbon_of_one_segment() {
    let list = list(Body::Ribbon { segments: 1 }, 4, 2);
    assert_eq!(list, [0, 1, 2, 1, 3, 2]);
    assert_eq!(edges::count(&list, 4).unmatched, 4);
}

/// Fields of three divisions, of no longitudes and of size 2, with all others 0.
fn fields(kind: u32) -> Fields {
    Fields {
        kind,
        divisions: 3,
        longitudes: 0,
        centred: false,
        size: 2.0,
        length: 0.0,
    }
}

/// What the library and the reading answer alike.
fn answer(kind: u32, curve: &[f32]) -> u32 {
    let answer = library::check(fields(kind), curve);
    let description = Description::of(fields(kind)).expect("a kind of the paper");
    let reading = curve::check(description, curve).map_or_else(|refusal| refusal as u32, |()| 0);
    assert_eq!(answer, reading, "kind {kind}, {curve:?}");
    answer
}

#[test]
fn capsules_without_longitudes_are_counted_from_three_segments_on() {
    let mut counts = [0; 2];
    assert_eq!(library::counts(fields(3), 4, &mut counts), 0);
    assert_eq!(counts, [8, 12]);
    assert_eq!(library::counts(fields(3), 3, &mut counts), 21);
}

#[test]
fn shortest_segments_along_the_axes() {
    let shortest = 1.0 / (1 << 20) as f32;
    for kind in [1, 2] {
        for axis in 3..6 {
            let mut curve = [0.0; 6];
            curve[axis] = shortest;
            assert_eq!(answer(kind, &curve), 0, "axis {axis}");
            curve[axis] = shortest / 2.0;
            assert_eq!(answer(kind, &curve), 12, "axis {axis}");
        }
    }
}

/// The floats of the ribbon that the paper feeds to `sweep`.
#[test]
fn floats_of_the_sampled_ribbon() {
    let curve = [0.0, 0.0, 0.0, 0.0, 0.0, 1.0];
    let expected = [0.0, 0.0, 0.0, 2.0, 0.0, 0.0, 0.0, 0.0, 1.0, 2.0, 0.0, 1.0];
    let mut vertices = [1.0; 12];
    assert!(library::vertices(fields(1), &curve, &mut vertices));
    let (_, source) = adapted::body(Description::Ribbon { width: 2.0 }, &curve, None);
    for floats in [&vertices[..], source.as_flattened()] {
        assert!(floats.iter().map(|&x| word(x)).eq(expected.map(word)));
    }
}
