//! The proved triangle lists beside document 01's and del-msh's, what they leave untouched, what they
//! refuse, and what demand 3 says about their edges.

use togbefulo_tests::{
    adapted, bodies,
    buffers::{Buffers, Lengths},
    edges,
    edges::EdgeCounts,
    generator::Generator,
    inputs::{self, Extent},
    library,
    paper::description::{Description, Input},
    topology::{Body, LARGEST_TOTAL},
};

/// The body's list with local indices, in a buffer of exactly its length.
fn written(body: Body) -> Vec<u32> {
    let mut list = garbage(3 * body.triangle_count() as usize);
    assert!(library::triangles(body, 0, &mut list), "{body:?}");
    list
}

fn garbage(length: usize) -> Vec<u32> {
    Generator::new(length as u64).words(length)
}

/// Lends a copy of `before`; it must come back with `front` at its front and the rest untouched.
fn compare_accepted(body: Body, first: u32, before: &[u32], front: &[u32]) {
    let mut after = before.to_vec();
    let accepted = library::triangles(body, first, &mut after);
    let rest = front.len()..;
    assert!(accepted, "{body:?} from {first}: refused");
    assert!(after.starts_with(front), "{body:?} from {first}: list");
    assert!(
        after[rest.clone()] == before[rest],
        "{body:?} from {first}: rest"
    );
}

/// Lends a copy of `before`; it must come back untouched.
fn compare_refused(body: Body, first: u32, before: &[u32]) {
    let mut after = before.to_vec();
    let accepted = library::triangles(body, first, &mut after);
    assert!(!accepted, "{body:?} from {first}: accepted");
    assert!(after == before, "{body:?} from {first}: touched");
}

/// Every first vertex and buffer length that matters to one body.
fn compare_body(body: Body) {
    let list = body.triangles().concat();
    let exact = 3 * body.triangle_count() as usize;
    assert_eq!(list.len(), exact, "{body:?}: count");
    let longer = garbage(exact + 7);
    let last_first = LARGEST_TOTAL - body.vertex_count();
    for first in [0, 1000, last_first] {
        let front: Vec<u32> = list.iter().map(|index| index + first).collect();
        compare_accepted(body, first, &longer[..exact], &front);
        compare_accepted(body, first, &longer, &front);
        compare_refused(body, first, &longer[..exact - 1]);
    }
    compare_refused(body, 0, &[]);
    for first in [last_first + 1, u32::MAX] {
        compare_refused(body, first, &longer);
    }
}

fn compare_bodies(name: &str, bodies: Vec<Body>) {
    bodies.iter().for_each(|&body| compare_body(body));
    println!("{} {name} compared with document 01", bodies.len());
}

#[test]
fn small_lists_are_document_01s() {
    compare_bodies("small bodies", bodies::small());
}

#[test]
fn lists_at_limits_are_document_01s() {
    compare_bodies("bodies at limits", bodies::at_limits());
}

#[test]
fn lists_from_anywhere_are_document_01s() {
    compare_bodies("bodies from anywhere", bodies::anywhere(200));
}

#[test]
fn lists_are_del_mshs() {
    let bodies = all_bodies();
    for &body in &bodies {
        let source = del_msh_triangles(body).concat();
        let indices = written(body).into_iter().map(|index| index as usize);
        assert!(indices.eq(source), "{body:?}");
    }
    println!("{} bodies compared with del-msh", bodies.len());
}

/// Each body once, though the three parts overlap.
fn all_bodies() -> Vec<Body> {
    let mut all = [bodies::small(), bodies::at_limits(), bodies::anywhere(200)].concat();
    all.sort_unstable();
    all.dedup();
    all
}

/// The source's list. The source works out the vertices with it, so it gets a straight curve and sizes of 1.
fn del_msh_triangles(body: Body) -> Vec<[usize; 3]> {
    let (description, vertices) = described(body);
    let curve: Vec<f32> = (0..vertices).flat_map(|x| [x as f32, 0.0, 0.0]).collect();
    adapted::body(description, &curve, None).0
}

/// A description of the body, and how many vertices its curve has: of an open one, more than segments by one.
fn described(body: Body) -> (Description, u32) {
    let (radius, length) = (1.0, 1.0);
    match body {
        Body::Ribbon { segments } => (Description::Ribbon { width: 1.0 }, segments + 1),
        Body::Tube {
            divisions,
            segments,
        } => (Description::Tube { divisions, radius }, segments + 1),
        Body::Capsule {
            divisions,
            longitudes,
            segments,
        } => {
            let capsule = Description::Capsule {
                divisions,
                longitudes,
                radius,
            };
            (capsule, segments + 1)
        }
        Body::Torus {
            divisions,
            vertices,
        } => (Description::Torus { divisions, radius }, vertices),
        Body::ClosedCylinder { divisions, layers } => {
            let cylinder = Description::ClosedCylinder {
                divisions,
                layers,
                centred: false,
                radius,
                length,
            };
            (cylinder, 0)
        }
    }
}

/// Sizes at and outside each limit, and longitudes whose double wraps 16 bits.
const SIZES: [u32; 14] = [
    0, 1, 2, 3, 255, 256, 257, 4094, 4095, 4096, 4097, 32768, 32769, 65535,
];

/// Sizes outside each limit, alone and together, and sums and products that wrap to permitted ones.
#[test]
fn sizes_outside_are_refused() {
    let mut bodies = bodies::combinations(&SIZES, &SIZES, &SIZES);
    bodies.retain(|body| !body.is_permitted());
    // Long enough for the list of each body of few divisions, so that its sizes alone are the reason.
    let before = garbage(90_000);
    for &body in &bodies {
        compare_refused(body, 0, &before);
    }
    println!("{} bodies of sizes outside compared", bodies.len());
}

/// A seamless torus has the list of a torus in a set: no edge is used twice, and none is
/// unmatched.
#[test]
fn seamless_tori_have_the_list_of_tori() {
    let mut generator = Generator::new(71);
    let bodies = 500;
    for _ in 0..bodies {
        let input = inputs::accepted(&mut generator, 6, Extent::Usual);
        let body = input.description().body(input.curve.len() / 3);
        let body = body.expect("a permitted body");
        let list = added(&mut generator, &input, body);
        assert_eq!(list, written(body), "{input:?}");
        let counts = edges::count(&list, body.vertex_count());
        let expected = EdgeCounts {
            used_again: 0,
            unmatched: 0,
        };
        assert_eq!(counts, expected, "{input:?}");
    }
    println!("lists of {bodies} seamless tori compared with those of tori");
}

/// The triangles of a body in a set of its own. A radius of 1 keeps every vertex finite.
fn added(generator: &mut Generator, input: &Input, body: Body) -> Vec<u32> {
    let lengths = Lengths {
        table: 7,
        vertices: 3 * body.vertex_count() as usize,
        triangles: 3 * body.triangle_count() as usize,
    };
    let mut input = input.clone();
    input.fields.size = 1.0;
    let mut lent = Buffers::garbage(generator, lengths);
    lent.table[0] = 0;
    assert_eq!(library::add(&input, &mut lent), 0, "{input:?}");
    lent.triangles
}

#[test]
fn edges_are_as_demand_3_says() {
    let bodies = all_bodies();
    for &body in &bodies {
        let list = written(body);
        let vertices = body.vertex_count();
        assert!(list.iter().all(|&index| index < vertices), "{body:?}");
        let expected = EdgeCounts {
            used_again: 0,
            unmatched: body.unmatched_edge_count(),
        };
        assert_eq!(edges::count(&list, vertices), expected, "{body:?}");
    }
    println!("edges of {} bodies counted", bodies.len());
}
