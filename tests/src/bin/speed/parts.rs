//! The parts of one addition, timed one by one.

use crate::{
    cases::Case,
    measure::{repeat, time, Times},
};
use std::time::Duration;
use togbefulo_tests::{
    buffers::Buffers,
    library,
    optimised::{self, Form, Plain, Sse2},
    paper::description::Input,
    topology::Body,
};

/// The checks that need no table, the vertices, whether they are finite, the triangles.
const PARTS: [&str; 4] = ["checks", "vertices", "finite", "triangles"];

type Durations = [Duration; PARTS.len()];

const SIDES: [fn(&Input, Body, &mut Buffers) -> Durations; 3] =
    [proved, by_form::<Sse2>, by_form::<Plain>];

/// Prints the parts of the addition of the case's only body.
pub fn print(case: &Case, span: Duration) {
    let input = &case.list[0];
    let body = input.description().body(input.curve.len() / 3);
    let body = body.expect("accepted");
    let mut buffers = case.buffers();
    let mut times = SIDES.map(|_| PARTS.map(|_| Vec::new()));
    let rounds = repeat(100, span, |_| {
        for (side, times) in SIDES.iter().zip(&mut times) {
            buffers.vertices.fill(0.0);
            buffers.triangles.fill(0);
            let taken = side(input, body, &mut buffers);
            for (times, taken) in times.iter_mut().zip(taken) {
                times.push(taken);
            }
        }
    });
    let times = times.map(|parts| parts.map(|times| Times::of(times).low));
    println!("capsule, {} curve vertices, 32 divisions, L 8", case.name);
    println!("microseconds, 10th percentile of {rounds} rounds");
    println!("  part         proved     SSE2    plain");
    for (place, part) in PARTS.into_iter().enumerate() {
        print_line(part, times.map(|parts| parts[place]));
    }
    print_line("together", times.map(|parts| parts.iter().sum()));
    println!("  SSE2 and plain tell in the part of the vertices whether these are finite");
    println!("  proved, each part alone: checks and vertices both work out the directions, an addition once");
}

fn print_line(name: &str, [proved, sse2, plain]: [f64; 3]) {
    println!("  {name:<10} {proved:8.1} {sse2:8.1} {plain:8.1}");
}

fn proved(input: &Input, body: Body, buffers: &mut Buffers) -> Durations {
    let Input { fields, curve } = input;
    let Buffers {
        vertices,
        triangles,
        ..
    } = buffers;
    [
        time(|| assert_eq!(library::check(*fields, curve), 0)),
        time(|| assert!(library::vertices(*fields, curve, vertices))),
        time(|| assert!(library::are_finite(vertices))),
        time(|| assert!(library::triangles(body, 0, triangles))),
    ]
}

fn by_form<F: Form>(input: &Input, body: Body, buffers: &mut Buffers) -> Durations {
    let (description, curve) = (input.description(), &input.curve);
    let mut form = F::new();
    let check = time(|| assert!(optimised::check(&mut form, description, curve).is_ok()));
    let vertices = time(|| assert!(form.write_vertices(description, curve, &mut buffers.vertices)));
    let triangles = time(|| form.write_triangles(body, 0, &mut buffers.triangles));
    [check, vertices, Duration::ZERO, triangles]
}
