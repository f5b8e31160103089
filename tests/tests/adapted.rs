//! The two things that the proved bodies are compared with, beside each other: the adapted functions of
//! del-msh and the reading of the papers. Where these differ, the core cannot be right by both.

use std::cell::Cell;
use togbefulo_tests::{
    adapted,
    arithmetic::{transport_step, word, Point},
    census::Census,
    del_msh::{del_geo_core::angle::TAU, polyloop3},
    generator::Generator,
    inputs::{self, Extent, KINDS},
    paper::{
        curve::{points, segments},
        description::Input,
        twist::{self, Twist},
        vertices::{frames, vertices},
    },
};

const BODIES_OF_A_KIND: usize = 10_000;

#[test]
fn the_adapted_rust_is_the_reading() {
    let mut generator = Generator::new(6);
    let mut census = Census::default();
    for (kind, name) in KINDS {
        for _ in 0..BODIES_OF_A_KIND {
            let input = inputs::accepted(&mut generator, kind, Extent::Usual);
            for twist in twists(&mut generator, &input) {
                compare(&input, twist, &mut census);
            }
        }
        println!("{BODIES_OF_A_KIND} bodies of the kind {name} compared, none differs");
    }
    println!("their vertices, {census}");
}

/// Those that the body may have, and of kind 6 any other too, since `smooth_frame` is the reading
/// for every k.
fn twists(generator: &mut Generator, input: &Input) -> Vec<Twist> {
    let mut twists = twist::permitted(input.description(), &input.curve);
    if input.description().is_seamless() {
        twists.push(Some(2048 - generator.between(0, 4095) as i32));
    }
    twists
}

fn compare(input: &Input, twist: Twist, census: &mut Census) {
    let source = adapted::body(input.description(), &input.curve, twist);
    let source = source.1.concat();
    let reading = vertices(input.description(), &input.curve, twist);
    let reading = reading.into_iter().flat_map(|vertex| vertex.words());
    let same = source.iter().map(|&x| word(x)).eq(reading);
    assert!(same, "{twist:?}: {input:?}");
    census.count_all(&source);
}

/// What the adapted `match_frames_of_two_ends` hands to its arctangent is the reading's s0 and c0.
#[test]
fn the_ends_of_loops() {
    let mut generator = Generator::new(70);
    for _ in 0..BODIES_OF_A_KIND {
        let input = inputs::accepted(&mut generator, 6, Extent::Usual);
        let handed = Cell::new([0; 2]);
        let atan2 = |s0, c0| {
            handed.set([c0, s0].map(word));
            TAU
        };
        polyloop3::smooth_frame(input.curve.as_chunks().0, atan2);
        let read = twist::ends(&input.curve);
        assert_eq!(handed.get(), [read.c0, read.s0].map(word), "{input:?}");
    }
    println!("c0 and s0 of {BODIES_OF_A_KIND} loops compared, none differs");
}

/// Accepted loops on which the source would panic, by the number of its assert: the adapted
/// `match_frames_of_two_ends` leaves out four, whose tolerances a sharp bend or a long curve can
/// exceed at `f32`.
#[test]
fn the_asserts_that_are_dropped() {
    let mut generator = Generator::new(82);
    let mut failing = [0; 4];
    for _ in 0..BODIES_OF_A_KIND {
        let input = inputs::accepted(&mut generator, 6, Extent::Usual);
        for (times, fails) in failing.iter_mut().zip(failing_asserts(&input)) {
            *times += u32::from(fails);
        }
    }
    println!("of {BODIES_OF_A_KIND} loops the dropped asserts would refuse {failing:?}");
    assert!(failing.iter().sum::<u32>() > 0);
}

/// Which of the asserts fail, in their order; the last is asked for every segment.
fn failing_asserts(input: &Input) -> [bool; 4] {
    let segments = segments(&points(&input.curve), true);
    let frames = frames(&segments);
    let last = segments.len() - 1;
    let [v01, vn0] = [segments[0].normalize(), segments[last].normalize()];
    let x1a = transport_step(frames[last], vn0, v01);
    let y0 = v01.cross(frames[0]);
    let is_near = |x: f32, tolerance: f32| x.abs() < tolerance;
    let is_square = |(x0, segment): (&Point, &Point)| {
        let v01 = segment.normalize();
        let y0 = v01.cross(*x0);
        is_near(x0.cross(y0).dot(v01) - 1.0, 1.0e-3)
    };
    [
        !is_near(frames[0].dot(v01), 1.0e-6),
        !is_near(x1a.dot(v01), 1.0e-4),
        !is_near(y0.norm() - 1.0, 1.0e-6),
        !frames.iter().zip(&segments).all(is_square),
    ]
}
