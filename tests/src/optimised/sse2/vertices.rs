//! The vertices of each kind, after the source's polyline3.rs, polyloop3.rs and trimesh3_primitive.rs, in lent slices.
//!
//! MIT License
//!
//! Copyright (c) 2022 Nobuyuki Umetani
//!
//! Permission is hereby granted, free of charge, to any person obtaining a copy
//! of this software and associated documentation files (the "Software"), to deal
//! in the Software without restriction, including without limitation the rights
//! to use, copy, modify, merge, publish, distribute, sublicense, and/or sell
//! copies of the Software, and to permit persons to whom the Software is
//! furnished to do so, subject to the following conditions:
//!
//! The above copyright notice and this permission notice shall be included in all
//! copies or substantial portions of the Software.
//!
//! THE SOFTWARE IS PROVIDED "AS IS", WITHOUT WARRANTY OF ANY KIND, EXPRESS OR
//! IMPLIED, INCLUDING BUT NOT LIMITED TO THE WARRANTIES OF MERCHANTABILITY,
//! FITNESS FOR A PARTICULAR PURPOSE AND NONINFRINGEMENT. IN NO EVENT SHALL THE
//! AUTHORS OR COPYRIGHT HOLDERS BE LIABLE FOR ANY CLAIM, DAMAGES OR OTHER
//! LIABILITY, WHETHER IN AN ACTION OF CONTRACT, TORT OR OTHERWISE, ARISING FROM,
//! OUT OF OR IN CONNECTION WITH THE SOFTWARE OR THE USE OR OTHER DEALINGS IN THE
//! SOFTWARE.

use super::{
    directions::Directions,
    four::{crosses, products, sums, transposed, Four},
    frames::{bisecting, carry, first, leaving, Axes, Frames},
    rings::{write_level, write_scaled_sum, write_sum, Bound},
    tables::{Level, Round},
    twists::{search, Shares},
};
use crate::{arithmetic::turn, paper::description::Description};

/// Fills the body's stretch. False where a coordinate is not finite; then the stretch holds anything.
pub fn write(
    description: Description,
    curve: &[f32],
    directions: &Directions,
    stretch: &mut [f32],
) -> bool {
    match description {
        Description::Ribbon { width } => write_ribbon(curve, directions, width, stretch),
        Description::Tube { divisions, radius } => {
            write_tube(curve, directions, divisions, radius, stretch)
        }
        Description::Capsule {
            divisions,
            longitudes,
            radius,
        } => write_capsule(curve, directions, [divisions, longitudes], radius, stretch),
        Description::Torus { divisions, radius } => {
            write_torus(curve, directions, divisions, radius, stretch)
        }
        Description::ClosedCylinder {
            divisions,
            layers,
            centred,
            radius,
            length,
        } => {
            let low = if centred { -length * 0.5 } else { 0.0 };
            write_closed_cylinder([divisions, layers], [radius, low, length], stretch)
        }
        Description::SeamlessTorus { divisions, radius } => {
            write_seamless_torus(curve, directions, divisions, radius, stretch)
        }
    }
}

#[inline(always)]
fn vertex(curve: &[f32], place: usize) -> Four {
    let [x, y, z] = curve[3 * place..][..3] else {
        unreachable!("three coordinates")
    };
    Four::point([x, y, z])
}

/// The axes at an end of an open curve: its segment, and the frame of the first or last.
fn end(direction: [f32; 3], frame: Four) -> Axes {
    Axes {
        x: frame,
        z: Four::point(direction),
    }
}

/// A pole, or a vertex of a ribbon.
#[inline(always)]
fn write_point(stretch: &mut [f32], place: usize, point: Four) {
    let [x, y, z, _] = point.lanes();
    stretch[3 * place..][..3].copy_from_slice(&[x, y, z]);
}

fn write_ribbon(curve: &[f32], directions: &Directions, width: f32, stretch: &mut [f32]) -> bool {
    let width = Four::all(width);
    let mut bound = Bound::new();
    let mut pair = |place: usize, frame: Four| {
        let p = vertex(curve, place);
        let q = p + frame * width;
        bound.note(q);
        write_point(stretch, 2 * place, p);
        write_point(stretch, 2 * place + 1, q);
    };
    let start = end(directions.direction(0), first(curve));
    let frame = carry(directions, start, leaving, |place, axes| {
        pair(place, axes.x)
    });
    pair(directions.segments(), frame);
    bound.are_finite(stretch)
}

fn write_tube(
    curve: &[f32],
    directions: &Directions,
    divisions: u32,
    radius: f32,
    stretch: &mut [f32],
) -> bool {
    let (mut round, mut side) = (Round::unfilled(divisions), Round::unfilled(divisions));
    round.fill();
    side.fill_scaled(&round, radius);
    let mut bound = Bound::new();
    let n = divisions as usize;
    let mut ring = |place: usize, axes: Axes| {
        let (p, x, y) = (vertex(curve, place), axes.x, axes.y());
        bound.note_ring(p, x, y, radius);
        let out = &mut stretch[3 * place * n..];
        write_sum(out, p, (y, side.cosines()), (x, side.sines()));
    };
    let start = end(directions.direction(0), first(curve));
    let frame = carry(directions, start, bisecting, &mut ring);
    ring(directions.segments(), end(directions.last(), frame));
    bound.are_finite(stretch)
}

fn write_capsule(
    curve: &[f32],
    directions: &Directions,
    [divisions, longitudes]: [u32; 2],
    radius: f32,
    stretch: &mut [f32],
) -> bool {
    let (mut round, mut side) = (Round::unfilled(divisions), Round::unfilled(divisions));
    round.fill();
    side.fill_scaled(&round, radius);
    let mut bound = Bound::new();
    let ring = 3 * divisions as usize;
    let l = longitudes as usize;
    let bottom = end(directions.direction(0), first(curve));
    let frame = carry(directions, bottom, bisecting, |place, axes| {
        // The first vertex has the bottom cap instead.
        if place > 0 {
            let (p, x, y) = (vertex(curve, place), axes.x, axes.y());
            bound.note_ring(p, x, y, radius);
            let out = &mut stretch[3 + ring * (l + place - 1)..];
            write_sum(out, p, (y, side.cosines()), (x, side.sines()));
        }
    });
    let top = end(directions.last(), frame);
    let middles = [0, directions.segments()].map(|place| vertex(curve, place));
    write_caps(&round, longitudes, radius, middles, [bottom, top], stretch);
    for (middle, axes) in middles.into_iter().zip([bottom, top]) {
        // Poles and rings of the caps reach no further than both together.
        bound.note_ring(middle, axes.x, axes.y(), radius);
        bound.note_ring(middle, axes.z, axes.z, radius);
    }
    bound.are_finite(stretch)
}

/// Rings and poles of both caps. A ring of the bottom and one of the top have the same tilt.
fn write_caps(
    round: &Round,
    longitudes: u32,
    radius: f32,
    [p, q]: [Four; 2],
    [bottom, top]: [Axes; 2],
    stretch: &mut [f32],
) {
    let ring = 3 * round.divisions();
    let [y, y_top] = [bottom.y(), top.y()];
    let (below, above) = stretch.split_at_mut(3 + ring * longitudes as usize);
    let (_, above) = above.split_at_mut(above.len() - 3 - ring * longitudes as usize);
    let [below_rings, above_rings] = [&mut below[3..], &mut *above];
    let rings = below_rings.rchunks_exact_mut(ring);
    let mut tilted = Round::unfilled(round.divisions() as u32);
    for (j, (below, above)) in (0..).zip(rings.zip(above_rings.chunks_exact_mut(ring))) {
        let (cos, sin) = turn(j, 4 * longitudes);
        tilted.fill_scaled(round, radius * cos);
        let (cosines, sines) = (tilted.cosines(), tilted.sines());
        let middle = p + bottom.z * Four::all(-radius * sin);
        write_sum(below, middle, (y, cosines), (bottom.x, sines));
        let middle = q + top.z * Four::all(radius * sin);
        write_sum(above, middle, (top.x, sines), (y_top, cosines));
    }
    let radius = Four::all(radius);
    write_point(below, 0, p - bottom.z * radius);
    write_point(above, above.len() / 3 - 1, q + top.z * radius);
}

fn write_torus(
    curve: &[f32],
    directions: &Directions,
    divisions: u32,
    radius: f32,
    stretch: &mut [f32],
) -> bool {
    let mut round = Round::unfilled(divisions);
    round.fill();
    let mut bound = Bound::new();
    let n = divisions as usize;
    let ring = |place: usize, axes: Axes| {
        let (p, x, y) = (vertex(curve, place), axes.x, axes.y());
        bound.note_ring(p, x, y, radius);
        let out = &mut stretch[3 * place * n..];
        write_scaled_sum(out, p, (x, round.cosines()), (y, round.sines()), radius);
    };
    let start = end(directions.direction(0), first(curve));
    carry(directions, start, leaving, ring);
    bound.are_finite(stretch)
}

/// The frames have to be known before the first ring, since the last of them tells the twist.
fn write_seamless_torus(
    curve: &[f32],
    directions: &Directions,
    divisions: u32,
    radius: f32,
    stretch: &mut [f32],
) -> bool {
    let mut frames = Frames::none();
    let start = end(directions.direction(0), first(curve));
    carry(directions, start, leaving, |_, axes| frames.push(axes.x));
    let Some(twist) = search(frames.ends(directions)) else {
        return false;
    };
    let vertices = directions.segments();
    let shares = Shares::of(twist, vertices);
    let mut round = Round::unfilled(divisions);
    round.fill();
    let mut bound = Bound::new();
    let n = divisions as usize;
    for first in (0..vertices).step_by(4) {
        let axes = twisted(
            frames.four(first),
            directions.four(first),
            shares.four(first),
        );
        for (place, (x, y)) in (first..vertices).zip(axes) {
            let p = vertex(curve, place);
            bound.note_ring(p, x, y, radius);
            let out = &mut stretch[3 * place * n..];
            write_scaled_sum(out, p, (x, round.cosines()), (y, round.sines()), radius);
        }
    }
    bound.are_finite(stretch)
}

/// ex and ey of four vertices of a seamless torus.
#[inline(always)]
fn twisted(frames: [Four; 3], z: [Four; 3], [cos, sin]: [Four; 2]) -> [(Four, Four); 4] {
    let x = sums(products(frames, sin), products(crosses(z, frames), cos));
    let y = crosses(z, x);
    let [a, b, c, d] = transposed([x[0], x[1], x[2], Four::all(0.0)]);
    let [e, f, g, h] = transposed([y[0], y[1], y[2], Four::all(0.0)]);
    [(a, e), (b, f), (c, g), (d, h)]
}

fn write_closed_cylinder(
    [divisions, layers]: [u32; 2],
    [radius, low, length]: [f32; 3],
    stretch: &mut [f32],
) -> bool {
    let mut level = Level::unfilled();
    level.fill(divisions, radius);
    let mut bound = Bound::new();
    bound.note(Four::all(radius));
    let n = divisions as usize;
    let step = length / layers as f32;
    for g in 0..=layers as usize {
        let height = low + step * g as f32;
        bound.note(Four::all(height));
        write_level(&mut stretch[3 + 3 * n * g..], level.blocks(), height);
    }
    bound.note(Four::all(low + length));
    write_point(stretch, 0, Four::point([0.0, low, 0.0]));
    let top = Four::point([0.0, low + length, 0.0]);
    write_point(stretch, stretch.len() / 3 - 1, top);
    bound.are_finite(stretch)
}
