//! The vertices of each kind, after the source's polyline3.rs, polyloop3.rs and trimesh3_primitive.rs, in lent slices.
//!
//! MIT License
//!
//! Copyright (c) 2022 Nobuyuki Umetani
//!
//! Permission is hereby granted, free of charge, to any person obtaining a copy
//! of this software and associated documentation files (the "Software"), to deal
//! in the Software without restriction, including without limitation the rights
//! to use, copy, modify, merge, publish, distribute, sublicense, and/or sell
//! copies of the Software, and to permit persons to whom the Software is
//! furnished to do so, subject to the following conditions:
//!
//! The above copyright notice and this permission notice shall be included in all
//! copies or substantial portions of the Software.
//!
//! THE SOFTWARE IS PROVIDED "AS IS", WITHOUT WARRANTY OF ANY KIND, EXPRESS OR
//! IMPLIED, INCLUDING BUT NOT LIMITED TO THE WARRANTIES OF MERCHANTABILITY,
//! FITNESS FOR A PARTICULAR PURPOSE AND NONINFRINGEMENT. IN NO EVENT SHALL THE
//! AUTHORS OR COPYRIGHT HOLDERS BE LIABLE FOR ANY CLAIM, DAMAGES OR OTHER
//! LIABILITY, WHETHER IN AN ACTION OF CONTRACT, TORT OR OTHERWISE, ARISING FROM,
//! OUT OF OR IN CONNECTION WITH THE SOFTWARE OR THE USE OR OTHER DEALINGS IN THE
//! SOFTWARE.

use super::{
    bound::Bound,
    directions::point,
    frames::{bisecting, carry, ends, leaving, Axes},
    twists::{search, shares},
};
use crate::{
    arithmetic::{turn, Point},
    paper::description::Description,
};

/// Fills the body's stretch. False where a coordinate is not finite; then the stretch holds anything.
pub fn write(
    description: Description,
    curve: &[f32],
    directions: &[Point],
    stretch: &mut [f32],
) -> bool {
    let out = stretch.as_chunks_mut::<3>().0;
    match description {
        Description::Ribbon { width } => write_ribbon(curve, directions, width, out),
        Description::Tube { divisions, radius } => {
            write_tube(curve, directions, divisions, radius, out)
        }
        Description::Capsule {
            divisions,
            longitudes,
            radius,
        } => write_capsule(curve, directions, [divisions, longitudes], radius, out),
        Description::Torus { divisions, radius } => {
            write_torus(curve, directions, divisions, radius, out)
        }
        Description::ClosedCylinder {
            divisions,
            layers,
            centred,
            radius,
            length,
        } => {
            let low = if centred { -length * 0.5 } else { 0.0 };
            write_closed_cylinder([divisions, layers], [radius, low, length], out)
        }
        Description::SeamlessTorus { divisions, radius } => {
            write_seamless_torus(curve, directions, divisions, radius, out)
        }
    }
}

/// A cosine and a sine.
type Pair = [f32; 2];

/// The directions round a body.
fn round(divisions: u32) -> Vec<Pair> {
    let pair = |k| <Pair>::from(turn(k, divisions));
    (0..divisions).map(pair).collect()
}

fn scaled(round: &[Pair], scale: f32) -> Vec<Pair> {
    let pair = |pair: &Pair| pair.map(|factor| scale * factor);
    round.iter().map(pair).collect()
}

#[inline(always)]
fn vertex(curve: &[f32], place: usize) -> Point {
    point(&curve.as_chunks::<3>().0[place])
}

#[inline(always)]
fn xyz(point: Point) -> [f32; 3] {
    [point.x, point.y, point.z]
}

fn write_ribbon(curve: &[f32], directions: &[Point], width: f32, out: &mut [[f32; 3]]) -> bool {
    let mut bound = Bound::new();
    let mut pair = |place: usize, frame: Point| {
        let p = vertex(curve, place);
        let q = p.sum(frame.times(width));
        bound.note(q);
        out[2 * place] = xyz(p);
        out[2 * place + 1] = xyz(q);
    };
    let frame = carry(curve, directions, leaving, |place, axes| {
        pair(place, axes.x)
    });
    pair(directions.len(), frame);
    bound.are_finite(out)
}

/// Cosine goes with ey, which is added first.
#[inline(always)]
fn write_ring(out: &mut [[f32; 3]], middle: Point, [x, y]: [Point; 2], pairs: &[Pair]) {
    for (to, &[cos, sin]) in out[..pairs.len()].iter_mut().zip(pairs) {
        *to = xyz(middle.sum(y.times(cos)).sum(x.times(sin)));
    }
}

/// The ring of a tube's or a capsule's side.
#[inline(always)]
fn write_side(
    out: &mut [[f32; 3]],
    p: Point,
    axes: Axes,
    radius: f32,
    pairs: &[Pair],
    bound: &mut Bound,
) {
    let [x, y] = axes.across();
    bound.note_ring(p, x, y, radius);
    write_ring(out, p, [x, y], pairs);
}

fn write_tube(
    curve: &[f32],
    directions: &[Point],
    divisions: u32,
    radius: f32,
    out: &mut [[f32; 3]],
) -> bool {
    let pairs = scaled(&round(divisions), radius);
    let mut bound = Bound::new();
    let x = carry(curve, directions, bisecting, |place, axes| {
        let (p, out) = (vertex(curve, place), &mut out[place * pairs.len()..]);
        write_side(out, p, axes, radius, &pairs, &mut bound);
    });
    let last = directions.len();
    let (p, z) = (vertex(curve, last), directions[last - 1]);
    let top = &mut out[last * pairs.len()..];
    write_side(top, p, Axes { x, z }, radius, &pairs, &mut bound);
    bound.are_finite(out)
}

fn write_capsule(
    curve: &[f32],
    directions: &[Point],
    [divisions, longitudes]: [u32; 2],
    radius: f32,
    out: &mut [[f32; 3]],
) -> bool {
    let round = round(divisions);
    let pairs = scaled(&round, radius);
    let (l, last) = (longitudes as usize, directions.len());
    let mut bound = Bound::new();
    let mut bottom = None;
    let x = carry(curve, directions, bisecting, |place, axes| {
        if place == 0 {
            bottom = Some(axes);
        } else {
            let out = &mut out[1 + (l + place - 1) * pairs.len()..];
            let p = vertex(curve, place);
            write_side(out, p, axes, radius, &pairs, &mut bound);
        }
    });
    let bottom = bottom.expect("the first vertex is visited");
    let z = directions[last - 1];
    let top = Axes { x, z };
    for (p, axes) in [(vertex(curve, 0), bottom), (vertex(curve, last), top)] {
        // Poles and rings of the caps reach no further than both together.
        bound.note_ring(p, axes.x, axes.across()[1], radius);
        bound.note_ring(p, axes.z, axes.z, radius);
    }
    let cap = 1 + l * round.len();
    write_bottom(&mut out[..cap], vertex(curve, 0), bottom, radius, &round);
    let above = out.len() - cap;
    write_top(&mut out[above..], vertex(curve, last), top, radius, &round);
    bound.are_finite(out)
}

/// The pole, then its rings, the innermost first.
fn write_bottom(out: &mut [[f32; 3]], p: Point, axes: Axes, radius: f32, round: &[Pair]) {
    let (pole, rings) = out.split_at_mut(1);
    pole[0] = xyz(p.difference(axes.z.times(radius)));
    let longitudes = (rings.len() / round.len()) as u32;
    for (k, ring) in (0..).zip(rings.chunks_exact_mut(round.len()).rev()) {
        let (cos, sin) = turn(k, 4 * longitudes);
        let middle = p.sum(axes.z.times(-radius * sin));
        write_ring(ring, middle, axes.across(), &scaled(round, radius * cos));
    }
}

/// Its rings, the innermost last, then the pole. ex is added first.
fn write_top(out: &mut [[f32; 3]], p: Point, axes: Axes, radius: f32, round: &[Pair]) {
    let (rings, pole) = out.split_at_mut(out.len() - 1);
    pole[0] = xyz(p.sum(axes.z.times(radius)));
    let longitudes = (rings.len() / round.len()) as u32;
    let [x, y] = axes.across();
    for (k, ring) in (0..).zip(rings.chunks_exact_mut(round.len())) {
        let tilt = turn(k, 4 * longitudes);
        let middle = p.sum(axes.z.times(radius * tilt.1));
        let c0 = radius * tilt.0;
        for (to, [cos, sin]) in ring.iter_mut().zip(round) {
            *to = xyz(middle.sum(x.times(c0 * sin)).sum(y.times(c0 * cos)));
        }
    }
}

/// Cosine goes with ex here.
fn write_torus(
    curve: &[f32],
    directions: &[Point],
    divisions: u32,
    radius: f32,
    out: &mut [[f32; 3]],
) -> bool {
    let round = round(divisions);
    let mut bound = Bound::new();
    carry(curve, directions, leaving, |place, axes| {
        let (p, out) = (vertex(curve, place), &mut out[place * round.len()..]);
        write_torus_ring(out, p, axes, radius, &round, &mut bound);
    });
    bound.are_finite(out)
}

#[inline(always)]
fn write_torus_ring(
    out: &mut [[f32; 3]],
    p: Point,
    axes: Axes,
    radius: f32,
    round: &[Pair],
    bound: &mut Bound,
) {
    let [x, y] = axes.across();
    bound.note_ring(p, x, y, radius);
    for (to, &[cos, sin]) in out.iter_mut().zip(round) {
        let across = x.times(cos).sum(y.times(sin));
        *to = xyz(p.sum(across.times(radius)));
    }
}

/// The frames have to be known before the first ring, since the last of them tells the twist.
fn write_seamless_torus(
    curve: &[f32],
    directions: &[Point],
    divisions: u32,
    radius: f32,
    out: &mut [[f32; 3]],
) -> bool {
    let mut frames = Vec::with_capacity(directions.len());
    carry(curve, directions, leaving, |_, axes| frames.push(axes.x));
    let Some(twist) = search(ends(directions, &frames)) else {
        return false;
    };
    let shares = shares(twist, directions.len());
    let round = round(divisions);
    let mut bound = Bound::new();
    for (place, (&z, [cos, sin])) in directions.iter().zip(shares).enumerate() {
        let x = frames[place];
        let x = x.times(sin).sum(z.cross(x).times(cos));
        let (p, out) = (vertex(curve, place), &mut out[place * round.len()..]);
        write_torus_ring(out, p, Axes { x, z }, radius, &round, &mut bound);
    }
    bound.are_finite(out)
}

fn write_closed_cylinder(
    [divisions, layers]: [u32; 2],
    [radius, low, length]: [f32; 3],
    out: &mut [[f32; 3]],
) -> bool {
    let pairs = scaled(&round(divisions), radius);
    let last = out.len() - 1;
    out[0] = [0.0, low, 0.0];
    out[last] = [0.0, low + length, 0.0];
    let mut bound = Bound::new();
    bound.note(Point::new(radius, low + length, radius));
    let step = length / layers as f32;
    for (g, ring) in out[1..last].chunks_exact_mut(pairs.len()).enumerate() {
        let height = low + step * g as f32;
        bound.note(Point::new(0.0, height, 0.0));
        for (to, &[x, z]) in ring.iter_mut().zip(&pairs) {
            *to = [x, height, z];
        }
    }
    bound.are_finite(out)
}
