//! Document 01's section "Frames and vertices", and document 02's vertices of kind 6.

use super::{
    curve::{points, segments},
    description::Description,
    twist::{self, Twist},
};
use crate::arithmetic::{first_frame, transport_step, turn, Point};

/// A curve vertex with its three axes.
#[derive(Clone, Copy)]
struct Station {
    p: Point,
    ex: Point,
    ey: Point,
    ez: Point,
}

impl Station {
    fn new(p: Point, ex: Point, ez: Point) -> Station {
        let ey = ez.cross(ex);
        Station { p, ex, ey, ez }
    }
}

/// The vertices of a body whose numbers are permitted, whatever its floats are. Kind 6 has a
/// twist.
pub fn vertices(description: Description, curve: &[f32], twist: Twist) -> Vec<Point> {
    match description {
        Description::Ribbon { width } => ribbon(&open_stations(curve), width),
        Description::Tube { divisions, radius } => tube(&open_stations(curve), divisions, radius),
        Description::Capsule {
            divisions,
            longitudes,
            radius,
        } => capsule(&open_stations(curve), divisions, longitudes, radius),
        Description::Torus { divisions, radius } => {
            torus(&closed_stations(curve), divisions, radius)
        }
        Description::ClosedCylinder {
            divisions,
            layers,
            centred,
            radius,
            length,
        } => {
            let low = if centred { -length * 0.5 } else { 0.0 };
            closed_cylinder(divisions, layers, low, radius, length)
        }
        Description::SeamlessTorus { divisions, radius } => {
            let k = twist.expect("a twist of kind 6");
            torus(&seamless_stations(curve, k), divisions, radius)
        }
    }
}

/// The frame of each segment: the first from the raw difference, the others transported.
pub fn frames(segments: &[Point]) -> Vec<Point> {
    let mut frames = vec![first_frame(segments[0])];
    for (g, pair) in segments.windows(2).enumerate() {
        let [before, after] = [pair[0].normalize(), pair[1].normalize()];
        frames.push(transport_step(frames[g], before, after));
    }
    frames
}

fn open_stations(curve: &[f32]) -> Vec<Station> {
    let points = points(curve);
    let segments = segments(&points, false);
    let frames = frames(&segments);
    let last = segments.len();
    let station = |(g, &p): (usize, &Point)| {
        let direction = |segment: usize| segments[segment].normalize();
        let ez = match g {
            0 => direction(0),
            _ if g == last => direction(last - 1),
            _ => direction(g - 1).sum(direction(g)).normalize(),
        };
        // Frame m is a copy of frame m - 1.
        Station::new(p, frames[g.min(last - 1)], ez)
    };
    points.iter().enumerate().map(station).collect()
}

fn closed_stations(curve: &[f32]) -> Vec<Station> {
    let points = points(curve);
    let segments = segments(&points, true);
    let frames = frames(&segments);
    let station = |g: usize| Station::new(points[g], frames[g], segments[g].normalize());
    (0..points.len()).map(station).collect()
}

/// Kind 4's stations over document 02's new frames: "Frame j becomes frame·sin + cross(direction,
/// frame)·cos, at k·j/(4096N) turn with the sign of k in the sine."
fn seamless_stations(curve: &[f32], k: i32) -> Vec<Station> {
    let stations = closed_stations(curve);
    let count = stations.len() as u32;
    let twisted = |(j, at): (u32, Station)| {
        let (frame, direction) = (at.ex, at.ez);
        let (cos, sin) = twist::part(k, j, count);
        let becomes = frame.times(sin).sum(direction.cross(frame).times(cos));
        Station::new(at.p, becomes, direction)
    };
    (0..).zip(stations).map(twisted).collect()
}

fn ribbon(stations: &[Station], width: f32) -> Vec<Point> {
    let pair = |at: &Station| [at.p, at.p.sum(at.ex.times(width))];
    stations.iter().flat_map(pair).collect()
}

/// The ring round a curve vertex, as tubes and capsules have it.
fn ring(at: Station, divisions: u32, radius: f32) -> impl Iterator<Item = Point> {
    (0..divisions).map(move |i| {
        let (cos, sin) = turn(i, divisions);
        (at.p.sum(at.ey.times(radius * cos))).sum(at.ex.times(radius * sin))
    })
}

fn tube(stations: &[Station], divisions: u32, radius: f32) -> Vec<Point> {
    let rings = stations.iter().map(|&at| ring(at, divisions, radius));
    rings.flatten().collect()
}

fn capsule(stations: &[Station], divisions: u32, longitudes: u32, radius: f32) -> Vec<Point> {
    let (first, inner, last) = match stations {
        [first, inner @ .., last] => (*first, inner, *last),
        _ => unreachable!("a curve has two ends"),
    };
    let mut list = vec![first.p.difference(first.ez.times(radius))];
    for j in 0..longitudes {
        let tilt = turn(longitudes - 1 - j, 4 * longitudes);
        list.extend(bottom_ring(first, divisions, radius, tilt));
    }
    list.extend(tube(inner, divisions, radius));
    for j in 0..longitudes {
        let tilt = turn(j, 4 * longitudes);
        list.extend(top_ring(last, divisions, radius, tilt));
    }
    list.push(last.p.sum(last.ez.times(radius)));
    list
}

/// The bottom cap adds ey before ex.
fn bottom_ring(at: Station, divisions: u32, radius: f32, tilt: (f32, f32)) -> Vec<Point> {
    let c0 = radius * tilt.0;
    let middle = at.p.sum(at.ez.times(-radius * tilt.1));
    let vertex = |i| {
        let (cos, sin) = turn(i, divisions);
        (middle.sum(at.ey.times(c0 * cos))).sum(at.ex.times(c0 * sin))
    };
    (0..divisions).map(vertex).collect()
}

/// The top cap adds ex before ey.
fn top_ring(at: Station, divisions: u32, radius: f32, tilt: (f32, f32)) -> Vec<Point> {
    let c0 = radius * tilt.0;
    let middle = at.p.sum(at.ez.times(radius * tilt.1));
    let vertex = |i| {
        let (cos, sin) = turn(i, divisions);
        (middle.sum(at.ex.times(c0 * sin))).sum(at.ey.times(c0 * cos))
    };
    (0..divisions).map(vertex).collect()
}

/// Cosine goes with ex here.
fn torus(stations: &[Station], divisions: u32, radius: f32) -> Vec<Point> {
    let vertex = |at: &Station, i: u32| {
        let (cos, sin) = turn(i, divisions);
        let across = at.ex.times(cos).sum(at.ey.times(sin));
        at.p.sum(across.times(radius))
    };
    let ring = |at| (0..divisions).map(move |i| vertex(at, i));
    stations.iter().flat_map(ring).collect()
}

fn closed_cylinder(divisions: u32, layers: u32, low: f32, radius: f32, length: f32) -> Vec<Point> {
    let mut list = vec![Point::new(0.0, low, 0.0)];
    for g in 0..=layers {
        let height = low + (length / layers as f32) * g as f32;
        for i in 0..divisions {
            let (cos, sin) = turn(i, divisions);
            list.push(Point::new(radius * cos, height, radius * sin));
        }
    }
    list.push(Point::new(0.0, low + length, 0.0));
    list
}
