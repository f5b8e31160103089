//! Closed curves whose shape says how the frame that is carried along them comes back.

use crate::{arithmetic::turn, paper::twist};
use std::f64::consts::TAU;

type Xyz = [f32; 3];

/// So many vertices round the axis z at distance 1, which wind about that circle on a wire of this
/// radius, for a negative one the other way. Without windings, or with a radius of 0, the curve
/// lies in a plane.
pub fn coil(vertices: u32, windings: u32, wire: f32) -> Vec<Xyz> {
    let vertex = |i: u32| {
        let (cos, sin) = turn(i, vertices);
        let winding = u64::from(i) * u64::from(windings) % u64::from(vertices);
        let (out, up) = turn(winding as u32, vertices);
        let distance = 1.0 + wire.abs() * out;
        [distance * cos, distance * sin, wire * up]
    };
    (0..vertices).map(vertex).collect()
}

/// The curve leant over by so much a unit of x, with the axis z in the place of this axis.
pub fn tilted(curve: Vec<Xyz>, lean: f32, axis: usize) -> Vec<Xyz> {
    let lean = |[x, y, z]: Xyz| [x, y, z + lean * x];
    let turned = |mut vertex: Xyz| {
        vertex.rotate_right((axis + 1) % 3);
        vertex
    };
    curve.into_iter().map(lean).map(turned).collect()
}

/// The part of a turn by which the frame comes back turned, from -1/2 to 1/2.
pub fn end_twist(curve: &[f32]) -> f64 {
    let ends = twist::ends(curve);
    f64::from(ends.s0).atan2(f64::from(ends.c0)) / TAU
}

/// The wire with which the frame comes back turned by half a turn and a little more.
const WIDEST: f32 = 0.6;

/// Eight vertices that wind three times on a wire of this radius. The end twist goes down from 0
/// as the radius goes up, by 0.62 turn at the widest, and the other way for negative radii.
fn eight(wire: f32) -> Vec<f32> {
    coil(8, 3, wire).concat()
}

/// The bits of the radius, without its sign, of the eight vertices whose end twist is nearest to
/// this part of a turn, from -1/2 to 1/2. It is found by halves.
fn wire_of(turns: f64) -> u32 {
    let (mut low, mut high) = (0, WIDEST.to_bits());
    while low + 1 < high {
        let middle = low + (high - low) / 2;
        // Between 1/2 turn and the widest the end twist comes out on the other side.
        let twist = -end_twist(&eight(f32::from_bits(middle)));
        let twist = if twist < -0.25 { twist + 1.0 } else { twist };
        if twist < turns.abs() {
            low = middle;
        } else {
            high = middle;
        }
    }
    low
}

/// A loop whose end twist is as near to this part of a turn as can be, from -1/2 to 1/2.
pub fn with_end_twist(turns: f64) -> Vec<f32> {
    next_to_end_twist(turns, 0)
}

/// The same with the wire wider by so many units in its last place.
pub fn next_to_end_twist(turns: f64, units: i32) -> Vec<f32> {
    let wire = f32::from_bits(wire_of(turns).saturating_add_signed(units));
    eight(if turns > 0.0 { -wire } else { wire })
}
