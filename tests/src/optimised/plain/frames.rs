//! The frame carried along a curve, after the source's polyline3.rs and polyloop3.rs.
//!
//! MIT License
//!
//! Copyright (c) 2022 Nobuyuki Umetani
//!
//! Permission is hereby granted, free of charge, to any person obtaining a copy
//! of this software and associated documentation files (the "Software"), to deal
//! in the Software without restriction, including without limitation the rights
//! to use, copy, modify, merge, publish, distribute, sublicense, and/or sell
//! copies of the Software, and to permit persons to whom the Software is
//! furnished to do so, subject to the following conditions:
//!
//! The above copyright notice and this permission notice shall be included in all
//! copies or substantial portions of the Software.
//!
//! THE SOFTWARE IS PROVIDED "AS IS", WITHOUT WARRANTY OF ANY KIND, EXPRESS OR
//! IMPLIED, INCLUDING BUT NOT LIMITED TO THE WARRANTIES OF MERCHANTABILITY,
//! FITNESS FOR A PARTICULAR PURPOSE AND NONINFRINGEMENT. IN NO EVENT SHALL THE
//! AUTHORS OR COPYRIGHT HOLDERS BE LIABLE FOR ANY CLAIM, DAMAGES OR OTHER
//! LIABILITY, WHETHER IN AN ACTION OF CONTRACT, TORT OR OTHERWISE, ARISING FROM,
//! OUT OF OR IN CONNECTION WITH THE SOFTWARE OR THE USE OR OTHER DEALINGS IN THE
//! SOFTWARE.

use crate::{
    arithmetic::{first_frame, transport_step, Point},
    optimised::twists::Ends,
};

/// A curve vertex's axes along and across it; the third is their cross product.
#[derive(Clone, Copy)]
pub struct Axes {
    pub x: Point,
    pub z: Point,
}

impl Axes {
    /// ex and ey.
    #[inline(always)]
    pub fn across(self) -> [Point; 2] {
        [self.x, self.z.cross(self.x)]
    }
}

/// The frame at the first vertex.
pub fn first(curve: &[f32]) -> Point {
    let [x, y, z] = [0, 1, 2].map(|axis| curve[3 + axis] - curve[axis]);
    first_frame(Point::new(x, y, z))
}

/// The axis along an open curve at its inner vertices.
#[inline(always)]
pub fn bisecting(before: Point, after: Point) -> Point {
    before.sum(after).normalize()
}

/// The axis along a closed curve.
#[inline(always)]
pub fn leaving(_before: Point, after: Point) -> Point {
    after
}

/// Visits the first vertex and each at which two segments meet, in order, with the axis along the curve as it is
/// asked for. Gives the last frame.
#[inline(always)]
pub fn carry(
    curve: &[f32],
    directions: &[Point],
    along: impl Fn(Point, Point) -> Point,
    mut visit: impl FnMut(usize, Axes),
) -> Point {
    let mut x = first(curve);
    let z = directions[0];
    visit(0, Axes { x, z });
    for (place, pair) in directions.windows(2).enumerate() {
        x = transport_step(x, pair[0], pair[1]);
        let z = along(pair[0], pair[1]);
        visit(place + 1, Axes { x, z });
    }
    x
}

/// The last frame of a loop, transported onto the first segment, against the first frame.
pub fn ends(directions: &[Point], frames: &[Point]) -> Ends {
    let last = directions.len() - 1;
    let x = transport_step(frames[last], directions[last], directions[0]);
    Ends {
        c0: x.dot(frames[0]),
        s0: x.dot(directions[0].cross(frames[0])),
    }
}
