//! The frame carried along a curve, after the source's polyline3.rs and polyloop3.rs. What of a step does not depend
//! on the frame before is worked out for four vertices at a time.
//!
//! MIT License
//!
//! Copyright (c) 2022 Nobuyuki Umetani
//!
//! Permission is hereby granted, free of charge, to any person obtaining a copy
//! of this software and associated documentation files (the "Software"), to deal
//! in the Software without restriction, including without limitation the rights
//! to use, copy, modify, merge, publish, distribute, sublicense, and/or sell
//! copies of the Software, and to permit persons to whom the Software is
//! furnished to do so, subject to the following conditions:
//!
//! The above copyright notice and this permission notice shall be included in all
//! copies or substantial portions of the Software.
//!
//! THE SOFTWARE IS PROVIDED "AS IS", WITHOUT WARRANTY OF ANY KIND, EXPRESS OR
//! IMPLIED, INCLUDING BUT NOT LIMITED TO THE WARRANTIES OF MERCHANTABILITY,
//! FITNESS FOR A PARTICULAR PURPOSE AND NONINFRINGEMENT. IN NO EVENT SHALL THE
//! AUTHORS OR COPYRIGHT HOLDERS BE LIABLE FOR ANY CLAIM, DAMAGES OR OTHER
//! LIABILITY, WHETHER IN AN ACTION OF CONTRACT, TORT OR OTHERWISE, ARISING FROM,
//! OUT OF OR IN CONNECTION WITH THE SOFTWARE OR THE USE OR OTHER DEALINGS IN THE
//! SOFTWARE.

use super::{
    directions::Directions,
    four::{crosses, dots, normalised, sums, transposed, Four},
};
use crate::{
    arithmetic::{first_frame, transport_step, Point},
    optimised::twists::Ends,
};
use std::mem::MaybeUninit;

/// A curve vertex's axes along and across it; the third is their cross product.
#[derive(Clone, Copy)]
pub struct Axes {
    pub x: Four,
    pub z: Four,
}

impl Axes {
    #[inline(always)]
    pub fn y(self) -> Four {
        self.z.cross(self.x)
    }
}

/// The frame at the first vertex.
pub fn first(curve: &[f32]) -> Four {
    let [x, y, z] = [0, 1, 2].map(|axis| curve[3 + axis] - curve[axis]);
    let Point { x, y, z } = first_frame(Point::new(x, y, z));
    Four::point([x, y, z])
}

/// The axis along an open curve at its inner vertices.
#[inline(always)]
pub fn bisecting(before: [Four; 3], after: [Four; 3]) -> [Four; 3] {
    let sum = sums(before, after);
    normalised(sum, dots(sum, sum))
}

/// The axis along a closed curve.
#[inline(always)]
pub fn leaving(_before: [Four; 3], after: [Four; 3]) -> [Four; 3] {
    after
}

/// Visits the first vertex and each at which two segments meet, in order, with the axis along the curve as it is
/// asked for. Gives the last frame. A visit comes after the next step, so that the machine can do both at once.
#[inline(always)]
pub fn carry(
    directions: &Directions,
    start: Axes,
    along: impl Fn([Four; 3], [Four; 3]) -> [Four; 3],
    mut visit: impl FnMut(usize, Axes),
) -> Four {
    let segments = directions.segments();
    let mut waiting = start;
    for vertex in (1..segments).step_by(4) {
        let (before, after) = (directions.four(vertex - 1), directions.four(vertex));
        let c = dots(before, after);
        let [q_x, q_y, q_z] = crosses(before, after);
        let [z_x, z_y, z_z] = along(before, after);
        let steps = transposed([q_x, q_y, q_z, c]).into_iter();
        let axes = transposed([z_x, z_y, z_z, Four::all(1.0) + c]);
        for (place, (step, z)) in steps.zip(axes).take(segments - vertex).enumerate() {
            let [c, opening] = [step.lane_in_all::<3>(), z.lane_in_all::<3>()];
            let x = carried(waiting.x, step, c, opening).at_once();
            visit(vertex + place - 1, waiting);
            waiting = Axes { x, z };
        }
    }
    visit(segments - 1, waiting);
    waiting.x
}

/// Document 01's transport step, of q, c and 1 + c.
#[inline(always)]
fn carried(frame: Four, q: Four, c: Four, opening: Four) -> Four {
    (frame * c + q.cross(frame)) + q * (q.dot(frame) / opening)
}

/// The most vertices of a loop.
const ROOM: usize = 4096;

/// The frames at all vertices of a loop.
pub struct Frames {
    frames: [MaybeUninit<Four>; ROOM],
    count: usize,
}

impl Frames {
    /// None yet. Nothing is written, since a short loop needs little of the room.
    #[inline(always)]
    pub fn none() -> Frames {
        Frames {
            frames: [const { MaybeUninit::uninit() }; ROOM],
            count: 0,
        }
    }

    #[inline(always)]
    pub fn push(&mut self, frame: Four) {
        self.frames[self.count].write(frame);
        self.count += 1;
    }

    #[inline(always)]
    fn frame(&self, place: usize) -> Four {
        assert!(place < self.count);
        // SAFETY: the first `count` frames have been written.
        unsafe { self.frames[place].assume_init() }
    }

    /// Four frames from this one on by their components, of which those past the last repeat it.
    #[inline(always)]
    pub fn four(&self, first: usize) -> [Four; 3] {
        let frame = |place: usize| self.frame((first + place).min(self.count - 1));
        let [x, y, z, _] = transposed([frame(0), frame(1), frame(2), frame(3)]);
        [x, y, z]
    }

    /// The last frame, transported onto the first segment, against the first.
    pub fn ends(&self, directions: &Directions) -> Ends {
        let point = |[x, y, z]: [f32; 3]| Point::new(x, y, z);
        let frame = |place: usize| {
            let [x, y, z, _] = self.frame(place).lanes();
            Point::new(x, y, z)
        };
        let (before, after) = (point(directions.last()), point(directions.direction(0)));
        let x = transport_step(frame(self.count - 1), before, after);
        Ends {
            c0: x.dot(frame(0)),
            s0: x.dot(after.cross(frame(0))),
        }
    }
}
