//! Refusals 11 to 13 of a curve, and the normalised segments that 13 has to know, which the vertices are made of
//! again. Four segments are worked out at a time.

use super::four::{components, dots, normalised, Four};
use crate::{
    optimised::Chain,
    paper::{
        curve::{LEAST_OPENING, LEAST_SQUARE, MOST_SQUARE},
        description::Refusal,
    },
};
use std::mem::MaybeUninit;

/// The most segments, and room for reading four past them.
const ROOM: usize = 4096 + 8;

/// The directions of a curve's segments by their components. Past the last one it is repeated.
pub struct Directions {
    components: [[MaybeUninit<f32>; ROOM]; 3],
    segments: usize,
    /// How many are written, the repeated ones included.
    written: usize,
}

impl Directions {
    /// None yet. Nothing is written, since a short curve needs little of the room.
    #[inline(always)]
    pub fn none() -> Directions {
        Directions {
            components: [[const { MaybeUninit::uninit() }; ROOM]; 3],
            segments: 0,
            written: 0,
        }
    }

    pub fn segments(&self) -> usize {
        self.segments
    }

    /// Four directions from this one on, of which those past the last repeat it.
    #[inline(always)]
    pub fn four(&self, at: usize) -> [Four; 3] {
        assert!(at + 4 <= self.written);
        let component = |axis: usize| {
            // SAFETY: the first `written` floats of each component have been written.
            let four = unsafe { self.components[axis][at..at + 4].assume_init_ref() };
            Four::load(four.try_into().expect("4 floats"))
        };
        [component(0), component(1), component(2)]
    }

    #[inline(always)]
    fn push(&mut self, four: [Four; 3]) {
        for (component, lanes) in self.components.iter_mut().zip(four) {
            component[self.written..][..4].write_copy_of_slice(&lanes.lanes());
        }
        self.written += 4;
    }

    /// Refusals 11, 12 and 13, each tried over the whole curve, or the directions in place.
    pub fn work_out(&mut self, curve: &[f32], chain: Chain) -> Result<(), Refusal> {
        if !self.push_all(curve, chain) {
            // A coordinate that is not finite makes a difference whose square is not.
            let finite = curve.iter().all(|x| x.is_finite());
            return Err(if finite {
                Refusal::SegmentLength
            } else {
                Refusal::NotFinite
            });
        }
        if self.is_folded() || chain == Chain::Seamless && self.is_folded_at_start() {
            return Err(Refusal::Fold);
        }
        Ok(())
    }

    /// False where a segment is too short, too long or not finite.
    fn push_all(&mut self, curve: &[f32], chain: Chain) -> bool {
        let vertices = curve.len() / 3;
        self.segments = chain.segments(vertices);
        let mut permitted = Four::all(f32::from_bits(u32::MAX));
        let whole = (vertices - 1) / 4;
        for block in 0..whole {
            let points = curve[12 * block..][..15].try_into().expect("five points");
            self.push_normalised(differences(points), &mut permitted);
        }
        let last = last_differences(curve, 4 * whole, self.segments);
        self.push_normalised(last, &mut permitted);
        // Four more, so that four can be read from any direction on.
        self.push(self.last().map(Four::all));
        permitted.signs() == 0b1111
    }

    #[inline(always)]
    fn push_normalised(&mut self, differences: [Four; 3], permitted: &mut Four) {
        let segments = components(differences);
        let squares = dots(segments, segments);
        let bounds = [LEAST_SQUARE, MOST_SQUARE].map(Four::all);
        *permitted = *permitted & squares.is_between(bounds[0], bounds[1]);
        self.push(normalised(segments, squares));
    }

    /// The last direction.
    pub fn last(&self) -> [f32; 3] {
        self.direction(self.segments - 1)
    }

    /// The direction of a segment.
    pub fn direction(&self, segment: usize) -> [f32; 3] {
        assert!(segment < self.written);
        // SAFETY: the first `written` floats of each component have been written.
        [0, 1, 2].map(|axis| unsafe { self.components[axis][segment].assume_init() })
    }

    /// Whether 1 + c is too small where two segments meet. Past the last one c is that of a straight line.
    fn is_folded(&self) -> bool {
        let mut folded = Four::all(0.0);
        for vertex in (1..self.segments).step_by(4) {
            let opening = Four::all(1.0) + dots(self.four(vertex - 1), self.four(vertex));
            folded = folded | opening.is_below(Four::all(LEAST_OPENING));
        }
        folded.signs() != 0
    }

    /// The same where the last segment of a loop meets the first.
    fn is_folded_at_start(&self) -> bool {
        let [before, after] = [self.last(), self.direction(0)].map(Four::point);
        let opening = Four::all(1.0) + before.dot(after);
        opening.is_below(Four::all(LEAST_OPENING)).signs() != 0
    }
}

/// The differences of five points in a row.
#[inline(always)]
fn differences(points: &[f32; 15]) -> [Four; 3] {
    let four = |at: usize| Four::load(points[at..at + 4].try_into().expect("4 floats"));
    [four(3) - four(0), four(7) - four(4), four(11) - four(8)]
}

/// The differences from this segment on to the last one, which is repeated.
fn last_differences(curve: &[f32], first: usize, segments: usize) -> [Four; 3] {
    let vertex = |place: usize| &curve[3 * place..][..3];
    let mut differences = [[0.0; 3]; 4];
    for (place, difference) in differences.iter_mut().enumerate() {
        let segment = (first + place).min(segments - 1);
        let next = (segment + 1) % (curve.len() / 3);
        let ends = vertex(segment).iter().zip(vertex(next));
        for (component, (start, end)) in difference.iter_mut().zip(ends) {
            *component = end - start;
        }
    }
    let flat = differences.as_flattened();
    [0, 4, 8].map(|at| Four::load(flat[at..at + 4].try_into().expect("4 floats")))
}
