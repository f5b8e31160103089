//! Whether vertices are finite, told for whole rings at a time, as the other form does it.

use crate::arithmetic::Point;

/// Whether every ring and point so far keeps within a quarter of the largest number.
pub struct Bound {
    kept: bool,
}

impl Bound {
    pub fn new() -> Bound {
        Bound { kept: true }
    }

    /// A ring, the factors of whose axes are at most `reach` or round to a little more.
    #[inline(always)]
    pub fn note_ring(&mut self, middle: Point, first: Point, second: Point, reach: f32) {
        let most = |p: f32, a: f32, b: f32| p.abs() + (a.abs() + b.abs()) * reach;
        self.note(Point::new(
            most(middle.x, first.x, second.x),
            most(middle.y, first.y, second.y),
            most(middle.z, first.z, second.z),
        ));
    }

    #[inline(always)]
    pub fn note(&mut self, point: Point) {
        let below = |coordinate: f32| coordinate.abs() < f32::MAX / 4.0;
        self.kept &= below(point.x) & below(point.y) & below(point.z);
    }

    /// Whether the coordinates are finite; they are looked at where the bound does not tell.
    pub fn are_finite(self, coordinates: &[[f32; 3]]) -> bool {
        self.kept || super::are_finite(coordinates.as_flattened())
    }
}
