//! Curves made so that one segment, or one bend, has exactly the measure that is wanted at a chosen place,
//! and everything else about them is accepted.

use crate::{
    arithmetic::Point,
    generator::Generator,
    paper::curve::{opening, LEAST_OPENING},
};

/// The vertices of each curve here. As a closed curve it has as many segments.
pub const VERTICES: usize = 5;

/// The flat curve that has the polygon's first vertex at `place`.
fn turned(polygon: [[f32; 3]; VERTICES], place: usize) -> Vec<f32> {
    let mut curve = polygon;
    curve.rotate_right(place);
    curve.concat()
}

/// A curve whose segment from the vertex `place` on is exactly `segment`; from the last vertex it is the
/// closing one. The other segments are a few times `scale` long.
pub fn with_segment(segment: [f32; 3], scale: f32, place: usize) -> Vec<f32> {
    let far = |x: f32, y: f32, z: f32| [x * scale, y * scale, z * scale];
    let polygon = [
        [0.0; 3],
        segment,
        far(4.0, 1.0, 2.0),
        far(5.0, 4.0, -1.0),
        far(1.0, 5.0, 2.0),
    ];
    turned(polygon, place)
}

/// A segment along the axis `main`, and a little along the axis `minor`, that dotted with itself is exactly
/// `square`. It is searched for next to the root.
pub fn segment_of_square(square: f32, main: usize, minor: usize) -> [f32; 3] {
    for down in 0..8 {
        let mut segment = [0.0; 3];
        segment[main] = f32::from_bits(square.sqrt().to_bits() - down);
        let rest = f64::from(square) - f64::from(segment[main]).powi(2);
        if rest < 0.0 {
            continue;
        }
        let middle = (rest.sqrt() as f32).to_bits();
        for pattern in middle.saturating_sub(100)..middle + 100 {
            segment[minor] = f32::from_bits(pattern);
            let [x, y, z] = segment;
            let point = Point::new(x, y, z);
            if point.dot(point) == square {
                return segment;
            }
        }
    }
    panic!("no segment of square {square:e} along {main} and {minor}");
}

/// Two segments that meet nearly in a fold.
#[derive(Clone, Copy, Debug)]
pub struct Bend {
    pub before: Point,
    pub after: Point,
}

impl Bend {
    /// A curve that has the bend at its vertex `place`.
    pub fn curve(self, place: usize) -> Vec<f32> {
        let aside = self.aside().times(self.before.norm());
        let back = Point::new(-self.before.x, -self.before.y, -self.before.z);
        let polygon = [
            [0.0; 3],
            xyz(self.after),
            xyz(self.after.sum(aside)),
            xyz(back.sum(aside)),
            xyz(back),
        ];
        turned(polygon, place)
    }

    /// A direction square to the segment before.
    fn aside(self) -> Point {
        square_to(self.before, Point::new(0.3, -0.5, 0.8))
    }
}

fn square_to(direction: Point, other: Point) -> Point {
    direction.cross(other).normalize()
}

fn xyz(p: Point) -> [f32; 3] {
    [p.x, p.y, p.z]
}

/// Bends whose 1 + c is just refused, the least that is accepted, and the next above it. Next to -1 the
/// numbers c lie 2^-24 apart, and so do the values that 1 + c takes.
#[derive(Default)]
pub struct Bends {
    pub below: Vec<Bend>,
    pub at: Vec<Bend>,
    pub above: Vec<Bend>,
}

const BEND_STEP: f32 = 1.0 / (1 << 24) as f32;

/// Searches from so many random segments, each with bends round the one that is wanted.
pub fn bends(generator: &mut Generator, segments: usize) -> Bends {
    let mut found = Bends::default();
    for _ in 0..segments {
        let size = generator.power_of_two(-10, 10);
        let mut point = || Point::new(generator.unit(), generator.unit(), generator.unit());
        let before = point().times(size);
        let aside = square_to(before, point()).times(1.5 * before.norm());
        for round in -40..=40 {
            // The tangent of the bend at which 1 + c is 2^-12, and its neighbours.
            let tilt = 0.022_102 * (1.0 + round as f32 / 65536.0);
            let after = before.times(-1.5).sum(aside.times(tilt));
            found.sort_in(Bend { before, after });
        }
    }
    found
}

impl Bends {
    fn sort_in(&mut self, bend: Bend) {
        let opening = opening(bend.before, bend.after);
        if opening == LEAST_OPENING - BEND_STEP {
            self.below.push(bend);
        } else if opening == LEAST_OPENING {
            self.at.push(bend);
        } else if opening == LEAST_OPENING + BEND_STEP {
            self.above.push(bend);
        }
    }
}
