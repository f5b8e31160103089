//! One vertex, segment or coordinate at a time, for the compiler to put together.

mod bound;
mod directions;
mod frames;
mod twists;
mod vertices;

use super::{Chain, Form};
use crate::{
    arithmetic::Point,
    paper::description::{Description, Refusal},
};
pub use twists::search;

/// Looks at all values whatever the first ones are, so that several can be looked at at once.
pub fn are_finite(values: &[f32]) -> bool {
    let finite = |x: &f32| x.abs() < f32::INFINITY;
    values.iter().fold(true, |all, x| all & finite(x))
}

/// The directions of the curve's segments.
pub struct Plain(Vec<Point>);

impl Form for Plain {
    fn new() -> Plain {
        Plain(Vec::new())
    }

    fn check(&mut self, curve: &[f32], chain: Chain) -> Result<(), Refusal> {
        self.0 = directions::work_out(curve, chain)?;
        Ok(())
    }

    fn write_vertices(&mut self, description: Description, curve: &[f32], out: &mut [f32]) -> bool {
        vertices::write(description, curve, &self.0, out)
    }
}
