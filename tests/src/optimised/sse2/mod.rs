//! Four vertices, segments or coordinates at a time, in registers of SSE2.

mod directions;
mod four;
mod frames;
mod rings;
mod tables;
mod twists;
mod vertices;

use super::{Chain, Form};
use crate::paper::description::{Description, Refusal};
use directions::Directions;
pub use twists::search;

pub struct Sse2(Directions);

impl Form for Sse2 {
    #[inline(always)]
    fn new() -> Sse2 {
        Sse2(Directions::none())
    }

    fn check(&mut self, curve: &[f32], chain: Chain) -> Result<(), Refusal> {
        self.0.work_out(curve, chain)
    }

    fn write_vertices(&mut self, description: Description, curve: &[f32], out: &mut [f32]) -> bool {
        vertices::write(description, curve, &self.0, out)
    }
}
