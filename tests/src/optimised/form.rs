//! An addition whose float work is done in one of several ways.

use super::{table, triangles};
use crate::{
    buffers::Buffers,
    library::UNKNOWN_KIND,
    paper::description::{number, Description, Input, Refusal},
    topology::Body,
};

/// How a curve goes on after its last vertex.
#[derive(Clone, Copy, PartialEq, Eq)]
pub enum Chain {
    /// It ends there.
    Open,
    /// With a segment back to its first vertex, where a fold passes.
    Closed,
    /// With the same segment, and a fold at its first vertex is refused (13).
    Seamless,
}

impl Chain {
    fn of(description: Description) -> Chain {
        match description {
            Description::Torus { .. } => Chain::Closed,
            Description::SeamlessTorus { .. } => Chain::Seamless,
            _ => Chain::Open,
        }
    }

    /// How many segments a curve of so many vertices has.
    pub fn segments(self, vertices: usize) -> usize {
        match self {
            Chain::Open => vertices - 1,
            Chain::Closed | Chain::Seamless => vertices,
        }
    }
}

/// A way of doing the float work of one addition. The parts of it are called in this order.
pub trait Form {
    fn new() -> Self;

    /// The first of the refusals 11, 12 and 13 of a curve that is not empty.
    fn check(&mut self, curve: &[f32], chain: Chain) -> Result<(), Refusal>;

    /// Fills the body's own stretch. False where a coordinate is not finite; then the stretch holds anything.
    fn write_vertices(&mut self, description: Description, curve: &[f32], out: &mut [f32]) -> bool;

    /// Fills the body's own stretch.
    fn write_triangles(&mut self, body: Body, first: u32, out: &mut [u32]) {
        triangles::write(body, first, out);
    }
}

/// Answers 0 where the body was added, and otherwise the number of the first refusal.
pub fn add<F: Form>(input: &Input, lent: &mut Buffers) -> u32 {
    Description::of(input.fields).map_or(UNKNOWN_KIND, |description| {
        number(add_described::<F>(description, &input.curve, lent))
    })
}

/// Refusals 1, 10, 20, 21, 22, 11, 12, 13, 2, 3, 4, 23, in this order.
fn add_described<F: Form>(
    description: Description,
    curve: &[f32],
    lent: &mut Buffers,
) -> Result<(), Refusal> {
    let before = table::read(lent)?;
    let mut form = F::new();
    let body = check(&mut form, description, curve)?;
    let after = table::make_room(before, body, lent.lengths())?;
    let vertices = &mut lent.vertices[3 * before.vertices..3 * after.vertices];
    if !form.write_vertices(description, curve, vertices) {
        vertices.fill(0.0);
        return Err(Refusal::VertexNotFinite);
    }
    let triangles = &mut lent.triangles[3 * before.triangles..3 * after.triangles];
    form.write_triangles(body, before.vertices as u32, triangles);
    table::enter(&mut lent.table, description, before, after);
    Ok(())
}

/// Refusals 10, 20, 21, 22, 11, 12 and 13, in this order, or the body's whole numbers.
pub fn check<F: Form>(
    form: &mut F,
    description: Description,
    curve: &[f32],
) -> Result<Body, Refusal> {
    if !curve.len().is_multiple_of(3) {
        return Err(Refusal::CurveLength);
    }
    let body = description.body(curve.len() / 3)?;
    if !has_permitted_sizes(description) {
        return Err(Refusal::Size);
    }
    if !curve.is_empty() {
        form.check(curve, Chain::of(description))?;
    }
    Ok(body)
}

fn has_permitted_sizes(description: Description) -> bool {
    let permitted = |size: f32| size > 0.0 && size < f32::INFINITY;
    match description {
        Description::Ribbon { width } => permitted(width),
        Description::Tube { radius, .. }
        | Description::Capsule { radius, .. }
        | Description::Torus { radius, .. }
        | Description::SeamlessTorus { radius, .. } => permitted(radius),
        Description::ClosedCylinder { radius, length, .. } => {
            permitted(radius) && permitted(length)
        }
    }
}
