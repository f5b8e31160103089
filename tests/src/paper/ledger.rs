//! Document 01's ledger, with which demand 3 compares a list of additions. It knows bodies and lengths, and no
//! table.

use super::{
    curve::check,
    description::{Description, Refusal},
    twist::{permitted, taken, Twist},
    vertices::vertices,
};
use crate::{
    buffers::{Buffers, Lengths},
    topology::{Triangle, LARGEST_TOTAL},
};
use std::ops::Range;

/// A body alone: its vertices and local triangles.
pub struct Alone {
    pub vertices: Vec<[f32; 3]>,
    pub triangles: Vec<Triangle>,
}

/// What makes the body alone of a description and curve that are accepted, with the twist of kind
/// 6.
pub type Maker = fn(Description, &[f32], Twist) -> Alone;

/// The body alone by the papers' definitions.
pub fn by_the_paper(description: Description, curve: &[f32], twist: Twist) -> Alone {
    let body = description.body(curve.len() / 3);
    let points = vertices(description, curve, twist);
    Alone {
        vertices: points.into_iter().map(|p| [p.x, p.y, p.z]).collect(),
        triangles: body.expect("permitted numbers").triangles(),
    }
}

/// A body of the ledger, with its k if it is of kind 6.
struct Entry {
    kind: u32,
    divisions: u32,
    twist: Twist,
    alone: Alone,
}

/// A list of bodies, empty after the clear.
pub struct Ledger {
    lengths: Lengths,
    maker: Maker,
    entries: Vec<Entry>,
    /// The elements of the vertex buffer that each 23 would have filled.
    zeroed: Vec<Range<usize>>,
}

impl Ledger {
    pub fn new(lengths: Lengths, maker: Maker) -> Ledger {
        Ledger {
            lengths,
            maker,
            entries: Vec::new(),
            zeroed: Vec::new(),
        }
    }

    /// The first refusal, in add's order, whose condition holds. Otherwise the body goes to the
    /// end. `left` is the vertex buffer as the core left it, where that is at hand: of several
    /// best k of kind 6 it shows which add took.
    pub fn add(
        &mut self,
        description: Description,
        curve: &[f32],
        left: Option<&[f32]>,
    ) -> Result<(), Refusal> {
        check(description, curve)?;
        let [vertices, triangles] = description.counts(curve.len() / 3)?;
        if self.entries.len() == 64 || 7 + 6 * self.entries.len() > self.lengths.table {
            return Err(Refusal::NoFurtherEntry);
        }
        let exceeds = |total: usize, new: u32, length: usize| {
            let total = total + new as usize;
            total > LARGEST_TOTAL as usize || 3 * total > length
        };
        if exceeds(self.vertex_total(), vertices, self.lengths.vertices) {
            return Err(Refusal::VertexRoom);
        }
        if exceeds(self.triangle_total(), triangles, self.lengths.triangles) {
            return Err(Refusal::TriangleRoom);
        }
        let start = 3 * self.vertex_total();
        let stretch = start..start + 3 * vertices as usize;
        let left = left.map(|left| &left[stretch.clone()]);
        let Some(entry) = self.entry(description, curve, left) else {
            self.zeroed.push(stretch);
            return Err(Refusal::VertexNotFinite);
        };
        self.entries.push(entry);
        Ok(())
    }

    /// The body with its k, or nothing where 23 refuses it: a c0, s0 or score that is not finite,
    /// which permits no k, or a vertex.
    fn entry(
        &self,
        description: Description,
        curve: &[f32],
        left: Option<&[f32]>,
    ) -> Option<Entry> {
        let make = |twist| (self.maker)(description, curve, twist);
        let floats = |twist| make(twist).vertices.concat();
        let twist = taken(&permitted(description, curve), left, floats)?;
        let alone = make(twist);
        let finite = alone.vertices.iter().flatten().all(|x| x.is_finite());
        finite.then(|| Entry {
            kind: description.kind(),
            divisions: description.divisions().unwrap_or(0),
            twist,
            alone,
        })
    }

    /// k of the ledger's last body, which only kind 6 has.
    pub fn last_twist(&self) -> Twist {
        self.entries.last().and_then(|entry| entry.twist)
    }

    pub fn body_count(&self) -> usize {
        self.entries.len()
    }

    pub fn vertex_total(&self) -> usize {
        let counts = self.entries.iter().map(|entry| entry.alone.vertices.len());
        counts.sum()
    }

    pub fn triangle_total(&self) -> usize {
        let counts = self.entries.iter().map(|entry| entry.alone.triangles.len());
        counts.sum()
    }

    /// Word 0 with an entry for each body, all vertices, and all triangles with their body's first vertex added.
    pub fn set(&self) -> Buffers {
        let mut set = Buffers {
            table: vec![self.entries.len() as u32],
            vertices: Vec::new(),
            triangles: Vec::new(),
        };
        for Entry {
            kind,
            divisions,
            alone,
            ..
        } in &self.entries
        {
            let first_vertex = (set.vertices.len() / 3) as u32;
            let first_triangle = (set.triangles.len() / 3) as u32;
            let [vertices, triangles] = [alone.vertices.len(), alone.triangles.len()];
            set.table.extend([*kind, *divisions]);
            set.table.extend([first_vertex, vertices as u32]);
            set.table.extend([first_triangle, triangles as u32]);
            set.vertices.extend(alone.vertices.as_flattened());
            let indices = alone.triangles.as_flattened().iter();
            set.triangles
                .extend(indices.map(|index| first_vertex + index));
        }
        set
    }

    /// What three buffers that held `began` hold after the additions: the set at the front, and past it what they
    /// held, with +0 in the vertex stretch of each 23.
    pub fn after(&self, began: &Buffers) -> Buffers {
        let mut after = began.clone();
        for stretch in &self.zeroed {
            after.vertices[stretch.clone()].fill(0.0);
        }
        let set = self.set();
        after.table[..set.table.len()].copy_from_slice(&set.table);
        after.vertices[..set.vertices.len()].copy_from_slice(&set.vertices);
        after.triangles[..set.triangles.len()].copy_from_slice(&set.triangles);
        after
    }
}
