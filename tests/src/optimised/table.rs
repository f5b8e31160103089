//! The table of contents: refusal 1, the room for one body more, and the body's entry.

use crate::{
    buffers::{Buffers, Lengths},
    paper::description::{Description, Refusal},
    topology::{Body, LARGEST_TOTAL},
};

const ENTRY: usize = 6;
const MOST_BODIES: usize = 64;
const KINDS: u32 = 6;

/// The number of bodies and the totals, which no sum of 64 words can wrap.
#[derive(Clone, Copy)]
pub struct Totals {
    bodies: usize,
    pub vertices: usize,
    pub triangles: usize,
}

pub fn clear(table: &mut [u32]) -> u32 {
    match table.first_mut() {
        Some(count) => {
            *count = 0;
            0
        }
        None => Refusal::DamagedTable as u32,
    }
}

/// Refusal 1, or what an undamaged table says.
pub fn read(lent: &Buffers) -> Result<Totals, Refusal> {
    let bodies = *lent.table.first().ok_or(Refusal::DamagedTable)? as usize;
    if bodies > MOST_BODIES || 1 + ENTRY * bodies > lent.table.len() {
        return Err(Refusal::DamagedTable);
    }
    let (mut vertices, mut triangles) = (0, 0);
    let mut sound = true;
    for entry in lent.table[1..1 + ENTRY * bodies].chunks_exact(ENTRY) {
        sound &= entry[0].wrapping_sub(1) < KINDS;
        sound &= entry[2] as usize == vertices && entry[4] as usize == triangles;
        vertices += entry[3] as usize;
        triangles += entry[5] as usize;
    }
    sound &= fits(vertices, lent.vertices.len()) && fits(triangles, lent.triangles.len());
    let totals = Totals {
        bodies,
        vertices,
        triangles,
    };
    sound.then_some(totals).ok_or(Refusal::DamagedTable)
}

fn fits(total: usize, length: usize) -> bool {
    total <= LARGEST_TOTAL as usize && 3 * total <= length
}

/// Refusals 2, 3 and 4, or the totals with the body.
pub fn make_room(before: Totals, body: Body, lengths: Lengths) -> Result<Totals, Refusal> {
    let after = Totals {
        bodies: before.bodies + 1,
        vertices: before.vertices + body.vertex_count() as usize,
        triangles: before.triangles + body.triangle_count() as usize,
    };
    if after.bodies > MOST_BODIES || 1 + ENTRY * after.bodies > lengths.table {
        return Err(Refusal::NoFurtherEntry);
    }
    if !fits(after.vertices, lengths.vertices) {
        return Err(Refusal::VertexRoom);
    }
    if !fits(after.triangles, lengths.triangles) {
        return Err(Refusal::TriangleRoom);
    }
    Ok(after)
}

/// The entry of a body and word 0.
pub fn enter(table: &mut [u32], description: Description, before: Totals, after: Totals) {
    let entry = [
        description.kind(),
        description.divisions().unwrap_or(0),
        before.vertices as u32,
        (after.vertices - before.vertices) as u32,
        before.triangles as u32,
        (after.triangles - before.triangles) as u32,
    ];
    table[1 + ENTRY * before.bodies..][..ENTRY].copy_from_slice(&entry);
    table[0] = after.bodies as u32;
}
