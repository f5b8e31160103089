//! Document 01's calls on lent buffers: clear, add and the file, from its sections "The shared set" and "Refused,
//! and through whom".

use super::{
    curve::check,
    description::{Description, Refusal},
    twist::{permitted, taken},
    vertices::vertices,
};
use crate::{
    arithmetic::word,
    topology::{Body, LARGEST_TOTAL},
};

/// The words of an entry: kind, n, first vertex, vertex count, first triangle, triangle count.
const ENTRY: u64 = 6;
const MOST_BODIES: u64 = 64;

/// The three buffers that a call is lent.
pub struct Lent<'a> {
    pub table: &'a mut [u32],
    pub vertices: &'a mut [f32],
    pub triangles: &'a mut [u32],
}

/// The number of bodies and the totals, as whole numbers that nothing here can wrap.
#[derive(Clone, Copy)]
struct Totals {
    bodies: u64,
    vertices: u64,
    triangles: u64,
}

/// Word 0 becomes 0, whatever the table holds.
pub fn clear(table: &mut [u32]) -> Result<(), Refusal> {
    let count = table.first_mut().ok_or(Refusal::DamagedTable)?;
    *count = 0;
    Ok(())
}

/// Refusals 1, 10, 20, 21, 22, 11, 12, 13, 2, 3, 4, 23, in this order. `left` is the vertex buffer
/// as the core left it, where that is at hand: of several best k of kind 6 it shows which the core
/// took.
pub fn add(
    description: Description,
    curve: &[f32],
    lent: &mut Lent,
    left: Option<&[f32]>,
) -> Result<(), Refusal> {
    let before = totals(lent.table, lent.vertices.len(), lent.triangles.len())?;
    check(description, curve)?;
    let body = description.body(curve.len() / 3)?;
    let after = Totals {
        bodies: before.bodies + 1,
        vertices: before.vertices + u64::from(body.vertex_count()),
        triangles: before.triangles + u64::from(body.triangle_count()),
    };
    if after.bodies > MOST_BODIES || words(after) > lent.table.len() as u64 {
        return Err(Refusal::NoFurtherEntry);
    }
    if exceeds(after.vertices, lent.vertices.len()) {
        return Err(Refusal::VertexRoom);
    }
    if exceeds(after.triangles, lent.triangles.len()) {
        return Err(Refusal::TriangleRoom);
    }
    let stretch = 3 * before.vertices as usize..3 * after.vertices as usize;
    let left = left.map(|left| &left[stretch.clone()]);
    let Some(list) = finite_vertices(description, curve, left) else {
        lent.vertices[stretch].fill(0.0);
        return Err(Refusal::VertexNotFinite);
    };
    lent.vertices[stretch].copy_from_slice(&list);
    enter(description, body, before, lent);
    Ok(())
}

/// The coordinates of the body's vertices. Nothing where one of them is not finite, or, of kind 6,
/// a c0, s0 or score, which permits no twist.
fn finite_vertices(
    description: Description,
    curve: &[f32],
    left: Option<&[f32]>,
) -> Option<Vec<f32>> {
    let floats = |twist| {
        let points = vertices(description, curve, twist).into_iter();
        points.flat_map(|p| [p.x, p.y, p.z]).collect::<Vec<f32>>()
    };
    let list = floats(taken(&permitted(description, curve), left, floats)?);
    list.iter().all(|x| x.is_finite()).then_some(list)
}

/// Triangles, entry and word 0 of an accepted body.
fn enter(description: Description, body: Body, before: Totals, lent: &mut Lent) {
    let first = before.vertices as u32;
    let stretch = &mut lent.triangles[3 * before.triangles as usize..];
    let list = body.triangles();
    for (index, local) in stretch.iter_mut().zip(list.as_flattened()) {
        *index = first + local;
    }
    let entry = [
        description.kind(),
        description.divisions().unwrap_or(0),
        first,
        body.vertex_count(),
        before.triangles as u32,
        body.triangle_count(),
    ];
    lent.table[words(before) as usize..][..entry.len()].copy_from_slice(&entry);
    lent.table[0] += 1;
}

/// The words of a table of so many bodies.
fn words(totals: Totals) -> u64 {
    1 + ENTRY * totals.bodies
}

/// An exact fit is accepted.
fn exceeds(total: u64, length: usize) -> bool {
    total > u64::from(LARGEST_TOTAL) || 3 * total > length as u64
}

/// Refusal 1, or what an undamaged table says.
fn totals(table: &[u32], vertices: usize, triangles: usize) -> Result<Totals, Refusal> {
    let mut totals = Totals {
        bodies: u64::from(*table.first().ok_or(Refusal::DamagedTable)?),
        vertices: 0,
        triangles: 0,
    };
    if totals.bodies > MOST_BODIES || words(totals) > table.len() as u64 {
        return Err(Refusal::DamagedTable);
    }
    for entry in table[1..words(totals) as usize].chunks_exact(ENTRY as usize) {
        let [first_vertex, first_triangle] = [entry[2], entry[4]].map(u64::from);
        let sums = first_vertex == totals.vertices && first_triangle == totals.triangles;
        if !(1..=6).contains(&entry[0]) || !sums {
            return Err(Refusal::DamagedTable);
        }
        totals.vertices += u64::from(entry[3]);
        totals.triangles += u64::from(entry[5]);
    }
    if exceeds(totals.vertices, vertices) || exceeds(totals.triangles, triangles) {
        return Err(Refusal::DamagedTable);
    }
    Ok(totals)
}

/// The whole file: 1, B, the totals, the entries, all vertex bits, all triangles.
pub fn file(table: &[u32], vertices: &[f32], triangles: &[u32]) -> Result<Vec<u32>, Refusal> {
    let totals = totals(table, vertices.len(), triangles.len())?;
    let mut file = vec![1, totals.bodies as u32];
    file.extend([totals.vertices as u32, totals.triangles as u32]);
    file.extend(&table[1..words(totals) as usize]);
    let bits = vertices[..3 * totals.vertices as usize].iter();
    file.extend(bits.map(|&x| word(x)));
    file.extend(&triangles[..3 * totals.triangles as usize]);
    Ok(file)
}

/// Refusals 1 and 5, or the word at this place of the file.
pub fn file_word(
    table: &[u32],
    vertices: &[f32],
    triangles: &[u32],
    place: usize,
) -> Result<u32, Refusal> {
    let totals = totals(table, vertices.len(), triangles.len())?;
    let counts = [totals.bodies, totals.vertices, totals.triangles].map(|count| count as u32);
    let head = [&[1], &counts[..], &table[1..words(totals) as usize]].concat();
    let floats = &vertices[..3 * totals.vertices as usize];
    let indices = &triangles[..3 * totals.triangles as usize];
    let float = || floats.get(place - head.len()).map(|&x| word(x));
    let index = || indices.get(place - head.len() - floats.len()).copied();
    let found = head.get(place).copied().or_else(float).or_else(index);
    found.ok_or(Refusal::FileEnd)
}
