//! A set damaged in each of document 01's ways: "empty; B above 64, or 1 + 6B above its length; a
//! kind outside 1 to 5; a first vertex or triangle other than the sum before it; a total above
//! 2^28 or, times 3, above a buffer's length". Document 02 admits kind 6 too.

use super::{calls, counts::Counts};
use crate::{buffers::Buffers, generator::Generator, inputs::any_kind, topology::LARGEST_TOTAL};

#[derive(Clone, Copy, Debug)]
pub enum Sort {
    Empty,
    Bodies,
    Length,
    Kind,
    FirstVertex,
    FirstTriangle,
    VertexTotal,
    TriangleTotal,
    VertexRoom,
    TriangleRoom,
}

pub const SORTS: [(Sort, &str); 10] = [
    (Sort::Empty, "empty table"),
    (Sort::Bodies, "B above 64"),
    (Sort::Length, "1 + 6B above the length"),
    (Sort::Kind, "kind"),
    (Sort::FirstVertex, "first vertex"),
    (Sort::FirstTriangle, "first triangle"),
    (Sort::VertexTotal, "vertices above 2^28"),
    (Sort::TriangleTotal, "triangles above 2^28"),
    (Sort::VertexRoom, "vertices past their buffer"),
    (Sort::TriangleRoom, "triangles past their buffer"),
];

/// Two sorts of damage to an undamaged set, and every call refused on either.
pub fn compare_some(generator: &mut Generator, set: &Buffers, counts: &mut Counts) {
    for _ in 0..2 {
        let place = generator.between(0, SORTS.len() as u32 - 1) as usize;
        let mut damaged = set.clone();
        if !damage(generator, SORTS[place].0, &mut damaged) {
            continue;
        }
        let refused = counts.on_damaged.times(1);
        calls::compare(generator, &damaged, &mut counts.on_damaged);
        let refused = counts.on_damaged.times(1) - refused;
        assert_eq!(
            refused,
            calls::CALLS,
            "{}: {:?}",
            SORTS[place].1,
            damaged.table
        );
        counts.damaged[place] += 1;
        counts.untouched += damaged.lengths().total() as u64;
    }
}

/// False where the set is too small for it.
fn damage(generator: &mut Generator, sort: Sort, set: &mut Buffers) -> bool {
    let bodies = set.table[0];
    match sort {
        Sort::Empty => set.table.clear(),
        Sort::Bodies => too_many_bodies(generator, &mut set.table),
        _ if bodies == 0 => return false,
        Sort::Length => cut(generator, &mut set.table, 1 + 6 * bodies as usize),
        Sort::Kind => *word(generator, set, 0) = generator.one_of(&[0, 7, 257, 65_538, u32::MAX]),
        Sort::FirstVertex => shift(generator, set, 2),
        Sort::FirstTriangle => shift(generator, set, 4),
        Sort::VertexTotal => overrun(generator, last(set, 2)),
        Sort::TriangleTotal => overrun(generator, last(set, 4)),
        Sort::VertexRoom => {
            let [first, count] = *last(set, 2);
            cut(generator, &mut set.vertices, 3 * (first + count) as usize);
        }
        Sort::TriangleRoom => {
            let [first, count] = *last(set, 4);
            cut(generator, &mut set.triangles, 3 * (first + count) as usize);
        }
    }
    true
}

/// Sound entries of 70 bodies, and a number above 64: in one of two cases one that all entries are there for.
fn too_many_bodies(generator: &mut Generator, table: &mut Vec<u32>) {
    let bodies = table[0] as usize;
    table.truncate(1 + 6 * bodies);
    let [mut vertices, mut triangles] = [0; 2];
    if let [.., first_vertex, vertex_count, first_triangle, triangle_count] = table[1..] {
        vertices = first_vertex + vertex_count;
        triangles = first_triangle + triangle_count;
    }
    for _ in bodies..70 {
        let kind = any_kind(generator);
        table.extend([kind, generator.word(), vertices, 0, triangles, 0]);
    }
    table[0] = match generator.one_in(2) {
        true => generator.between(65, 70),
        false => generator.word() | 1 << generator.between(7, 31),
    };
}

/// To one element less than is needed, or to any number below.
fn cut<T>(generator: &mut Generator, elements: &mut Vec<T>, needed: usize) {
    let most = needed as u32 - 1;
    let left = match generator.one_in(2) {
        true => most,
        false => generator.between(1.min(most), most),
    };
    elements.truncate(left as usize);
}

/// A word of any body's entry.
fn word<'a>(generator: &mut Generator, set: &'a mut Buffers, place: usize) -> &'a mut u32 {
    let body = generator.between(0, set.table[0] - 1) as usize;
    &mut set.table[1 + 6 * body + place]
}

fn shift(generator: &mut Generator, set: &mut Buffers, place: usize) {
    let first = word(generator, set, place);
    let change = generator.one_of(&[1, u32::MAX, 256, 65_536, 1 << 31]);
    *first = first.wrapping_add(change);
}

/// First and count of the last body, of its vertices or of its triangles.
fn last(set: &mut Buffers, place: usize) -> &mut [u32; 2] {
    let entry = 6 * set.table[0] as usize - 5;
    let pair = set.table[entry + place..].first_chunk_mut();
    pair.expect("an entry")
}

/// A count with which the total is above 2^28, by one or by as much as 32 bits have.
fn overrun(generator: &mut Generator, [first, count]: &mut [u32; 2]) {
    let least = LARGEST_TOTAL + 1 - *first;
    *count = match generator.one_in(2) {
        true => least,
        false => generator.between(least, u32::MAX),
    };
}
