//! Tables made by hand, undamaged and damaged, over buffers that hold anything.

use crate::{
    buffers::{Buffers, Lengths},
    generator::Generator,
    inputs::any_kind,
};

/// What an entry says of its body beside the firsts: kind, n, vertex count and triangle count.
pub type Row = [u32; 4];

/// Words 0 and on of a table with these rows. Each first is the sum before it, which may have wrapped.
pub fn table(rows: &[Row]) -> Vec<u32> {
    let mut table = vec![rows.len() as u32];
    let (mut vertices, mut triangles) = (0u32, 0u32);
    for &[kind, n, vertex_count, triangle_count] in rows {
        table.extend([kind, n, vertices, vertex_count, triangles, triangle_count]);
        vertices = vertices.wrapping_add(vertex_count);
        triangles = triangles.wrapping_add(triangle_count);
    }
    table
}

/// So many rows of any kinds and n with small counts, 0 among them.
pub fn rows(generator: &mut Generator, count: usize) -> Vec<Row> {
    let row = |_| {
        let [kind, n] = [any_kind(generator), generator.word()];
        [kind, n, generator.between(0, 9), generator.between(0, 9)]
    };
    (0..count).map(row).collect()
}

/// Garbage buffers with room for the rows and so many elements more in each, and the rows' table.
pub fn over_garbage(generator: &mut Generator, rows: &[Row], spare: Lengths) -> Buffers {
    let table = table(rows);
    let room = |column: usize| 3 * rows.iter().map(|row| row[column] as usize).sum::<usize>();
    let lengths = Lengths {
        table: table.len() + spare.table,
        vertices: room(2) + spare.vertices,
        triangles: room(3) + spare.triangles,
    };
    let mut buffers = Buffers::garbage(generator, lengths);
    buffers.table[..table.len()].copy_from_slice(&table);
    buffers
}
