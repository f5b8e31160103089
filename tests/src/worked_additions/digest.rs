//! One number for all that the buffers hold, and what they hold before the first step.

use crate::{
    arithmetic::word,
    buffers::{Buffers, Lengths},
};

/// The elements of the program's buffers.
pub const WHOLE: Lengths = Lengths {
    table: 400,
    vertices: 2_400,
    triangles: 4_800,
};

/// One word more. The modulus is the largest prime below 2^32.
fn mix(digest: u32, word: u32) -> u32 {
    ((u64::from(digest) * 1_000_003 + u64::from(word)) % 4_294_967_291) as u32
}

/// Every element: the table, the bits of the vertices, the triangles.
pub fn digest(buffers: &Buffers) -> u32 {
    let vertices = buffers.vertices.iter().map(|&x| word(x));
    let words = buffers.table.iter().copied().chain(vertices);
    words.chain(buffers.triangles.iter().copied()).fold(0, mix)
}

fn drawn(seed: u32, count: usize) -> Vec<u32> {
    let mut state = seed;
    let mut next = || {
        state = mix(state, 1);
        state
    };
    (0..count).map(|_| next()).collect()
}

/// Words of any size, and floats of any sort.
pub fn garbage() -> Buffers {
    let vertices = drawn(2, WHOLE.vertices).into_iter();
    Buffers {
        table: drawn(1, WHOLE.table),
        vertices: vertices.map(f32::from_bits).collect(),
        triangles: drawn(3, WHOLE.triangles),
    }
}
