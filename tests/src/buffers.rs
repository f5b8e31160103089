//! A table, a vertex buffer and a triangle buffer, held together.

use crate::generator::Generator;

/// How many elements each buffer has.
#[derive(Clone, Copy, Debug)]
pub struct Lengths {
    pub table: usize,
    pub vertices: usize,
    pub triangles: usize,
}

impl Lengths {
    pub fn total(self) -> usize {
        self.table + self.vertices + self.triangles
    }
}

#[derive(Clone, Debug)]
pub struct Buffers {
    pub table: Vec<u32>,
    pub vertices: Vec<f32>,
    pub triangles: Vec<u32>,
}

impl Buffers {
    /// Any patterns, NaNs among the vertices.
    pub fn garbage(generator: &mut Generator, lengths: Lengths) -> Buffers {
        let vertices = generator.words(lengths.vertices);
        Buffers {
            table: generator.words(lengths.table),
            vertices: vertices.into_iter().map(f32::from_bits).collect(),
            triangles: generator.words(lengths.triangles),
        }
    }

    pub fn lengths(&self) -> Lengths {
        Lengths {
            table: self.table.len(),
            vertices: self.vertices.len(),
            triangles: self.triangles.len(),
        }
    }

    /// Every element bit for bit, since untouched memory keeps the very bits of a NaN.
    pub fn is_same(&self, other: &Buffers) -> bool {
        self.table == other.table
            && self.triangles == other.triangles
            && self.bits().eq(other.bits())
    }

    fn bits(&self) -> impl Iterator<Item = u32> + '_ {
        self.vertices.iter().map(|x| x.to_bits())
    }
}
