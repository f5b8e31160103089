//! The raw face: the functions of `libtogbefulo.a` as C has them, for whoever wants a call as it
//! stands.
//!
//! `include/togbefulo.h` says what each argument and each number means. A slice is a pointer and a
//! length in elements; where the length is 0 the pointer may be null. A buffer that a call writes
//! shares no element with another one of the call. `counts` and `word` are never null.
//!
//! This file has every `unsafe` of the crate: the crate's own functions call these through slices.

#![allow(unsafe_code)]

use crate::description::{Fields, Grid};

extern "C" {
    /// Makes the set empty.
    pub fn togbefulo_clear(table: *mut u32, table_len: usize) -> u32;
    /// Adds a body to the set.
    pub fn togbefulo_add(
        kind: u32,
        divisions: u32,
        steps: u32,
        centred: bool,
        size: f32,
        length: f32,
        curve: *const f32,
        curve_len: usize,
        table: *mut u32,
        table_len: usize,
        vertices: *mut f32,
        vertices_len: usize,
        triangles: *mut u32,
        triangles_len: usize,
    ) -> u32;
    /// Counts a body's vertices and triangles.
    pub fn togbefulo_counts(
        kind: u32,
        divisions: u32,
        steps: u32,
        centred: bool,
        size: f32,
        length: f32,
        vertices: usize,
        counts: *mut [u32; 2],
    ) -> u32;
    /// Reads one word of the set's file.
    pub fn togbefulo_file_word(
        table: *const u32,
        table_len: usize,
        vertices: *const f32,
        vertices_len: usize,
        triangles: *const u32,
        triangles_len: usize,
        place: usize,
        word: *mut [u32; 1],
    ) -> u32;
    /// Clears the set and adds the bodies of a list of records.
    pub fn togbefulo_build(
        records: *const u32,
        records_len: usize,
        answers: *mut u32,
        answers_len: usize,
        table: *mut u32,
        table_len: usize,
        vertices: *mut f32,
        vertices_len: usize,
        triangles: *mut u32,
        triangles_len: usize,
    ) -> u32;
    /// Checks a description and a curve.
    pub fn togbefulo_check(
        kind: u32,
        divisions: u32,
        steps: u32,
        centred: bool,
        size: f32,
        length: f32,
        curve: *const f32,
        curve_len: usize,
    ) -> u32;
    /// Writes the vertices of a body alone.
    pub fn togbefulo_vertices(
        kind: u32,
        divisions: u32,
        steps: u32,
        centred: bool,
        size: f32,
        length: f32,
        curve: *const f32,
        curve_len: usize,
        out: *mut f32,
        out_len: usize,
    ) -> bool;
    /// Writes the triangles of a ribbon.
    pub fn togbefulo_ribbon_triangles(
        segments: u16,
        first: u32,
        out: *mut u32,
        out_len: usize,
    ) -> bool;
    /// Writes the triangles of a tube.
    pub fn togbefulo_tube_triangles(
        divisions: u16,
        segments: u16,
        first: u32,
        out: *mut u32,
        out_len: usize,
    ) -> bool;
    /// Writes the triangles of a capsule.
    pub fn togbefulo_capsule_triangles(
        divisions: u16,
        longitudes: u16,
        segments: u16,
        first: u32,
        out: *mut u32,
        out_len: usize,
    ) -> bool;
    /// Writes the triangles of a torus, seamless or not.
    pub fn togbefulo_torus_triangles(
        divisions: u16,
        vertices: u16,
        first: u32,
        out: *mut u32,
        out_len: usize,
    ) -> bool;
    /// Writes the triangles of a closed cylinder.
    pub fn togbefulo_closed_cylinder_triangles(
        divisions: u16,
        layers: u16,
        first: u32,
        out: *mut u32,
        out_len: usize,
    ) -> bool;
    /// Whether all values are finite.
    pub fn togbefulo_are_finite(values: *const f32, values_len: usize) -> bool;
    /// The square root.
    pub fn togbefulo_root(x: f32) -> f32;
    /// Neither infinite nor a NaN.
    pub fn togbefulo_is_finite(x: f32) -> bool;
    /// The bits of a float.
    pub fn togbefulo_to_word(x: f32) -> u32;
    /// The float with these bits.
    pub fn togbefulo_from_word(w: u32) -> f32;
    /// The cosine of k / n turn.
    pub fn togbefulo_turn_cos(k: u32, n: u32) -> f32;
    /// The sine of k / n turn.
    pub fn togbefulo_turn_sin(k: u32, n: u32) -> f32;
}

pub(crate) fn clear(table: &mut [u32]) -> u32 {
    // SAFETY: pointer and length are those of one slice, held by this call alone.
    unsafe { togbefulo_clear(table.as_mut_ptr(), table.len()) }
}

pub(crate) fn add(
    body: Fields,
    curve: &[f32],
    table: &mut [u32],
    vertices: &mut [f32],
    triangles: &mut [u32],
) -> u32 {
    // SAFETY: each pointer and length are those of one slice, and this call alone holds the three
    // it writes.
    unsafe {
        togbefulo_add(
            body.kind,
            body.divisions,
            body.steps,
            body.centred,
            body.size,
            body.length,
            curve.as_ptr(),
            curve.len(),
            table.as_mut_ptr(),
            table.len(),
            vertices.as_mut_ptr(),
            vertices.len(),
            triangles.as_mut_ptr(),
            triangles.len(),
        )
    }
}

pub(crate) fn counts(body: Fields, vertices: usize, counts: &mut [u32; 2]) -> u32 {
    // SAFETY: `counts` is two words, held by this call alone.
    unsafe {
        togbefulo_counts(
            body.kind,
            body.divisions,
            body.steps,
            body.centred,
            body.size,
            body.length,
            vertices,
            counts,
        )
    }
}

pub(crate) fn file_word(
    table: &[u32],
    vertices: &[f32],
    triangles: &[u32],
    place: usize,
    word: &mut [u32; 1],
) -> u32 {
    // SAFETY: each pointer and length are those of one slice; `word` is one word, held by this
    // call alone.
    unsafe {
        togbefulo_file_word(
            table.as_ptr(),
            table.len(),
            vertices.as_ptr(),
            vertices.len(),
            triangles.as_ptr(),
            triangles.len(),
            place,
            word,
        )
    }
}

pub(crate) fn build(
    records: &[u32],
    answers: &mut [u32],
    table: &mut [u32],
    vertices: &mut [f32],
    triangles: &mut [u32],
) -> u32 {
    // SAFETY: each pointer and length are those of one slice, and this call alone holds the four
    // it writes.
    unsafe {
        togbefulo_build(
            records.as_ptr(),
            records.len(),
            answers.as_mut_ptr(),
            answers.len(),
            table.as_mut_ptr(),
            table.len(),
            vertices.as_mut_ptr(),
            vertices.len(),
            triangles.as_mut_ptr(),
            triangles.len(),
        )
    }
}

pub(crate) fn check(body: Fields, curve: &[f32]) -> u32 {
    // SAFETY: pointer and length are those of one slice.
    unsafe {
        togbefulo_check(
            body.kind,
            body.divisions,
            body.steps,
            body.centred,
            body.size,
            body.length,
            curve.as_ptr(),
            curve.len(),
        )
    }
}

pub(crate) fn vertices(body: Fields, curve: &[f32], out: &mut [f32]) -> bool {
    // SAFETY: each pointer and length are those of one slice, and this call alone holds `out`.
    unsafe {
        togbefulo_vertices(
            body.kind,
            body.divisions,
            body.steps,
            body.centred,
            body.size,
            body.length,
            curve.as_ptr(),
            curve.len(),
            out.as_mut_ptr(),
            out.len(),
        )
    }
}

pub(crate) fn triangles(grid: Grid, first: u32, out: &mut [u32]) -> bool {
    let (start, len) = (out.as_mut_ptr(), out.len());
    // SAFETY: `start` and `len` are those of one slice, held by this call alone.
    unsafe {
        match grid {
            Grid::Ribbon { segments } => togbefulo_ribbon_triangles(segments, first, start, len),
            Grid::Tube {
                divisions,
                segments,
            } => togbefulo_tube_triangles(divisions, segments, first, start, len),
            Grid::Capsule {
                divisions,
                longitudes,
                segments,
            } => togbefulo_capsule_triangles(divisions, longitudes, segments, first, start, len),
            Grid::Torus {
                divisions,
                vertices,
            } => togbefulo_torus_triangles(divisions, vertices, first, start, len),
            Grid::ClosedCylinder { divisions, layers } => {
                togbefulo_closed_cylinder_triangles(divisions, layers, first, start, len)
            }
        }
    }
}

pub(crate) fn root(x: f32) -> f32 {
    // SAFETY: plain values.
    unsafe { togbefulo_root(x) }
}

pub(crate) fn turn(k: u32, n: u32) -> (f32, f32) {
    // SAFETY: plain values.
    unsafe { (togbefulo_turn_cos(k, n), togbefulo_turn_sin(k, n)) }
}
