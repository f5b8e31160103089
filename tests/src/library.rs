//! The proved functions of `libtogbefulo.a`, as safe functions over numbers and slices.

mod set;

pub use set::{add, build, clear, file_word};

use crate::{paper::description::Fields, topology::Body};
use togbefulo::ffi::*;

/// What the library answers for a kind that is none of the paper's numbers.
pub const UNKNOWN_KIND: u32 = u32::MAX;

// SAFETY of the calls on numbers: they take and return plain values and touch no memory of ours.

#[inline]
pub fn root(x: f32) -> f32 {
    unsafe { togbefulo_root(x) }
}

#[inline]
pub fn is_finite(x: f32) -> bool {
    unsafe { togbefulo_is_finite(x) }
}

#[inline]
pub fn to_word(x: f32) -> u32 {
    unsafe { togbefulo_to_word(x) }
}

#[inline]
pub fn from_word(word: u32) -> f32 {
    unsafe { togbefulo_from_word(word) }
}

/// The pair (cos, sin).
#[inline]
pub fn turn(k: u32, n: u32) -> (f32, f32) {
    unsafe { (togbefulo_turn_cos(k, n), togbefulo_turn_sin(k, n)) }
}

/// Writes the body's triangles to the front of `out`, or answers false. The library's sizes have 16 bits.
pub fn triangles(body: Body, first: u32, out: &mut [u32]) -> bool {
    let size = |number| u16::try_from(number).expect("a size of 16 bits");
    let (start, len) = (out.as_mut_ptr(), out.len());
    // SAFETY: `start` and `len` are those of one slice that nobody else holds during the call.
    unsafe {
        match body {
            Body::Ribbon { segments } => {
                togbefulo_ribbon_triangles(size(segments), first, start, len)
            }
            Body::Tube {
                divisions,
                segments,
            } => togbefulo_tube_triangles(size(divisions), size(segments), first, start, len),
            Body::Capsule {
                divisions,
                longitudes,
                segments,
            } => togbefulo_capsule_triangles(
                size(divisions),
                size(longitudes),
                size(segments),
                first,
                start,
                len,
            ),
            Body::Torus {
                divisions,
                vertices,
            } => togbefulo_torus_triangles(size(divisions), size(vertices), first, start, len),
            Body::ClosedCylinder { divisions, layers } => togbefulo_closed_cylinder_triangles(
                size(divisions),
                size(layers),
                first,
                start,
                len,
            ),
        }
    }
}

/// Writes vertex and triangle count where it answers 0, and nothing where it answers a refusal's number.
pub fn counts(fields: Fields, vertices: usize, counts: &mut [u32; 2]) -> u32 {
    // SAFETY: `counts` is held by nobody else during the call; the rest are plain values.
    unsafe {
        togbefulo_counts(
            fields.kind,
            fields.divisions,
            fields.longitudes,
            fields.centred,
            fields.size,
            fields.length,
            vertices,
            counts,
        )
    }
}

/// Answers 0 or the number of the first refusal of a description and its curve.
pub fn check(fields: Fields, curve: &[f32]) -> u32 {
    // SAFETY: pointer and length are those of one slice, which the call only reads.
    unsafe {
        togbefulo_check(
            fields.kind,
            fields.divisions,
            fields.longitudes,
            fields.centred,
            fields.size,
            fields.length,
            curve.as_ptr(),
            curve.len(),
        )
    }
}

/// Writes the body's vertices to the front of `out`, or answers false.
pub fn vertices(fields: Fields, curve: &[f32], out: &mut [f32]) -> bool {
    // SAFETY: each pointer and length are those of one slice; nobody else holds `out` during the call.
    unsafe {
        togbefulo_vertices(
            fields.kind,
            fields.divisions,
            fields.longitudes,
            fields.centred,
            fields.size,
            fields.length,
            curve.as_ptr(),
            curve.len(),
            out.as_mut_ptr(),
            out.len(),
        )
    }
}

pub fn are_finite(values: &[f32]) -> bool {
    // SAFETY: pointer and length are those of one slice, which the call only reads.
    unsafe { togbefulo_are_finite(values.as_ptr(), values.len()) }
}
