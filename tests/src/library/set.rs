//! The calls of the shared set, and a whole list of records in one call.

use crate::{buffers::Buffers, paper::description::Input};
use togbefulo::ffi::*;

/// Word 0 becomes 0; an empty table is answered 1.
pub fn clear(table: &mut [u32]) -> u32 {
    // SAFETY: pointer and length are those of one slice that nobody else holds during the call.
    unsafe { togbefulo_clear(table.as_mut_ptr(), table.len()) }
}

/// Answers 0 where the body was added, and otherwise the number of the first refusal.
pub fn add(input: &Input, lent: &mut Buffers) -> u32 {
    let Input { fields, curve } = input;
    // SAFETY: each pointer and length are those of one slice; nobody else holds the buffers during the call.
    unsafe {
        togbefulo_add(
            fields.kind,
            fields.divisions,
            fields.longitudes,
            fields.centred,
            fields.size,
            fields.length,
            curve.as_ptr(),
            curve.len(),
            lent.table.as_mut_ptr(),
            lent.table.len(),
            lent.vertices.as_mut_ptr(),
            lent.vertices.len(),
            lent.triangles.as_mut_ptr(),
            lent.triangles.len(),
        )
    }
}

/// Writes the word of the set's file at this place where it answers 0, and nothing where it answers 1 or 5.
pub fn file_word(set: &Buffers, place: usize, word: &mut [u32; 1]) -> u32 {
    // SAFETY: each pointer and length are those of one slice, which the call only reads; nobody else holds
    // `word` during the call.
    unsafe {
        togbefulo_file_word(
            set.table.as_ptr(),
            set.table.len(),
            set.vertices.as_ptr(),
            set.vertices.len(),
            set.triangles.as_ptr(),
            set.triangles.len(),
            place,
            word,
        )
    }
}

/// Clears, adds the body of each record and writes the additions' answers to the front of `answers`, as far as it
/// reaches. Answers what clear does.
pub fn build(records: &[u32], answers: &mut [u32], lent: &mut Buffers) -> u32 {
    // SAFETY: each pointer and length are those of one slice; nobody else holds `answers` or the buffers during
    // the call.
    unsafe {
        togbefulo_build(
            records.as_ptr(),
            records.len(),
            answers.as_mut_ptr(),
            answers.len(),
            lent.table.as_mut_ptr(),
            lent.table.len(),
            lent.vertices.as_mut_ptr(),
            lent.vertices.len(),
            lent.triangles.as_mut_ptr(),
            lent.triangles.len(),
        )
    }
}
