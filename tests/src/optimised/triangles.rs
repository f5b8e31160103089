//! The triangle list of each kind, after the source's polyline3.rs, polyloop3.rs and trimesh3_primitive.rs, in lent
//! slices. A row of quads is worked out once; every other is the same row with a number added.
//!
//! MIT License
//!
//! Copyright (c) 2022 Nobuyuki Umetani
//!
//! Permission is hereby granted, free of charge, to any person obtaining a copy
//! of this software and associated documentation files (the "Software"), to deal
//! in the Software without restriction, including without limitation the rights
//! to use, copy, modify, merge, publish, distribute, sublicense, and/or sell
//! copies of the Software, and to permit persons to whom the Software is
//! furnished to do so, subject to the following conditions:
//!
//! The above copyright notice and this permission notice shall be included in all
//! copies or substantial portions of the Software.
//!
//! THE SOFTWARE IS PROVIDED "AS IS", WITHOUT WARRANTY OF ANY KIND, EXPRESS OR
//! IMPLIED, INCLUDING BUT NOT LIMITED TO THE WARRANTIES OF MERCHANTABILITY,
//! FITNESS FOR A PARTICULAR PURPOSE AND NONINFRINGEMENT. IN NO EVENT SHALL THE
//! AUTHORS OR COPYRIGHT HOLDERS BE LIABLE FOR ANY CLAIM, DAMAGES OR OTHER
//! LIABILITY, WHETHER IN AN ACTION OF CONTRACT, TORT OR OTHERWISE, ARISING FROM,
//! OUT OF OR IN CONNECTION WITH THE SOFTWARE OR THE USE OR OTHER DEALINGS IN THE
//! SOFTWARE.

use crate::topology::Body;

/// The two triangles of a quad, whose corners are numbers in a ring and in the next.
type Quad = fn([u32; 2], [u32; 2]) -> [u32; 6];

/// Capsule and closed cylinder.
fn closed_quad([p1, p2]: [u32; 2], [p4, p3]: [u32; 2]) -> [u32; 6] {
    [p3, p2, p1, p4, p3, p1]
}

fn torus_quad([a, b]: [u32; 2], [d, e]: [u32; 2]) -> [u32; 6] {
    [a, b, d, e, d, b]
}

fn tube_quad([a, b]: [u32; 2], [d, e]: [u32; 2]) -> [u32; 6] {
    [a, e, b, a, d, e]
}

/// Fills the body's stretch of the triangle buffer.
pub fn write(body: Body, first: u32, stretch: &mut [u32]) {
    match body {
        Body::Ribbon { .. } => write_ribbon(first, stretch),
        Body::Tube { divisions, .. } => {
            write_rows(tube_quad, divisions, first, stretch);
        }
        Body::Torus { divisions, .. } => {
            let (rows, last) = stretch.split_at_mut(stretch.len() - 6 * divisions as usize);
            write_rows(torus_quad, divisions, first, rows);
            let from = first + (rows.len() / 6) as u32;
            write_row(torus_quad, divisions, from, first, last);
        }
        Body::Capsule { divisions, .. } | Body::ClosedCylinder { divisions, .. } => {
            write_closed(divisions, first, stretch);
        }
    }
}

fn write_ribbon(first: u32, stretch: &mut [u32]) {
    let mut a = first;
    for quad in stretch.as_chunks_mut::<6>().0 {
        *quad = [a, a + 1, a + 2, a + 1, a + 3, a + 2];
        a += 2;
    }
}

/// One row of quads from the ring that begins at `from` to the one that begins at `to`.
fn write_row(quad: Quad, divisions: u32, from: u32, to: u32, row: &mut [u32]) {
    for (i, place) in (0..).zip(row.as_chunks_mut::<6>().0) {
        let next = if i + 1 == divisions { 0 } else { i + 1 };
        *place = quad([from + i, from + next], [to + i, to + next]);
    }
}

/// As many rows as there is room for, each from its ring to the next.
fn write_rows(quad: Quad, divisions: u32, first: u32, rows: &mut [u32]) {
    let row = 6 * divisions as usize;
    if rows.is_empty() {
        return;
    }
    let (template, others) = rows.split_at_mut(row);
    write_row(quad, divisions, first, first + divisions, template);
    let mut added = divisions;
    for row in others.chunks_exact_mut(row) {
        write_shifted(row, template, added);
        added += divisions;
    }
}

/// The same row with a number added, four and then two at a time.
#[inline(always)]
fn write_shifted(row: &mut [u32], template: &[u32], added: u32) {
    let ((fours, rest), (from_fours, from_rest)) =
        (row.as_chunks_mut::<4>(), template.as_chunks::<4>());
    for (to, from) in fours.iter_mut().zip(from_fours) {
        *to = from.map(|index| index + added);
    }
    for (to, from) in rest.iter_mut().zip(from_rest) {
        *to = from + added;
    }
}

/// Fans at both poles, rows between them.
fn write_closed(divisions: u32, first: u32, stretch: &mut [u32]) {
    let fan = 3 * divisions as usize;
    let (bottom, rest) = stretch.split_at_mut(fan);
    let (rows, top) = rest.split_at_mut(rest.len() - fan);
    let next = |i: u32| if i + 1 == divisions { 0 } else { i + 1 };
    let ring = first + 1;
    for (i, triangle) in (0..).zip(bottom.as_chunks_mut::<3>().0) {
        *triangle = [first, ring + i, ring + next(i)];
    }
    write_rows(closed_quad, divisions, ring, rows);
    let ring = ring + (rows.len() / 6) as u32;
    for (i, triangle) in (0..).zip(top.as_chunks_mut::<3>().0) {
        *triangle = [ring + divisions, ring + next(i), ring + i];
    }
}
