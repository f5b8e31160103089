//! Of the source's trimesh3_primitive.rs: the open cylinder's triangles, and the closed cylinder.
//!
//! MIT License
//!
//! Copyright (c) 2022 Nobuyuki Umetani
//!
//! Permission is hereby granted, free of charge, to any person obtaining a copy
//! of this software and associated documentation files (the "Software"), to deal
//! in the Software without restriction, including without limitation the rights
//! to use, copy, modify, merge, publish, distribute, sublicense, and/or sell
//! copies of the Software, and to permit persons to whom the Software is
//! furnished to do so, subject to the following conditions:
//!
//! The above copyright notice and this permission notice shall be included in all
//! copies or substantial portions of the Software.
//!
//! THE SOFTWARE IS PROVIDED "AS IS", WITHOUT WARRANTY OF ANY KIND, EXPRESS OR
//! IMPLIED, INCLUDING BUT NOT LIMITED TO THE WARRANTIES OF MERCHANTABILITY,
//! FITNESS FOR A PARTICULAR PURPOSE AND NONINFRINGEMENT. IN NO EVENT SHALL THE
//! AUTHORS OR COPYRIGHT HOLDERS BE LIABLE FOR ANY CLAIM, DAMAGES OR OTHER
//! LIABILITY, WHETHER IN AN ACTION OF CONTRACT, TORT OR OTHERWISE, ARISING FROM,
//! OUT OF OR IN CONNECTION WITH THE SOFTWARE OR THE USE OR OTHER DEALINGS IN THE
//! SOFTWARE.

use super::del_geo_core::angle::TAU;

/// this function is for external allocation of memory
pub fn cylinder_open_end_number_of_tri_and_vtx(
    ndiv_circumference: usize,
    ndiv_side: usize,
) -> (usize, usize) {
    let num_vtx = ndiv_circumference * (ndiv_side + 1);
    let num_tri = ndiv_side * ndiv_circumference * 2;
    (num_tri, num_vtx)
}

pub fn cylinder_open_end_set_topology(tri2vtx: &mut [[usize; 3]], num_vtxc: usize) {
    let ndiv_side = num_vtxc - 1;
    let ndiv_circumference = tri2vtx.len() / (2 * ndiv_side);
    assert_eq!(tri2vtx.len(), ndiv_side * ndiv_circumference * 2);
    for i_side in 0..ndiv_side {
        for i_edge in 0..ndiv_circumference {
            let i0_vtx = i_side * ndiv_circumference + i_edge;
            let i1_vtx = i_side * ndiv_circumference + (i_edge + 1) % ndiv_circumference;
            let i2_vtx = i0_vtx + ndiv_circumference;
            let i3_vtx = i1_vtx + ndiv_circumference;
            let i_quad = i_side * ndiv_circumference + i_edge;
            tri2vtx[i_quad * 2][0] = i0_vtx;
            tri2vtx[i_quad * 2][1] = i3_vtx;
            tri2vtx[i_quad * 2][2] = i1_vtx;
            tri2vtx[i_quad * 2 + 1][0] = i0_vtx;
            tri2vtx[i_quad * 2 + 1][1] = i2_vtx;
            tri2vtx[i_quad * 2 + 1][2] = i3_vtx;
        }
    }
}

#[allow(clippy::identity_op)]
fn cylinder_closed_end_topology(ndiv_side: usize, ndiv_circumference: usize) -> Vec<[usize; 3]> {
    let ndiv_longtitude = ndiv_side + 2;
    let num_tri = ndiv_circumference * (ndiv_longtitude - 1) * 2 + ndiv_circumference * 2;
    let mut tri2vtx = Vec::<[usize; 3]>::with_capacity(num_tri);
    for ic in 0..ndiv_circumference {
        tri2vtx.push([0, ic + 1, (ic + 1) % ndiv_circumference + 1]);
    }
    for ih in 0..ndiv_longtitude - 2 {
        for ic in 0..ndiv_circumference {
            let i1 = (ih + 0) * ndiv_circumference + 1 + (ic + 0) % ndiv_circumference;
            let i2 = (ih + 0) * ndiv_circumference + 1 + (ic + 1) % ndiv_circumference;
            let i3 = (ih + 1) * ndiv_circumference + 1 + (ic + 1) % ndiv_circumference;
            let i4 = (ih + 1) * ndiv_circumference + 1 + (ic + 0) % ndiv_circumference;
            tri2vtx.push([i3, i2, i1]);
            tri2vtx.push([i4, i3, i1]);
        }
    }
    for ic in 0..ndiv_circumference {
        let i0 = ndiv_circumference * (ndiv_longtitude - 1) + 1;
        let i1 = (ndiv_longtitude - 2) * ndiv_circumference + 1 + (ic + 1) % ndiv_circumference;
        let i2 = (ndiv_longtitude - 2) * ndiv_circumference + 1 + (ic + 0) % ndiv_circumference;
        tri2vtx.push([i0, i1, i2]);
    }
    tri2vtx
}

/// generate 3D mesh of closed cylinder
/// * `radius` - radius
/// * 'length' - length
pub fn cylinder_closed_end_yup(
    radius: f32,
    length: f32,
    ndiv_circumference: usize,
    ndiv_length: usize,
    is_center: bool,
) -> (Vec<[usize; 3]>, Vec<[f32; 3]>) {
    let num_vtx = ndiv_circumference * (ndiv_length + 1) + 2;
    let mut vtx2xyz = vec![[0f32; 3]; num_vtx];
    assert!(ndiv_length >= 1);
    assert!(ndiv_circumference > 2);
    let zero = 0f32;
    let two = 1f32 + 1f32;
    let half = 1f32 / two;
    let dl: f32 = length / ndiv_length as f32;
    let dr = TAU / ndiv_circumference;
    let y_min = if is_center { -length * half } else { zero };
    // bottom
    vtx2xyz[0] = [zero, y_min, zero];
    for il in 0..ndiv_length + 1 {
        let y0 = y_min + dl * il as f32;
        for ilo in 0..ndiv_circumference {
            let x0 = radius * (dr * ilo).cos();
            let z0 = radius * (dr * ilo).sin();
            let i_vtx = il * ndiv_circumference + ilo + 1;
            vtx2xyz[i_vtx] = [x0, y0, z0];
        }
    }
    // top
    vtx2xyz[num_vtx - 1] = [zero, y_min + length, zero];
    // ------------------------------------
    let tri2vtx = cylinder_closed_end_topology(ndiv_length, ndiv_circumference);
    (tri2vtx, vtx2xyz)
}
