//! Of the source's polyline3.rs: the frames along an open curve, tube, capsule and ribbon.
//!
//! MIT License
//!
//! Copyright (c) 2022 Nobuyuki Umetani
//!
//! Permission is hereby granted, free of charge, to any person obtaining a copy
//! of this software and associated documentation files (the "Software"), to deal
//! in the Software without restriction, including without limitation the rights
//! to use, copy, modify, merge, publish, distribute, sublicense, and/or sell
//! copies of the Software, and to permit persons to whom the Software is
//! furnished to do so, subject to the following conditions:
//!
//! The above copyright notice and this permission notice shall be included in all
//! copies or substantial portions of the Software.
//!
//! THE SOFTWARE IS PROVIDED "AS IS", WITHOUT WARRANTY OF ANY KIND, EXPRESS OR
//! IMPLIED, INCLUDING BUT NOT LIMITED TO THE WARRANTIES OF MERCHANTABILITY,
//! FITNESS FOR A PARTICULAR PURPOSE AND NONINFRINGEMENT. IN NO EVENT SHALL THE
//! AUTHORS OR COPYRIGHT HOLDERS BE LIABLE FOR ANY CLAIM, DAMAGES OR OTHER
//! LIABILITY, WHETHER IN AN ACTION OF CONTRACT, TORT OR OTHERWISE, ARISING FROM,
//! OUT OF OR IN CONNECTION WITH THE SOFTWARE OR THE USE OR OTHER DEALINGS IN THE
//! SOFTWARE.

use super::del_geo_core::{
    self,
    angle::{FRAC_PI_2, TAU},
};

/// bi-normal vector on each vertex
pub fn vtx2framex(vtx2xyz: &[[f32; 3]]) -> Vec<[f32; 3]> {
    use del_geo_core::vec3::Vec3;
    let num_vtx = vtx2xyz.len();
    let mut vtx2bin = vec![[0f32; 3]; num_vtx];
    {
        // first segment
        let p1 = &vtx2xyz[1];
        let p0 = &vtx2xyz[0];
        let v01 = p1.sub(p0);
        let (x, _) = del_geo_core::vec3::basis_xy_from_basis_z(&v01);
        vtx2bin[0] = x;
    }
    for i_seg1 in 1..num_vtx - 1 {
        let iv0 = i_seg1 - 1;
        let iv1 = i_seg1;
        let iv2 = i_seg1 + 1;
        let i_seg0 = i_seg1 - 1;
        let p0 = &vtx2xyz[iv0];
        let p1 = &vtx2xyz[iv1];
        let p2 = &vtx2xyz[iv2];
        let v01 = p1.sub(p0);
        let v12 = p2.sub(p1);
        let rot = del_geo_core::mat3_col_major::minimum_rotation_matrix(&v01, &v12);
        let b12: [f32; 3] = del_geo_core::mat3_col_major::mult_vec(&rot, &vtx2bin[i_seg0]);
        vtx2bin[i_seg1] = b12;
    }
    vtx2bin[num_vtx - 1] = vtx2bin[num_vtx - 2];
    vtx2bin
}

pub fn framez(vtx2xyz: &[[f32; 3]], i_vtx: usize) -> [f32; 3] {
    let num_vtx = vtx2xyz.len();
    assert!(i_vtx < num_vtx);
    use del_geo_core::vec3::Vec3;
    if i_vtx == 0 {
        let p1 = &vtx2xyz[0];
        let p2 = &vtx2xyz[1];
        return p2.sub(p1).normalize();
    }
    if i_vtx == num_vtx - 1 {
        let p0 = &vtx2xyz[num_vtx - 2];
        let p1 = &vtx2xyz[num_vtx - 1];
        return p1.sub(p0).normalize();
    }
    let p0 = &vtx2xyz[i_vtx - 1];
    let p1 = &vtx2xyz[i_vtx];
    let p2 = &vtx2xyz[i_vtx + 1];
    let u01 = p1.sub(p0).normalize();
    let u12 = p2.sub(p1).normalize();
    u01.add(&u12).normalize()
}

pub fn vtx2framey(vtx2xyz: &[[f32; 3]], vtx2framex: &[[f32; 3]]) -> Vec<[f32; 3]> {
    use del_geo_core::vec3::Vec3;
    let num_vtx = vtx2xyz.len();
    assert_eq!(vtx2framex.len(), num_vtx);
    let mut vtx2framey = vec![[0f32; 3]; num_vtx];
    for i_vtx in 0..num_vtx {
        let framez = framez(vtx2xyz, i_vtx);
        let framex = &vtx2framex[i_vtx];
        vtx2framey[i_vtx] = framez.cross(framex);
    }
    vtx2framey
}

pub fn set_vtx2xyz_for_generalized_cylinder_open_end(
    vtx2xyz: &mut [[f32; 3]],
    vtxl2xyz: &[[f32; 3]],
    rad: f32,
) {
    use del_geo_core::vec3::Vec3;
    let num_vtxl = vtxl2xyz.len();
    let num_vtx = vtx2xyz.len();
    let ndiv_circum = num_vtx / num_vtxl;
    let vtxl2framex = vtx2framex(vtxl2xyz);
    let vtxl2framey = vtx2framey(vtxl2xyz, &vtxl2framex);
    for i_vtxl in 0..num_vtxl {
        let p0 = &vtxl2xyz[i_vtxl];
        let ex = &vtxl2framex[i_vtxl];
        let ey = &vtxl2framey[i_vtxl];
        for ic in 0..ndiv_circum {
            let theta = TAU * ic / ndiv_circum;
            let ay = ey.scale(rad * theta.cos());
            let ax = ex.scale(rad * theta.sin());
            let q = p0.add(&ay).add(&ax);
            vtx2xyz[i_vtxl * ndiv_circum + ic] = q;
        }
    }
}

pub fn to_trimesh3_capsule(
    vtxl2xyz: &[[f32; 3]],
    ndiv_circum: usize,
    ndiv_longtitude: usize,
    r: f32,
) -> (Vec<[usize; 3]>, Vec<[f32; 3]>) {
    use del_geo_core::vec3::Vec3;
    assert!(ndiv_circum > 2);
    let num_vtxl = vtxl2xyz.len();
    let vtxl2framex = vtx2framex(vtxl2xyz);
    let vtxl2framey = vtx2framey(vtxl2xyz, &vtxl2framex);
    //
    let ndiv_length = num_vtxl - 1;
    let (tri2vtx, vtx2xyz) = super::trimesh3_primitive::cylinder_closed_end_yup(
        1f32,
        1f32,
        ndiv_circum,
        2 * ndiv_longtitude + ndiv_length - 2,
        true,
    );
    let tri2vtx = Vec::<[usize; 3]>::from(tri2vtx.as_slice());
    let mut vtx2xyz = Vec::<[f32; 3]>::from(vtx2xyz.as_slice());
    assert_eq!(
        vtx2xyz.len(),
        (2 * ndiv_longtitude + ndiv_length - 1) * ndiv_circum + 2
    );
    {
        // south pole
        let p0 = vtxl2xyz[0];
        let ez = framez(vtxl2xyz, 0);
        let q = p0.sub(&ez.scale(r));
        vtx2xyz[0][0] = q[0];
        vtx2xyz[0][1] = q[1];
        vtx2xyz[0][2] = q[2];
    }
    for ir in 0..ndiv_longtitude {
        let p0 = vtxl2xyz[0];
        let ex = &vtxl2framex[0];
        let ey = &vtxl2framey[0];
        let ez = framez(vtxl2xyz, 0);
        let t0 = FRAC_PI_2 * (ndiv_longtitude - 1 - ir) / ndiv_longtitude;
        let c0 = r * t0.cos();
        for ic in 0..ndiv_circum {
            let theta = TAU * ic / ndiv_circum;
            let az = ez.scale(-r * t0.sin());
            let ay = ey.scale(c0 * theta.cos());
            let ax = ex.scale(c0 * theta.sin());
            let q = p0.add(&az).add(&ay).add(&ax);
            vtx2xyz[1 + ir * ndiv_circum + ic][0] = q[0];
            vtx2xyz[1 + ir * ndiv_circum + ic][1] = q[1];
            vtx2xyz[1 + ir * ndiv_circum + ic][2] = q[2];
        }
    }
    for il in 0..ndiv_length - 1 {
        let p0 = vtxl2xyz[il + 1];
        let ex = &vtxl2framex[il + 1];
        let ey = &vtxl2framey[il + 1];
        for ic in 0..ndiv_circum {
            let theta = TAU * ic / ndiv_circum;
            let ay = ey.scale(r * theta.cos());
            let ax = ex.scale(r * theta.sin());
            let q = p0.add(&ay).add(&ax);
            vtx2xyz[1 + (il + ndiv_longtitude) * ndiv_circum + ic][0] = q[0];
            vtx2xyz[1 + (il + ndiv_longtitude) * ndiv_circum + ic][1] = q[1];
            vtx2xyz[1 + (il + ndiv_longtitude) * ndiv_circum + ic][2] = q[2];
        }
    }
    for ir in 0..ndiv_longtitude {
        let p0 = vtxl2xyz[num_vtxl - 1];
        let ex = &vtxl2framex[num_vtxl - 1];
        let ey = &vtxl2framey[num_vtxl - 1];
        let ez = framez(vtxl2xyz, num_vtxl - 1);
        let t0 = FRAC_PI_2 * ir / ndiv_longtitude;
        let c0 = r * t0.cos();
        for ic in 0..ndiv_circum {
            let theta = TAU * ic / ndiv_circum;
            let az = ez.scale(r * t0.sin());
            let ay = ey.scale(c0 * theta.cos());
            let ax = ex.scale(c0 * theta.sin());
            let q = p0.add(&az).add(&ax).add(&ay);
            vtx2xyz[1 + (ir + ndiv_length + ndiv_longtitude - 1) * ndiv_circum + ic][0] = q[0];
            vtx2xyz[1 + (ir + ndiv_length + ndiv_longtitude - 1) * ndiv_circum + ic][1] = q[1];
            vtx2xyz[1 + (ir + ndiv_length + ndiv_longtitude - 1) * ndiv_circum + ic][2] = q[2];
        }
    }
    {
        // North Pole
        let p0 = vtxl2xyz[num_vtxl - 1];
        let ez = framez(vtxl2xyz, num_vtxl - 1);
        let q = p0.add(&ez.scale(r));
        let np = vtx2xyz.len();
        vtx2xyz[np - 1][0] = q[0];
        vtx2xyz[np - 1][1] = q[1];
        vtx2xyz[np - 1][2] = q[2];
    }
    (tri2vtx, vtx2xyz)
}

pub fn to_trimesh3_ribbon(
    vtxl2xyz: &[[f32; 3]],
    vtxl2framex: &[[f32; 3]],
    width: f32,
) -> (Vec<[usize; 3]>, Vec<[f32; 3]>) {
    use del_geo_core::vec3::Vec3;
    let num_vtxl = vtxl2xyz.len();
    let mut vtx2xyz = vec![[0f32; 3]; num_vtxl * 2];
    for i_vtxl in 0..num_vtxl {
        vtx2xyz[i_vtxl * 2] = vtxl2xyz[i_vtxl];
        vtx2xyz[i_vtxl * 2 + 1] = vtxl2xyz[i_vtxl].add(&vtxl2framex[i_vtxl].scale(width));
    }
    let num_tri = (num_vtxl - 1) * 2;
    let mut tri2vtx = vec![[0usize; 3]; num_tri];
    for i_vtxl in 0..num_vtxl - 1 {
        tri2vtx[i_vtxl * 2] = [i_vtxl * 2, i_vtxl * 2 + 1, i_vtxl * 2 + 2];
        tri2vtx[i_vtxl * 2 + 1] = [i_vtxl * 2 + 1, i_vtxl * 2 + 3, i_vtxl * 2 + 2];
    }
    (tri2vtx, vtx2xyz)
}
