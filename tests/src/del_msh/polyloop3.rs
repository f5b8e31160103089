//! Of the source's polyloop3.rs: the frames along a closed curve, those with their end twist
//! spread along it, and the torus. Line numbers are the source's.
//!
//! MIT License
//!
//! Copyright (c) 2022 Nobuyuki Umetani
//!
//! Permission is hereby granted, free of charge, to any person obtaining a copy
//! of this software and associated documentation files (the "Software"), to deal
//! in the Software without restriction, including without limitation the rights
//! to use, copy, modify, merge, publish, distribute, sublicense, and/or sell
//! copies of the Software, and to permit persons to whom the Software is
//! furnished to do so, subject to the following conditions:
//!
//! The above copyright notice and this permission notice shall be included in all
//! copies or substantial portions of the Software.
//!
//! THE SOFTWARE IS PROVIDED "AS IS", WITHOUT WARRANTY OF ANY KIND, EXPRESS OR
//! IMPLIED, INCLUDING BUT NOT LIMITED TO THE WARRANTIES OF MERCHANTABILITY,
//! FITNESS FOR A PARTICULAR PURPOSE AND NONINFRINGEMENT. IN NO EVENT SHALL THE
//! AUTHORS OR COPYRIGHT HOLDERS BE LIABLE FOR ANY CLAIM, DAMAGES OR OTHER
//! LIABILITY, WHETHER IN AN ACTION OF CONTRACT, TORT OR OTHERWISE, ARISING FROM,
//! OUT OF OR IN CONNECTION WITH THE SOFTWARE OR THE USE OR OTHER DEALINGS IN THE
//! SOFTWARE.

use super::del_geo_core::{
    self,
    angle::{Angle, TAU},
};

// line 5
pub fn vtx2framex(vtx2xyz: &[[f32; 3]]) -> Vec<[f32; 3]> {
    use del_geo_core::vec3::Vec3;
    let num_vtx = vtx2xyz.len();
    let mut vtx2bin = vec![[0f32; 3]; num_vtx];
    {
        // first segment
        let p0 = &vtx2xyz[0];
        let p1 = &vtx2xyz[1];
        let v01 = p1.sub(p0);
        let (x, _) = del_geo_core::vec3::basis_xy_from_basis_z(&v01);
        vtx2bin[0] = x;
    }
    for iseg1 in 1..num_vtx {
        // parallel transport
        let iv0 = iseg1 - 1;
        let iv1 = iseg1;
        let iv2 = (iseg1 + 1) % num_vtx;
        let iseg0 = iseg1 - 1;
        let p0 = &vtx2xyz[iv0];
        let p1 = &vtx2xyz[iv1];
        let p2 = &vtx2xyz[iv2];
        let v01 = p1.sub(p0);
        let v12 = p2.sub(p1);
        let rot = del_geo_core::mat3_col_major::minimum_rotation_matrix(&v01, &v12);
        let b12 = del_geo_core::mat3_col_major::mult_vec(&rot, &vtx2bin[iseg0]);
        vtx2bin[iseg1] = b12;
    }
    vtx2bin
}

/// What stands for `T::atan2` is a parameter, since document 02 has an angle of its own there. The
/// source's asserts of tolerances are dropped. Its rotation gets normalised directions here, and
/// in `vtx2framex` raw ones.
// line 53
fn match_frames_of_two_ends(
    vtx2xyz: &[[f32; 3]],
    vtx2bin0: &[[f32; 3]],
    atan2: impl Fn(f32, f32) -> Angle,
) -> Vec<[f32; 3]> {
    use del_geo_core::vec3::Vec3;
    let num_vtx = vtx2xyz.len();
    let theta = {
        let x0 = &vtx2bin0[0];
        let p0 = &vtx2xyz[0];
        let p1 = &vtx2xyz[1];
        let v01 = p1.sub(p0).normalize();
        let xn = &vtx2bin0[num_vtx - 1];
        let pn = &vtx2xyz[num_vtx - 1];
        let vn0 = p0.sub(pn).normalize();
        let rot = del_geo_core::mat3_col_major::minimum_rotation_matrix_of_normalized(&vn0, &v01);
        let x1a = del_geo_core::mat3_col_major::mult_vec(&rot, xn);
        let y0 = v01.cross(x0);
        let c0 = x1a.dot(x0);
        let s0 = x1a.dot(&y0);
        atan2(s0, c0)
    };
    let theta_step = theta / num_vtx;
    let mut vtx2bin1 = vec![[0f32; 3]; num_vtx];
    for iseg in 0..num_vtx {
        let dtheta = theta_step * iseg;
        let x0 = &vtx2bin0[iseg];
        let ivtx0 = iseg;
        let ivtx1 = (iseg + 1) % num_vtx;
        let p1 = &vtx2xyz[ivtx1];
        let p0 = &vtx2xyz[ivtx0];
        let v01 = p1.sub(p0).normalize();
        let y0 = v01.cross(x0);
        let x0 = x0.scale(dtheta.sin());
        let y0 = y0.scale(dtheta.cos());
        vtx2bin1[iseg] = x0.add(&y0);
    }
    vtx2bin1
}

// line 106
pub fn smooth_frame(vtx2xyz: &[[f32; 3]], atan2: impl Fn(f32, f32) -> Angle) -> Vec<[f32; 3]> {
    let vtx2bin0 = vtx2framex(vtx2xyz);
    match_frames_of_two_ends(vtx2xyz, &vtx2bin0, atan2)
}

// line 339
pub fn to_trimesh3_torus(
    vtx2xyz: &[[f32; 3]],
    vtx2bin: &[[f32; 3]],
    rad: f32,
    ndiv_circum: usize,
) -> (Vec<[usize; 3]>, Vec<[f32; 3]>) {
    use del_geo_core::vec3::Vec3;
    let n = ndiv_circum;
    let dtheta = TAU / n;
    let num_vtx = vtx2xyz.len();
    let mut pnt2xyz = Vec::<[f32; 3]>::new();
    for ipnt in 0..num_vtx {
        let p0 = &vtx2xyz[ipnt];
        let p1 = &vtx2xyz[(ipnt + 1) % num_vtx];
        let z0 = p1.sub(p0).normalize();
        let x0 = &vtx2bin[ipnt];
        let y0 = z0.cross(x0);
        for i in 0..n {
            let theta = dtheta * i;
            let v0 = x0.scale(theta.cos()).add(&y0.scale(theta.sin()));
            pnt2xyz.push(p0.add(&v0.scale(rad)));
        }
    }

    let mut tri2pnt = Vec::<[usize; 3]>::new();
    for iseg in 0..num_vtx {
        let ipnt0 = iseg;
        let ipnt1 = (ipnt0 + 1) % num_vtx;
        for i in 0..n {
            tri2pnt.push([ipnt0 * n + i, ipnt0 * n + (i + 1) % n, ipnt1 * n + i]);
            tri2pnt.push([
                ipnt1 * n + (i + 1) % n,
                ipnt1 * n + i,
                ipnt0 * n + (i + 1) % n,
            ]);
        }
    }
    (tri2pnt, pnt2xyz)
}
