//! Bodies as the adapted functions of del-msh make them.

use crate::{
    del_msh::{del_geo_core::angle::Angle, polyline3, polyloop3, trimesh3_primitive},
    optimised::{are_finite, Chain, Form, Sse2},
    paper::{
        description::{Description, Refusal},
        ledger::Alone,
        twist::{permitted, Twist},
    },
    topology::Body,
};

/// Triangles with local indices, and vertices.
pub type TriMesh = (Vec<[usize; 3]>, Vec<[f32; 3]>);

/// The body of a description whose numbers are permitted. Torus and ribbon get the frames of
/// `vtx2framex`, a torus without a seam those of `smooth_frame` with the angle of its twist, and a
/// closed cylinder looks at no curve.
pub fn body(description: Description, curve: &[f32], twist: Twist) -> TriMesh {
    let size = |number: u32| number as usize;
    let curve: Vec<[f32; 3]> = curve.chunks_exact(3).map(|v| [v[0], v[1], v[2]]).collect();
    match description {
        Description::Ribbon { width } => {
            let framex = polyline3::vtx2framex(&curve);
            polyline3::to_trimesh3_ribbon(&curve, &framex, width)
        }
        Description::Tube { divisions, radius } => tube(&curve, size(divisions), radius),
        Description::Capsule {
            divisions,
            longitudes,
            radius,
        } => polyline3::to_trimesh3_capsule(&curve, size(divisions), size(longitudes), radius),
        Description::Torus { divisions, radius } => {
            let framex = polyloop3::vtx2framex(&curve);
            polyloop3::to_trimesh3_torus(&curve, &framex, radius, size(divisions))
        }
        Description::ClosedCylinder {
            divisions,
            layers,
            centred,
            radius,
            length,
        } => trimesh3_primitive::cylinder_closed_end_yup(
            radius,
            length,
            size(divisions),
            size(layers),
            centred,
        ),
        Description::SeamlessTorus { divisions, radius } => {
            let theta = Angle::turn(twist.expect("a twist of kind 6"), 4096);
            let framex = polyloop3::smooth_frame(&curve, |_, _| theta);
            polyloop3::to_trimesh3_torus(&curve, &framex, radius, size(divisions))
        }
    }
}

/// The source fills slices here, whose lengths its caller works out.
fn tube(curve: &[[f32; 3]], divisions: usize, radius: f32) -> TriMesh {
    let (num_tri, num_vtx) =
        trimesh3_primitive::cylinder_open_end_number_of_tri_and_vtx(divisions, curve.len() - 1);
    let mut tri2vtx = vec![[0; 3]; num_tri];
    let mut vtx2xyz = vec![[0.0; 3]; num_vtx];
    trimesh3_primitive::cylinder_open_end_set_topology(&mut tri2vtx, curve.len());
    polyline3::set_vtx2xyz_for_generalized_cylinder_open_end(&mut vtx2xyz, curve, radius);
    (tri2vtx, vtx2xyz)
}

/// The body as the ledger holds it.
pub fn alone(description: Description, curve: &[f32], twist: Twist) -> Alone {
    let (triangles, vertices) = body(description, curve, twist);
    let narrowed = |triangle: [usize; 3]| triangle.map(|index| index as u32);
    Alone {
        vertices,
        triangles: triangles.into_iter().map(narrowed).collect(),
    }
}

/// The source as it stands, with the checks of the optimised Rust. Its lists are copied into the lent buffers.
pub struct Source {
    checks: Sse2,
    triangles: Vec<[usize; 3]>,
}

impl Form for Source {
    fn new() -> Source {
        Source {
            checks: Sse2::new(),
            triangles: Vec::new(),
        }
    }

    fn check(&mut self, curve: &[f32], chain: Chain) -> Result<(), Refusal> {
        self.checks.check(curve, chain)
    }

    fn write_vertices(&mut self, description: Description, curve: &[f32], out: &mut [f32]) -> bool {
        let Some(&twist) = permitted(description, curve).first() else {
            return false;
        };
        let (triangles, vertices) = body(description, curve, twist);
        self.triangles = triangles;
        out.copy_from_slice(vertices.as_flattened());
        are_finite(out)
    }

    fn write_triangles(&mut self, _body: Body, first: u32, out: &mut [u32]) {
        for (to, index) in out.iter_mut().zip(self.triangles.as_flattened()) {
            *to = first + *index as u32;
        }
    }
}
