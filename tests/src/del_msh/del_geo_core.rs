//! Stand-ins for what the source takes from `del_geo_core` and from the float library, as document 01 defines
//! them: an angle with its sine and cosine, a rotation with its application, the first frame, and operations
//! on three floats. Nothing here is the source's text.

use crate::arithmetic::{first_frame, transport_step, Point};

/// Three floats, as the source holds a point.
type Xyz = [f32; 3];

fn point(v: &Xyz) -> Point {
    Point::new(v[0], v[1], v[2])
}

fn xyz(p: Point) -> Xyz {
    [p.x, p.y, p.z]
}

/// Angles, which the source has as floats.
pub mod angle {
    use crate::arithmetic::turn;
    use std::ops::{Div, Mul};

    /// k/n turn, or as much the other way. Products and quotients with whole numbers stay exact,
    /// so that sine and cosine are those of document 01's turn(k, n) for the very k and n that the
    /// source's expression is made of.
    #[derive(Clone, Copy)]
    pub struct Angle {
        k: usize,
        n: usize,
        /// Stays as it is where k becomes 0.
        negative: bool,
    }

    /// A whole turn.
    pub const TAU: Angle = Angle::turn(1, 1);

    /// A quarter of a turn.
    pub const FRAC_PI_2: Angle = Angle::turn(1, 4);

    impl Mul<usize> for Angle {
        type Output = Angle;

        fn mul(self, factor: usize) -> Angle {
            let k = self.k * factor;
            Angle { k, ..self }
        }
    }

    impl Div<usize> for Angle {
        type Output = Angle;

        #[allow(clippy::suspicious_arithmetic_impl)]
        fn div(self, divisor: usize) -> Angle {
            let n = self.n * divisor;
            Angle { n, ..self }
        }
    }

    impl Angle {
        /// k/n turn.
        pub const fn turn(k: i32, n: usize) -> Angle {
            Angle {
                k: k.unsigned_abs() as usize,
                n,
                negative: k < 0,
            }
        }

        pub fn cos(self) -> f32 {
            turn(self.k as u32, self.n as u32).0
        }

        /// Document 02's sine: that of the angle without its sign, negated for a negative one.
        pub fn sin(self) -> f32 {
            let sin = turn(self.k as u32, self.n as u32).1;
            if self.negative {
                -sin
            } else {
                sin
            }
        }
    }
}

/// Operations on three floats, each float operation in document 01's order.
pub mod vec3 {
    use super::{first_frame, point, xyz, Xyz};

    pub trait Vec3 {
        fn add(&self, other: &Xyz) -> Xyz;
        fn sub(&self, other: &Xyz) -> Xyz;
        fn scale(&self, factor: f32) -> Xyz;
        fn dot(&self, other: &Xyz) -> f32;
        fn cross(&self, other: &Xyz) -> Xyz;
        fn normalize(&self) -> Xyz;
    }

    impl Vec3 for Xyz {
        fn add(&self, other: &Xyz) -> Xyz {
            [0, 1, 2].map(|axis| self[axis] + other[axis])
        }

        fn sub(&self, other: &Xyz) -> Xyz {
            [0, 1, 2].map(|axis| self[axis] - other[axis])
        }

        fn scale(&self, factor: f32) -> Xyz {
            self.map(|component| component * factor)
        }

        fn dot(&self, other: &Xyz) -> f32 {
            self[0] * other[0] + self[1] * other[1] + self[2] * other[2]
        }

        fn cross(&self, other: &Xyz) -> Xyz {
            let [x, y, z] = *self;
            let [x_other, y_other, z_other] = *other;
            [
                y * z_other - z * y_other,
                z * x_other - x * z_other,
                x * y_other - y * x_other,
            ]
        }

        fn normalize(&self) -> Xyz {
            let norm = self.dot(self).sqrt();
            self.map(|component| component / norm)
        }
    }

    /// The first frame of a direction that is not normalised. Nobody asks for the second axis, and document
    /// 01 defines none.
    pub fn basis_xy_from_basis_z(vec_z: &Xyz) -> (Xyz, ()) {
        (xyz(first_frame(point(vec_z))), ())
    }
}

/// Rotations, which the source has as matrices.
pub mod mat3_col_major {
    use super::{point, transport_step, vec3::Vec3, xyz, Xyz};

    /// The least rotation between two directions, both normalised.
    pub struct Rotation {
        from: Xyz,
        to: Xyz,
    }

    /// Takes raw differences and normalises each once, as document 01's transport step wants them.
    pub fn minimum_rotation_matrix(from: &Xyz, to: &Xyz) -> Rotation {
        minimum_rotation_matrix_of_normalized(&from.normalize(), &to.normalize())
    }

    /// The source has the same function for directions that are normalised already. They are not
    /// normalised a second time, which would change bits.
    pub fn minimum_rotation_matrix_of_normalized(from: &Xyz, to: &Xyz) -> Rotation {
        let (from, to) = (*from, *to);
        Rotation { from, to }
    }

    pub fn mult_vec(rot: &Rotation, frame: &Xyz) -> Xyz {
        xyz(transport_step(
            point(frame),
            point(&rot.from),
            point(&rot.to),
        ))
    }
}
