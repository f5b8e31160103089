//! Four f32 in one register of SSE2, which every x86_64 machine has. Each operation rounds each lane once.

use std::{
    arch::{asm, x86_64::*},
    ops::{Add, BitAnd, BitOr, BitXor, Div, Mul, Sub},
};

#[derive(Clone, Copy)]
pub struct Four(__m128);

macro_rules! lane_by_lane {
    ($($operator:ident $name:ident $intrinsic:ident),*) => {$(
        impl $operator for Four {
            type Output = Four;

            #[inline(always)]
            fn $name(self, other: Four) -> Four {
                // SAFETY: SSE2 is part of the target.
                unsafe { Four($intrinsic(self.0, other.0)) }
            }
        }
    )*};
}

lane_by_lane!(
    Add add _mm_add_ps,
    Sub sub _mm_sub_ps,
    Mul mul _mm_mul_ps,
    Div div _mm_div_ps,
    BitAnd bitand _mm_and_ps,
    BitOr bitor _mm_or_ps,
    BitXor bitxor _mm_xor_ps
);

/// Lanes of one or two registers by their numbers, two of the first and two of the second.
macro_rules! shuffle {
    ($low:expr, $high:expr, $a:literal, $b:literal, $c:literal, $d:literal) => {
        // SAFETY: SSE2 is part of the target.
        unsafe {
            Four(_mm_shuffle_ps::<{ $a | $b << 2 | $c << 4 | $d << 6 }>(
                $low.0, $high.0,
            ))
        }
    };
}

// SAFETY of the blocks below: SSE2 is part of the target, and loads and stores take references to their 16 bytes.
impl Four {
    #[inline(always)]
    pub fn all(x: f32) -> Four {
        unsafe { Four(_mm_set1_ps(x)) }
    }

    #[inline(always)]
    pub fn point([x, y, z]: [f32; 3]) -> Four {
        unsafe { Four(_mm_setr_ps(x, y, z, 0.0)) }
    }

    #[inline(always)]
    pub fn load(lanes: &[f32; 4]) -> Four {
        unsafe { Four(_mm_loadu_ps(lanes.as_ptr())) }
    }

    #[inline(always)]
    pub fn store(self, lanes: &mut [f32; 4]) {
        unsafe { _mm_storeu_ps(lanes.as_mut_ptr(), self.0) }
    }

    #[inline(always)]
    pub fn lanes(self) -> [f32; 4] {
        let mut lanes = [0.0; 4];
        self.store(&mut lanes);
        lanes
    }

    #[inline(always)]
    pub fn root(self) -> Four {
        unsafe { Four(_mm_sqrt_ps(self.0)) }
    }

    /// 0, 1, 2 and 3.
    #[inline(always)]
    pub fn ascending() -> Four {
        unsafe { Four(_mm_setr_ps(0.0, 1.0, 2.0, 3.0)) }
    }

    /// The greater of both in each lane, where none is a NaN.
    #[inline(always)]
    pub fn greater(self, other: Four) -> Four {
        unsafe { Four(_mm_max_ps(self.0, other.0)) }
    }

    /// The greatest lane, where none is a NaN.
    #[inline(always)]
    pub fn greatest_lane(self) -> f32 {
        let pairs = self.greater(shuffle!(self, self, 2, 3, 2, 3));
        let most = pairs.greater(shuffle!(pairs, pairs, 1, 1, 1, 1));
        unsafe { _mm_cvtss_f32(most.0) }
    }

    /// The other's lane where all bits of the mask's are set, and its own where none is.
    #[inline(always)]
    pub fn or_where(self, mask: Four, other: Four) -> Four {
        self ^ ((self ^ other) & mask)
    }

    /// All bits of a lane set where it lies from `low` to `high`.
    #[inline(always)]
    pub fn is_between(self, low: Four, high: Four) -> Four {
        unsafe {
            let above = _mm_cmpge_ps(self.0, low.0);
            Four(_mm_and_ps(above, _mm_cmple_ps(self.0, high.0)))
        }
    }

    #[inline(always)]
    pub fn is_below(self, bound: Four) -> Four {
        unsafe { Four(_mm_cmplt_ps(self.0, bound.0)) }
    }

    /// All bits of a lane set where it is not below the bound, or a NaN.
    #[inline(always)]
    pub fn is_not_below(self, bound: Four) -> Four {
        unsafe { Four(_mm_cmpnlt_ps(self.0, bound.0)) }
    }

    /// The same, worked out here: the compiler would otherwise put it off to where it is used.
    #[inline(always)]
    pub fn at_once(self) -> Four {
        let mut register = self.0;
        unsafe {
            asm!("/* {0} */", inout(xmm_reg) register, options(nomem, nostack, preserves_flags));
        }
        Four(register)
    }

    #[inline(always)]
    pub fn magnitude(self) -> Four {
        self & Four::all(f32::from_bits(0x7FFFFFFF))
    }

    /// The sign bits of the lanes.
    #[inline(always)]
    pub fn signs(self) -> i32 {
        unsafe { _mm_movemask_ps(self.0) }
    }

    /// x y z x, y z x y, z x y z of x y z: how a point repeats in a list of points.
    #[inline(always)]
    pub fn repeated(self) -> [Four; 3] {
        [
            shuffle!(self, self, 0, 1, 2, 0),
            shuffle!(self, self, 1, 2, 0, 1),
            shuffle!(self, self, 2, 0, 1, 2),
        ]
    }

    #[inline(always)]
    pub fn lane_in_all<const LANE: i32>(self) -> Four {
        match LANE {
            0 => shuffle!(self, self, 0, 0, 0, 0),
            1 => shuffle!(self, self, 1, 1, 1, 1),
            2 => shuffle!(self, self, 2, 2, 2, 2),
            _ => shuffle!(self, self, 3, 3, 3, 3),
        }
    }

    /// Cross product of two points.
    #[inline(always)]
    pub fn cross(self, other: Four) -> Four {
        let [yzx, zxy] = self.turned();
        let [yzx_other, zxy_other] = other.turned();
        yzx * zxy_other - zxy * yzx_other
    }

    #[inline(always)]
    fn turned(self) -> [Four; 2] {
        [
            shuffle!(self, self, 1, 2, 0, 3),
            shuffle!(self, self, 2, 0, 1, 3),
        ]
    }

    /// Dot product of two points, in all lanes.
    #[inline(always)]
    pub fn dot(self, other: Four) -> Four {
        let product = self * other;
        let [x, y] = [product.lane_in_all::<0>(), product.lane_in_all::<1>()];
        (x + y) + product.lane_in_all::<2>()
    }
}

/// Four points in a row as their x, y and z.
#[inline(always)]
pub fn components([a, b, c]: [Four; 3]) -> [Four; 3] {
    let xy_xy = shuffle!(b, c, 2, 3, 1, 2);
    let yz_yz = shuffle!(a, b, 1, 2, 0, 1);
    [
        shuffle!(a, xy_xy, 0, 3, 0, 2),
        shuffle!(yz_yz, xy_xy, 0, 2, 1, 3),
        shuffle!(yz_yz, c, 1, 3, 0, 3),
    ]
}

/// Lane by lane of four registers.
#[inline(always)]
pub fn transposed([a, b, c, d]: [Four; 4]) -> [Four; 4] {
    let [ab_low, ab_high] = [shuffle!(a, b, 0, 1, 0, 1), shuffle!(a, b, 2, 3, 2, 3)];
    let [cd_low, cd_high] = [shuffle!(c, d, 0, 1, 0, 1), shuffle!(c, d, 2, 3, 2, 3)];
    [
        shuffle!(ab_low, cd_low, 0, 2, 0, 2),
        shuffle!(ab_low, cd_low, 1, 3, 1, 3),
        shuffle!(ab_high, cd_high, 0, 2, 0, 2),
        shuffle!(ab_high, cd_high, 1, 3, 1, 3),
    ]
}

/// Dot products of four pairs of points, given by their components.
#[inline(always)]
pub fn dots(a: [Four; 3], b: [Four; 3]) -> Four {
    a[0] * b[0] + a[1] * b[1] + a[2] * b[2]
}

/// Cross products of four pairs of points, given by their components.
#[inline(always)]
pub fn crosses([x, y, z]: [Four; 3], other: [Four; 3]) -> [Four; 3] {
    let [x_other, y_other, z_other] = other;
    [
        y * z_other - z * y_other,
        z * x_other - x * z_other,
        x * y_other - y * x_other,
    ]
}

/// Sums of four pairs of points, given by their components.
#[inline(always)]
pub fn sums(a: [Four; 3], b: [Four; 3]) -> [Four; 3] {
    [a[0] + b[0], a[1] + b[1], a[2] + b[2]]
}

/// Each of four points times its factor.
#[inline(always)]
pub fn products(a: [Four; 3], factors: Four) -> [Four; 3] {
    [a[0] * factors, a[1] * factors, a[2] * factors]
}

/// Each of four points divided by its norm; the squares of the norms are known.
#[inline(always)]
pub fn normalised(a: [Four; 3], squares: Four) -> [Four; 3] {
    let norms = squares.root();
    [a[0] / norms, a[1] / norms, a[2] / norms]
}
