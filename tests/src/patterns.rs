//! Parts of the 2^32 bit patterns of an f32.

use std::ops::RangeInclusive;

/// Half the width of the neighbourhood that is taken round each exponent boundary.
const NEIGHBOURHOOD: u32 = 1 << 11;

/// Every `step`-th pattern, the first included.
pub fn every(step: u32) -> impl Iterator<Item = u32> {
    (0..=u32::MAX).step_by(step as usize)
}

/// The patterns next to each change of sign or exponent: zeros, subnormals, binades, infinities, NaNs.
pub fn boundaries() -> impl Iterator<Item = u32> {
    (0..512u32).flat_map(|exponent| {
        let start = exponent << 23;
        (0..2 * NEIGHBOURHOOD).map(move |i| start.wrapping_sub(NEIGHBOURHOOD).wrapping_add(i))
    })
}

/// All positive subnormals, with +0.
pub fn subnormals() -> RangeInclusive<u32> {
    0..=0x007FFFFF
}

/// All numbers from 1 to just below 4: every significand, with an even and with an odd exponent.
pub fn one_to_four() -> RangeInclusive<u32> {
    0x3F800000..=0x407FFFFF
}
