//! How many floats of each sort were met, so that a comparison can say what it covered.

use std::fmt;

#[derive(Clone, Copy, Debug, Default)]
pub struct Census {
    floats: u64,
    plus_zeros: u64,
    minus_zeros: u64,
    subnormals: u64,
    large: u64,
    infinities: u64,
    nans: u64,
}

/// What is called large: more than the longest permitted segment, 2^40.
const LARGE: f32 = (1u64 << 40) as f32;

impl Census {
    pub fn count(&mut self, x: f32) {
        self.floats += 1;
        self.plus_zeros += u64::from(x.to_bits() == 0);
        self.minus_zeros += u64::from(x.to_bits() == 1 << 31);
        self.subnormals += u64::from(x.is_subnormal());
        self.large += u64::from(x.is_finite() && x.abs() > LARGE);
        self.infinities += u64::from(x.is_infinite());
        self.nans += u64::from(x.is_nan());
    }

    pub fn count_all(&mut self, values: &[f32]) {
        values.iter().for_each(|&x| self.count(x));
    }

    pub fn merge(&mut self, other: &Census) {
        self.floats += other.floats;
        self.plus_zeros += other.plus_zeros;
        self.minus_zeros += other.minus_zeros;
        self.subnormals += other.subnormals;
        self.large += other.large;
        self.infinities += other.infinities;
        self.nans += other.nans;
    }

    pub fn floats(&self) -> u64 {
        self.floats
    }

    /// How many are +0, -0, subnormal, and finite above 2^40.
    pub fn unusual(&self) -> [u64; 4] {
        [
            self.plus_zeros,
            self.minus_zeros,
            self.subnormals,
            self.large,
        ]
    }

    pub fn has_minus_zeros(&self) -> bool {
        self.minus_zeros > 0
    }
}

impl fmt::Display for Census {
    fn fmt(&self, f: &mut fmt::Formatter) -> fmt::Result {
        write!(
            f,
            "{} floats: {} of +0, {} of -0, {} subnormal, {} finite above 2^40, {} infinite, {} NaN",
            self.floats,
            self.plus_zeros,
            self.minus_zeros,
            self.subnormals,
            self.large,
            self.infinities,
            self.nans
        )
    }
}
