//! The proved root beside the machine's, over any stretch of bit patterns.

use crate::{arithmetic::word, library};
use std::fmt;

/// How many patterns were compared, how many gave other roots, and one that did.
#[derive(Clone, Copy, Debug, Default)]
pub struct Comparison {
    pub compared: u64,
    pub differing: u64,
    pub example: Option<u32>,
}

impl Comparison {
    pub fn and(self, other: Comparison) -> Comparison {
        Comparison {
            compared: self.compared + other.compared,
            differing: self.differing + other.differing,
            example: self.example.or(other.example),
        }
    }
}

impl fmt::Display for Comparison {
    fn fmt(&self, f: &mut fmt::Formatter) -> fmt::Result {
        write!(
            f,
            "root: {} compared, {} differ",
            self.compared, self.differing
        )?;
        match self.example {
            Some(pattern) => write!(f, ", one of them {pattern:08X}"),
            None => Ok(()),
        }
    }
}

/// Compares bit for bit; a NaN equals a NaN.
pub fn compare(patterns: impl Iterator<Item = u32>) -> Comparison {
    let mut result = Comparison::default();
    // `for_each` runs the inner loops of chained iterators without their per-step tests.
    patterns.for_each(|pattern| {
        let x = f32::from_bits(pattern);
        result.compared += 1;
        if word(library::root(x)) != word(x.sqrt()) {
            result.differing += 1;
            result.example.get_or_insert(pattern);
        }
    });
    result
}
