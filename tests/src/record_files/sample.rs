//! The record of document 01's "Rulings and samples".

use super::{bytes, ribbon};

pub fn file() -> Vec<u8> {
    bytes(&[ribbon(2.0, &[[0.0, 0.0, 0.0], [0.0, 0.0, 1.0]])])
}
