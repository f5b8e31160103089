//! The sweep functions of nobuyuki83/del-msh at commit cab8861116, adapted as little as possible, to be held
//! beside the source: the files have its names, the functions its order, and names, loops and expressions
//! are its own, lengths included.
//!
//! What is changed in every file: `T`, `Real` are `f32`, `Index` is `usize`, so that conversions between them
//! fall away or become `as f32`; zero, one and the like are written as numbers. `del_geo_core` is the file of
//! that name here, with document 01's stand-ins. The angles that the source works out in floats are that
//! file's: `two * pi` is `TAU`, `pi * half` is `FRAC_PI_2`, and sine and cosine are asked of the angle.

pub mod del_geo_core;
pub mod polyline3;
pub mod polyloop3;
pub mod trimesh3_primitive;
