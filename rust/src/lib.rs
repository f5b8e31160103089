//! Togbefulo, the proved sweep core: a description and a curve become a triangle body, packed
//! beside others in buffers that the caller lends.
//!
//! [`Set`] holds such buffers. [`Description::counts`], [`check`](Description::check),
//! [`write_vertices`](Description::write_vertices) and
//! [`write_triangles`](Description::write_triangles) serve a body alone. Whatever is handed over,
//! a call answers, and a [`Refusal`] says why not.
//!
//! Seen from outside, the triangles of all kinds but a ribbon run counter-clockwise: by the
//! right-hand rule they face outward. A ribbon's run counter-clockwise on the side from which, with
//! the curve running upward, the band lies to the right of the curve. Coordinates are taken as
//! right-handed. Where a curve bends more sharply than the radius allows, a body crosses itself,
//! and has no plain outside there.
//!
//! The code that does the work is `libtogbefulo.a`, for x86-64 Linux; its functions stand in
//! [`ffi`]. It is linked from `../crates/togbefulo/out`, where `rt lib` leaves it, or from the
//! folder that the environment variable `TOGBEFULO_LIB_DIR` names; a relative path begins at the
//! folder of this crate.
//!
//! ```
//! use togbefulo::{Description, Refusal, Set, TABLE_WORDS};
//!
//! let hose = Description::Capsule { divisions: 10, longitudes: 3, radius: 3.5 };
//! let curve = [[0.0, 0.0, 0.0], [0.0, 0.0, 60.0], [30.0, 10.0, 90.0]];
//! let room = hose.counts(curve.len())?;
//! let (mut vertices, mut triangles) = (vec![0.0; room.floats()], vec![0; room.words()]);
//!
//! let mut table = [0; TABLE_WORDS];
//! let mut set = Set::new(&mut table, &mut vertices, &mut triangles)?;
//! set.add(hose, &curve)?;
//! assert_eq!(set.entries().next().map(|body| body.vertices), Some(72));
//! assert_eq!(set.add(hose, &curve), Err(Refusal::NoVertices));
//! # Ok::<(), Refusal>(())
//! ```

#![deny(missing_docs)]
#![deny(unsafe_code)]

mod alone;
mod description;
pub mod ffi;
mod refusal;
mod set;

pub use alone::{root, turn, Counts};
pub use description::{Description, Kind, Point};
pub use refusal::Refusal;
pub use set::{table_words, Entry, Set, MOST_BODIES, TABLE_WORDS};
