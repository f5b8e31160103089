//! Additions to the shared set in Rust that is written for speed: what the proved code's time is
//! held to. The sweep functions are those of nobuyuki83/del-msh, with the arithmetic and the
//! checks of documents 01 and 02, and fill lent slices.
//!
//! What is done for speed: each segment is normalised once, for the checks and the vertices alike; directions round
//! the body are worked out once; a row of triangles is worked out once; the float work is there in two forms, plain
//! and in registers of SSE2.

mod form;
mod plain;
mod sse2;
mod table;
mod triangles;
mod twists;

pub use form::{add, check, Chain, Form};
pub use plain::{are_finite, search as plain_search, Plain};
pub use sse2::{search as sse2_search, Sse2};
pub use table::clear;
pub use twists::{Ends, Twist};
