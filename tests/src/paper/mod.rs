//! Document 01's descriptions, refusals, vertices, shared set, ledger and records, with document
//! 02's kind 6, read plainly from their text. Nothing is shared with the adapted source but the
//! arithmetic.

pub mod curve;
pub mod description;
pub mod ledger;
pub mod records;
pub mod set;
pub mod twist;
pub mod vertices;
