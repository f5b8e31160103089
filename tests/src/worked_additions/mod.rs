//! The program `worked_additions`: its input, and what it prints, by the adapted functions of del-msh and the readings
//! of document 01.

mod digest;
mod lists;
mod script;

pub use lists::script;
pub use script::Script;
