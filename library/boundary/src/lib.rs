//! The header and the Rust declarations, held to the Rattle text of the crates.
//!
//! - `source` derives every function and struct of the boundary from the
//!   Rattle text, `model` says how C and Rust spell them and how C lays them
//!   out, `header` and `rust` read what is declared, `compare` compares.
//! - `numbers`, `sizes`, `calls` and `version` do the same with the numbers that have a
//!   name, the refusals of each call, and the version.
//! - `claims` and `compilers` have the compilers say the same of what they
//!   read; `words` runs the two functions that give a refusal's words;
//!   `archive` looks at the names that an archive gives.
//! - `check` is all of it, `edits` the edits that it must refuse.

pub mod archive;
pub mod calls;
pub mod check;
pub mod claims;
pub mod compare;
pub mod compilers;
pub mod edits;
pub mod header;
pub mod model;
pub mod numbers;
pub mod rust;
pub mod sizes;
pub mod source;
pub mod tokens;
pub mod tools;
pub mod tree;
pub mod version;
pub mod words;
