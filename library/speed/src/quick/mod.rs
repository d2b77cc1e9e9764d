//! Reader and writer by words, as one writes them in Rust: the library's
//! algorithm. `descrambling.rs` has their times. Refused as the library's are.
//! They are not inlined, since the library's cannot be.

pub mod mix;
mod reader;
mod register;
mod tail;
mod wire;

pub use reader::read;
pub use tail::counts;
pub use wire::{before_sync, put_sync, write_line};
