//! The calls through Rust, by the crate `hansobrik`: by its raw declarations,
//! with the whole answer and guarded buffers, and by its safe functions.

mod answers;
mod raw;
mod safe;

pub use raw::through_rust;
pub use safe::through_safe;
