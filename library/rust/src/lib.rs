//! Weather-satellite lines, S-VISSR 2.0 (format 1, and format 3 from a card
//! whose check starts from ones) and HiRID (format 2).
//!
//! Safe Rust calls of the proved library, one for each call of `hansobrik.h`,
//! named as there without the prefix; those of a pass's report stand in the
//! module [`report`], those of the desk in [`desk`]. A call that can refuse gives
//! a `Result`; a refused call changes no buffer, no state, no assembly and no
//! desk. Its refusals are named, as constants of [`Refusal`], in the order in
//! which they are tested.
//!
//! Format 3 is format 1 from a card that presets its check register with
//! sixteen ones: in each sector the first 16 bits are inverted before the
//! remainder is taken. Nothing else differs, so lines of either card are found
//! in both formats, but no sector is accepted in both: where one card's
//! recording is read as the other's, every good sector is refused with
//! REMAINDER.
//!
//! Every call is safe from any thread on buffers of its own: the library has
//! no memory of its own and keeps nothing between calls. The crate is `no_std`.
//!
//! Trusted here is that each safe call hands on the pointer and the count of
//! its own slices, and that [`desk::Area`] lends a slot as its desk says.
//!
//! A line made, written for the wire, and read again in pieces:
//!
//! ```
//! use hansobrik::{put_data, write_line, Reader, LINE_BYTES, S_VISSR, WIRE_BYTES_1};
//!
//! # fn main() -> Result<(), hansobrik::Refusal> {
//! let mut sent = [0; LINE_BYTES];
//! put_data(S_VISSR, &mut sent, 1, &[7; 2291])?;
//! let mut wire = [0; WIRE_BYTES_1];
//! write_line(S_VISSR, &sent, &mut wire)?;
//!
//! let mut line = [0; LINE_BYTES];
//! let mut reader = Reader::fresh(S_VISSR, 0); // the exact tail
//! let mut lines = 0;
//! for piece in wire.chunks(1000) {
//!     reader.take(piece, &mut line, |line| {
//!         lines += 1;
//!         assert!(line == sent);
//!     })?;
//! }
//! assert_eq!(lines, 1);
//! # Ok(())
//! # }
//! ```

#![no_std]

pub mod desk;
pub mod raw;
pub mod report;

mod assembly;
mod documentation;
mod ground;
mod number;
mod recording;
mod refusal;
mod sector;
mod sizes;

pub use assembly::*;
pub use documentation::*;
pub use ground::*;
pub use number::*;
pub use recording::*;
pub use refusal::Refusal;
pub use sector::*;
pub use sizes::*;
