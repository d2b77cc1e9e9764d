//! Recordings: the reader and the writer.

use crate::raw;
use crate::refusal::{unless, Refusal};

pub use crate::raw::State;

/// What a read did.
#[derive(Clone, Copy, Debug, PartialEq, Eq)]
pub struct Read {
    /// Bytes taken of the piece; offer the rest again.
    pub taken: usize,
    /// A line stands whole in the buffer.
    pub complete: bool,
}

/// A reader before a recording's first bit.
pub fn fresh() -> State {
    // SAFETY: it takes nothing.
    unsafe { raw::hansobrik_fresh() }
}

/// Reads until a line is complete or the piece is used up. A complete line
/// stands in the buffer until a later call finds the next tail. Refused with
/// FORMAT, SETTING, STATE, SHORT_INPUT; `line` must have 44,356 bytes or more.
///
/// The setting, 0 to [`LARGEST_SETTING`](crate::LARGEST_SETTING), is how many
/// bits of the tail may be wrong: the first 64 bits that differ from it in at
/// most that many places count as the tail. 0 asks for the exact one. Where
/// bits come wrong choose 4: then up to four wrong bits in any 64 neighbouring
/// bits of SYNC and dummy never cost a line and never make a false one. 5 and 6
/// bear as many in the tail, but in any other 64 bits only three and two. The
/// record does not hold the setting: hand in the same one in all calls on a
/// recording.
///
/// The record that the library gives back is stored in any case: a refused
/// call gives back the one that was handed in.
pub fn read(
    format: u8,
    setting: u8,
    state: &mut State,
    piece: &[u8],
    line: &mut [u8],
) -> Result<Read, Refusal> {
    // SAFETY: pointers and counts are those of two slices that do not overlap.
    let a = unsafe {
        raw::hansobrik_read(
            format,
            setting,
            *state,
            piece.as_ptr(),
            piece.len(),
            line.as_mut_ptr(),
            line.len(),
        )
    };
    *state = a.state;
    unless(
        a.refused,
        Read {
            taken: a.taken,
            complete: a.complete,
        },
    )
}

/// A reader that hands its record and its setting on by itself, and takes every
/// piece whole, so that neither record nor rest can be forgotten.
///
/// Its fields may be stored and put back; [`State`] says which of its own may
/// be looked at.
#[derive(Clone, Copy, Debug, PartialEq, Eq)]
pub struct Reader {
    pub format: u8,
    /// As [`read`] takes it, the same for the whole recording.
    pub setting: u8,
    pub state: State,
}

impl Reader {
    /// A reader before a recording's first bit.
    pub fn fresh(format: u8, setting: u8) -> Reader {
        Reader {
            format,
            setting,
            state: fresh(),
        }
    }

    /// Reads the whole piece, and hands each line that becomes complete to
    /// `each`, out of the buffer `line`. Refused as [`read`] is; no byte of the
    /// piece has a part in that, so that of a refused piece nothing was taken.
    pub fn take(
        &mut self,
        piece: &[u8],
        line: &mut [u8],
        mut each: impl FnMut(&[u8]),
    ) -> Result<(), Refusal> {
        let mut rest = piece;
        loop {
            let answer = read(self.format, self.setting, &mut self.state, rest, line)?;
            rest = &rest[answer.taken..];
            if !answer.complete {
                return Ok(());
            }
            each(line);
        }
    }
}

/// One plain line on the wire at the front of `out`; how many bytes. Refused
/// with FORMAT, SHORT_INPUT, SHORT_OUTPUT.
pub fn write_line(format: u8, line: &[u8], out: &mut [u8]) -> Result<usize, Refusal> {
    // SAFETY: pointers and counts are those of two slices that do not overlap.
    let a = unsafe {
        raw::hansobrik_write_line(
            format,
            line.as_ptr(),
            line.len(),
            out.as_mut_ptr(),
            out.len(),
        )
    };
    unless(a.refused, a.count)
}
