//! "Finding a line. The tail is the last 64 bits of SYNC. Starting at the
//! recording's first bit, and again at the first bit after each line, the
//! reader seeks the first place where 64 bits, all since that start, equal the
//! tail. The next 354,848 bits are the line, made plain. Nothing else is
//! sought inside a line. A line may begin and end at any bit of a byte. ...
//! Dummy bits are searched like any others."
//!
//! Document 02, T-01, puts at most so many wrong bits in the place of "equal":
//! "The reader takes a setting 0 to 6: a place counts as the tail when at most
//! that many of the 64 bits differ. The first such place wins; scrambling
//! still goes on from fifteen ones. ... Setting 0 is document 01 as it was."
//!
//! This is the plain definition over the whole, uncut list of bits. It knows
//! nothing of pieces, states or formats. What the call of [`crate::reader`]
//! hands out, however the recording is cut, has to be this list.

use crate::bits;
use crate::format::INFORMATION_BITS;
use crate::scramble::{plain_from_wire, tail, TAIL_BITS};

/// "a setting 0 to 6"
pub const LARGEST_SETTING: usize = 6;

/// One line of a recording.
#[derive(Clone, Debug, PartialEq, Eq)]
pub struct Line {
    /// The 44,356 plain bytes.
    pub bytes: Vec<u8>,
    /// The place of the first bit after the line.
    pub end: usize,
}

/// All the lines of a recording at a setting, in order.
pub fn lines(setting: usize, bits: &[u8]) -> Vec<Line> {
    let mut found = Vec::new();
    let mut start = 0;
    while let Some(line) = first_line(setting, bits, start) {
        start = line.end;
        found.push(line);
    }
    found
}

/// The first line since `start`. A line that the recording does not finish is
/// none, and no other is sought inside it.
pub fn first_line(setting: usize, bits: &[u8], start: usize) -> Option<Line> {
    let first = after_first_tail(setting, bits, start)?;
    let end = first + INFORMATION_BITS;
    let wire = bits.get(first..end)?;
    Some(Line {
        bytes: bits::to_bytes(&plain_from_wire(wire)),
        end,
    })
}

/// The place after the first place since `start` that counts as the tail: "64
/// bits, all since that start".
pub fn after_first_tail(setting: usize, bits: &[u8], start: usize) -> Option<usize> {
    (start + TAIL_BITS..=bits.len())
        .find(|&end| counts_as_tail(setting, &bits[end - TAIL_BITS..end]))
}

/// "a place counts as the tail when at most that many of the 64 bits differ"
pub fn counts_as_tail(setting: usize, window: &[u8]) -> bool {
    bits::differences(window, tail()) <= setting
}
