//! "Format 1 is S-VISSR 2.0 ..., format 2 is HiRID" and "One line on the wire":
//!
//! | | format 1 | format 2 |
//! |---|---|---|
//! | SYNC bits | 10,000 | 20,000 |
//! | information bits | 354,848 | 354,848 |
//! | dummy bits, plain zeros | 0 | 21,152 |
//! | bytes in all | 45,606 | 49,500 |
//!
//! Document 02, T-11: "The format record gains the start value; formats 1 and 2
//! keep zero, format 3 is format 1 with ones." "Refusal 1 is now for numbers
//! other than 1, 2, 3".

use crate::refusal::{self, Refusal};

/// Information bits of one line, the same in all formats.
pub const INFORMATION_BITS: usize = 354_848;

/// Bytes of one plain line: the information bits, eight to a byte.
pub const LINE_BYTES: usize = 44_356;

/// What belongs to a format: the lengths, and what the check register is preset
/// with.
#[derive(Clone, Copy, Debug, PartialEq, Eq)]
pub struct Format {
    pub sync_bits: usize,
    pub dummy_bits: usize,
    pub wire_bytes: usize,
    pub check_start: u16,
}

/// Format 1.
pub const S_VISSR: Format = Format {
    sync_bits: 10_000,
    dummy_bits: 0,
    wire_bytes: 45_606,
    check_start: 0,
};

/// Format 2.
pub const HIRID: Format = Format {
    sync_bits: 20_000,
    dummy_bits: 21_152,
    wire_bytes: 49_500,
    check_start: 0,
};

/// Format 3: "format 1 with ones".
pub const S_VISSR_ONES: Format = Format {
    check_start: 0xFFFF,
    ..S_VISSR
};

/// The format of a number, or refusal 1.
pub fn format(number: usize) -> Result<Format, Refusal> {
    match number {
        1 => Ok(S_VISSR),
        2 => Ok(HIRID),
        3 => Ok(S_VISSR_ONES),
        _ => Err(refusal::FORMAT),
    }
}
