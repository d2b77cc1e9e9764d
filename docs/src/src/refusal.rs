//! "Refusal numbers ... Tested from the top; the first that applies is given.
//! Every refusal returns its number and 0 elsewhere and leaves state and
//! buffers as at entry."
//!
//! The constants stand in the order of the paper's table, which is the order
//! in which every call tests them. The order is not that of the numbers.

/// A refusal number of the table.
pub type Refusal = u8;

/// Document 02, T-11: "Refusal 1 is now for numbers other than 1, 2, 3"
pub const FORMAT: Refusal = 1;

/// Document 02, T-01: "13 for a setting above 6, tested after 1"
pub const SETTING: Refusal = 13;

/// Document 02, T-06: "19 for a slot number or a count out of range, tested first"
pub const OUT_OF_RANGE: Refusal = 19;

/// "state record impossible: ... a segment mark above 24". Document 02, T-05: "12
/// for a record over the limit, with sector counts that do not add up, or a
/// count or sum above what its lines allow"; T-06: "12 for an impossible desk"
pub const STATE: Refusal = 12;

/// Document 02, T-05: "15, tested after 12, for one line more, or two records
/// together over the limit"
pub const FULL: Refusal = 15;

/// "sector, channel or block number is not one this call serves;
/// calibration-2 in format 2"
pub const NUMBER: Refusal = 4;

/// "level, grid point, number size n or decimal places outside the range; a
/// pixel over its width among those the sector takes"
pub const RANGE: Refusal = 10;

/// "magnitude over 2^31-1 (n 4) or 2^47-1 (n 6) on writing"
pub const MAGNITUDE: Refusal = 11;

/// "line buffer under 44,356 bytes, block buffer under its size, or number
/// bytes, sector data or pixels fewer than needed". Document 02, T-06: "2 for a
/// short area"
pub const SHORT_INPUT: Refusal = 2;

/// Document 02, T-06: "18 for a take with serials used up"
pub const NO_SERIAL: Refusal = 18;

/// Document 02, T-06: "16 for a take exactly when serials remain and no slot is
/// free"
pub const NO_SLOT: Refusal = 16;

/// Document 02, T-06: "17 for a hold that isn't there, or a publish of a slot not
/// being filled under that serial"
pub const NO_HOLD: Refusal = 17;

/// "output shorter than the result"
pub const SHORT_OUTPUT: Refusal = 3;

/// "sector remainder not 0"
pub const REMAINDER: Refusal = 5;

/// "remainder 0, ID not its own"
pub const ID: Refusal = 6;

/// "BCD digit over 9, date part out of range, byte 193 or 195 not 0, segment
/// above 24, repeat above 7"
pub const DIGIT: Refusal = 7;

/// Document 02, T-02: "14 for a foreign revision, tested before 8"
pub const REVISION: Refusal = 14;

/// "segment differs from the stored one"
pub const SEGMENT: Refusal = 8;

/// "entry asked of a block without all 25 segments"
pub const INCOMPLETE: Refusal = 9;

/// Refuses with `number` when `applies`.
///
/// A call written as a column of these reads like the table, from the top.
pub fn refuse_if(applies: bool, number: Refusal) -> Result<(), Refusal> {
    if applies {
        Err(number)
    } else {
        Ok(())
    }
}
