//! Why a call was refused.

use core::fmt;

/// The number of a refusal, one of the nineteen below.
#[derive(Clone, Copy, Debug, PartialEq, Eq, Hash)]
pub struct Refusal(pub u8);

// In the order in which they are tested.
impl Refusal {
    pub const FORMAT: Refusal = Refusal(1);
    pub const SETTING: Refusal = Refusal(13);
    pub const OUT_OF_RANGE: Refusal = Refusal(19);
    pub const STATE: Refusal = Refusal(12);
    pub const FULL: Refusal = Refusal(15);
    pub const NUMBER: Refusal = Refusal(4);
    pub const RANGE: Refusal = Refusal(10);
    pub const MAGNITUDE: Refusal = Refusal(11);
    pub const SHORT_INPUT: Refusal = Refusal(2);
    pub const NO_SERIAL: Refusal = Refusal(18);
    pub const NO_SLOT: Refusal = Refusal(16);
    pub const NO_HOLD: Refusal = Refusal(17);
    pub const SHORT_OUTPUT: Refusal = Refusal(3);
    pub const REMAINDER: Refusal = Refusal(5);
    pub const ID: Refusal = Refusal(6);
    pub const FIELD: Refusal = Refusal(7);
    pub const REVISION: Refusal = Refusal(14);
    pub const SEGMENT: Refusal = Refusal(8);
    pub const UNFINISHED: Refusal = Refusal(9);

    /// What the header's `hansobrik_refusal_words` says of the number.
    pub fn words(self) -> &'static str {
        match self {
            Refusal::FORMAT => "the format is none of 1, 2, 3",
            Refusal::SETTING => "the setting of a reader is above 6",
            Refusal::OUT_OF_RANGE => {
                "a desk's slots are not 2 to 8, or a slot is not below their count"
            }
            Refusal::STATE => {
                "the reader's record, the register, the marks, a report or a desk are impossible"
            }
            Refusal::FULL => "the report would have over 100,000 lines",
            Refusal::NUMBER => {
                "a sector, channel or block number that the call does not serve; \
                 calibration-2 in format 2"
            }
            Refusal::RANGE => {
                "level, grid point, number size or decimal places out of range; \
                 a pixel over its width"
            }
            Refusal::MAGNITUDE => "a magnitude over 2^31-1 (n 4) or 2^47-1 (n 6), on writing",
            Refusal::SHORT_INPUT => {
                "line or block buffer, area, number bytes, sector data or pixels fewer than needed"
            }
            Refusal::NO_SERIAL => "the serial numbers of a desk are used up",
            Refusal::NO_SLOT => "no slot of a desk is free",
            Refusal::NO_HOLD => {
                "the consumer does not hold the slot under that serial, \
                 or the slot is not being filled under it"
            }
            Refusal::SHORT_OUTPUT => "the output is shorter than the result",
            Refusal::REMAINDER => "the sector's remainder is not 0",
            Refusal::ID => "the remainder is 0, the ID not the sector's own",
            Refusal::FIELD => {
                "BCD digit over 9, date part out of range, bad segment or repeat bytes"
            }
            Refusal::REVISION => {
                "the segment is of another revision of the tables than the assembly"
            }
            Refusal::SEGMENT => "the segment differs from the stored one",
            Refusal::UNFINISHED => "an entry of a block without all 25 segments",
            _ => "a number that the library does not give",
        }
    }
}

impl fmt::Display for Refusal {
    fn fmt(&self, f: &mut fmt::Formatter<'_>) -> fmt::Result {
        write!(f, "refused with {}: {}", self.0, self.words())
    }
}

impl core::error::Error for Refusal {}

/// The result of a call whose answer says `refused`: the value where that is 0.
pub(crate) fn unless<T>(refused: u8, value: T) -> Result<T, Refusal> {
    match refused {
        0 => Ok(value),
        number => Err(Refusal(number)),
    }
}
