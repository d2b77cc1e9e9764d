//! "I*n (n 1 to 4) is unsigned, high byte first; BCD*n (n 1 to 6) has two
//! digits a byte. R*n.m (n 4 or 6, m 0 to 15) is a sign bit, a magnitude, and
//! m decimal places. It reads as sign, magnitude and m; a negative zero stays
//! one. It is also given in f64: the magnitude divided by a power of ten, one
//! rounding, sign last. The powers stand in a table."
//!
//! A number is read from the first n bytes of what is handed in.

use std::fmt;

use crate::bits;
use crate::refusal::{self, refuse_if, Refusal};

/// "The powers stand in a table": 10^0 to 10^15, all exact in f64.
pub const POWERS: [f64; 16] = [
    1.0,
    10.0,
    100.0,
    1_000.0,
    10_000.0,
    100_000.0,
    1_000_000.0,
    10_000_000.0,
    100_000_000.0,
    1_000_000_000.0,
    10_000_000_000.0,
    100_000_000_000.0,
    1_000_000_000_000.0,
    10_000_000_000_000.0,
    100_000_000_000_000.0,
    1_000_000_000_000_000.0,
];

/// A number of the form R*n.m.
#[derive(Clone, Copy, Debug, PartialEq, Eq)]
pub struct R {
    pub negative: bool,
    pub magnitude: u64,
    /// The decimal places m.
    pub places: usize,
}

impl R {
    /// "the magnitude divided by a power of ten, one rounding, sign last"
    ///
    /// The magnitude is under 2^47 and so exact in f64; the division is the
    /// one rounding. A negative zero becomes -0.0.
    pub fn value(&self) -> f64 {
        let quotient = self.magnitude as f64 / POWERS[self.places];
        if self.negative {
            -quotient
        } else {
            quotient
        }
    }
}

/// The number in decimal, all its places written: exact, where `value` is not.
impl fmt::Display for R {
    fn fmt(&self, f: &mut fmt::Formatter<'_>) -> fmt::Result {
        let digits = format!("{:0least$}", self.magnitude, least = self.places + 1);
        let (whole, fraction) = digits.split_at(digits.len() - self.places);
        let sign = if self.negative { "-" } else { "" };
        let point = if self.places > 0 { "." } else { "" };
        write!(f, "{sign}{whole}{point}{fraction}")
    }
}

/// I*n: refusal 10 for a size outside 1 to 4.
pub fn test_i(n: usize) -> Result<(), Refusal> {
    refuse_if(!(1..=4).contains(&n), refusal::RANGE)
}

/// BCD*n: refusal 10 for a size outside 1 to 6.
pub fn test_bcd(n: usize) -> Result<(), Refusal> {
    refuse_if(!(1..=6).contains(&n), refusal::RANGE)
}

/// R*n.m: refusal 10 for a size other than 4 and 6 or places outside 0 to 15.
pub fn test_r(n: usize, m: usize) -> Result<(), Refusal> {
    refuse_if(n != 4 && n != 6, refusal::RANGE)?;
    refuse_if(m > 15, refusal::RANGE)
}

/// I*n, unsigned, high byte first. Refusals 10, 2.
pub fn read_i(bytes: &[u8], n: usize) -> Result<u32, Refusal> {
    test_i(n)?;
    refuse_if(bytes.len() < n, refusal::SHORT_INPUT)?;
    Ok(bits::number(&bits::part(bytes, 0, 8 * n)) as u32)
}

/// BCD*n, two digits a byte, the high one first. Refusals 10, 2, 7.
pub fn read_bcd(bytes: &[u8], n: usize) -> Result<u64, Refusal> {
    test_bcd(n)?;
    refuse_if(bytes.len() < n, refusal::SHORT_INPUT)?;
    let mut value = 0;
    for digit in bits::part(bytes, 0, 8 * n).chunks(4).map(bits::number) {
        refuse_if(digit > 9, refusal::DIGIT)?;
        value = 10 * value + digit;
    }
    Ok(value)
}

/// R*n.m: the first bit is the sign, the rest the magnitude. Refusals 10, 2.
pub fn read_r(bytes: &[u8], n: usize, m: usize) -> Result<R, Refusal> {
    test_r(n, m)?;
    refuse_if(bytes.len() < n, refusal::SHORT_INPUT)?;
    let all = bits::part(bytes, 0, 8 * n);
    Ok(R {
        negative: all[0] == 1,
        magnitude: bits::number(&all[1..]),
        places: m,
    })
}

/// "numbers to R bytes": sign and magnitude to the first n bytes of `out`. The
/// places m do not show in the bytes but have to be in range. Gives n.
/// Refusals 10, 11, 3.
pub fn write_r(
    n: usize,
    m: usize,
    negative: bool,
    magnitude: u64,
    out: &mut [u8],
) -> Result<usize, Refusal> {
    test_r(n, m)?;
    let magnitude_bits = 8 * n - 1;
    refuse_if(magnitude >> magnitude_bits != 0, refusal::MAGNITUDE)?;
    refuse_if(out.len() < n, refusal::SHORT_OUTPUT)?;

    let mut all = vec![u8::from(negative)];
    all.extend(bits::of_number(magnitude, magnitude_bits));
    out[..n].copy_from_slice(&bits::to_bytes(&all));
    Ok(n)
}
