//! Numbers of the documentation fields, at the front of a slice.

use crate::raw;
use crate::refusal::{unless, Refusal};

/// R*n.m as sign, magnitude and decimal places. A negative zero is one.
#[derive(Clone, Copy, Debug, PartialEq, Eq)]
pub struct R {
    pub negative: bool,
    pub magnitude: u64,
    pub places: u8,
}

pub(crate) fn integer(a: raw::IntegerAnswer) -> Result<u32, Refusal> {
    unless(a.refused, a.value)
}

pub(crate) fn bcd(a: raw::BcdAnswer) -> Result<u64, Refusal> {
    unless(a.refused, a.value)
}

pub(crate) fn real(a: raw::RealAnswer) -> Result<R, Refusal> {
    unless(
        a.refused,
        R {
            negative: a.negative,
            magnitude: a.magnitude,
            places: a.places,
        },
    )
}

pub(crate) fn float(a: raw::FloatAnswer) -> Result<f64, Refusal> {
    unless(a.refused, a.value)
}

/// I*n, n 1 to 4. Refused with RANGE, SHORT_INPUT.
pub fn read_integer(bytes: &[u8], n: usize) -> Result<u32, Refusal> {
    // SAFETY: the pointer and the count are those of one slice.
    integer(unsafe { raw::hansobrik_read_integer(bytes.as_ptr(), bytes.len(), n) })
}

/// BCD*n, n 1 to 6. Refused with RANGE, SHORT_INPUT, FIELD.
pub fn read_bcd(bytes: &[u8], n: usize) -> Result<u64, Refusal> {
    // SAFETY: the pointer and the count are those of one slice.
    bcd(unsafe { raw::hansobrik_read_bcd(bytes.as_ptr(), bytes.len(), n) })
}

/// R*n.m, n 4 or 6, m 0 to 15. Refused with RANGE, SHORT_INPUT.
pub fn read_real(bytes: &[u8], n: usize, m: u8) -> Result<R, Refusal> {
    // SAFETY: the pointer and the count are those of one slice.
    real(unsafe { raw::hansobrik_read_real(bytes.as_ptr(), bytes.len(), n, m) })
}

/// The same in f64. Refused with RANGE, SHORT_INPUT.
pub fn read_f64(bytes: &[u8], n: usize, m: u8) -> Result<f64, Refusal> {
    // SAFETY: the pointer and the count are those of one slice.
    float(unsafe { raw::hansobrik_read_f64(bytes.as_ptr(), bytes.len(), n, m) })
}

/// The n bytes of R*n.m at the front of `out`. Refused with RANGE, MAGNITUDE,
/// SHORT_OUTPUT.
pub fn put_real(
    negative: bool,
    magnitude: u64,
    n: usize,
    m: u8,
    out: &mut [u8],
) -> Result<(), Refusal> {
    // SAFETY: the pointer and the count are those of one slice.
    let a =
        unsafe { raw::hansobrik_put_real(negative, magnitude, n, m, out.as_mut_ptr(), out.len()) };
    unless(a, ())
}
