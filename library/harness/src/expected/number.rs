//! Numbers at the front of a buffer.

use second::numbers::{self, R};

use super::Answer;
use crate::call::Lent;

/// An R number in the header's order.
pub fn real(r: R) -> Vec<u64> {
    vec![r.negative.into(), r.places as u64, r.magnitude]
}

/// The same in f64.
pub fn float(r: R) -> Vec<u64> {
    vec![r.value().to_bits()]
}

pub fn read_integer(n: &[u64], lent: &mut [Lent]) -> Answer {
    let value = numbers::read_i(lent[0].bytes(), n[0] as usize)?;
    Ok(vec![value.into()])
}

pub fn read_bcd(n: &[u64], lent: &mut [Lent]) -> Answer {
    Ok(vec![numbers::read_bcd(lent[0].bytes(), n[0] as usize)?])
}

fn read_r(n: &[u64], lent: &[Lent]) -> Result<R, u8> {
    numbers::read_r(lent[0].bytes(), n[0] as usize, n[1] as usize)
}

pub fn read_real(n: &[u64], lent: &mut [Lent]) -> Answer {
    read_r(n, lent).map(real)
}

pub fn read_f64(n: &[u64], lent: &mut [Lent]) -> Answer {
    read_r(n, lent).map(float)
}

pub fn put_real(n: &[u64], lent: &mut [Lent]) -> Answer {
    let (size, places) = (n[2] as usize, n[3] as usize);
    numbers::write_r(size, places, n[0] == 1, n[1], lent[0].bytes_mut())?;
    Ok(vec![])
}
