//! Blocks out of segments, and their entries.

use second::blocks::{self, Assembly, Level};

use super::number::real;
use super::{signed, two, Answer};
use crate::call::Lent;

/// The record in the header's order.
fn fields(assembly: Assembly) -> Vec<u64> {
    vec![
        assembly.marks.into(),
        assembly.calibration.into(),
        assembly.manam.into(),
    ]
}

/// The record of a call: the numbers behind the format.
fn assembly(n: &[u64]) -> Assembly {
    Assembly {
        marks: n[1] as u32,
        calibration: n[2] as u16,
        manam: n[3] as u16,
    }
}

pub fn fresh() -> Vec<u64> {
    fields(Assembly::default())
}

pub fn add_segment(n: &[u64], lent: &mut [Lent]) -> Answer {
    let (line, block) = two(lent);
    let (format, number) = (n[0] as usize, n[4] as usize);
    let mut assembly = assembly(n);
    let block = block.bytes_mut();
    let added = blocks::add_segment(format, line.bytes(), number, &mut assembly, block)?;
    let head = vec![added.first_copy.into(), added.segment as u64];
    Ok([head, fields(assembly)].concat())
}

pub fn revision(n: &[u64], lent: &mut [Lent]) -> Answer {
    let (format, number) = (n[0] as usize, n[4] as usize);
    let revision = blocks::revision(format, assembly(n), number, lent[0].bytes())?;
    Ok(vec![revision.into()])
}

pub fn mapping(n: &[u64], lent: &mut [Lent]) -> Answer {
    let (row, column) = (n[4] as usize, n[5] as usize);
    let point = blocks::mapping(n[0] as usize, assembly(n), lent[0].bytes(), row, column)?;
    Ok(vec![
        point.line.into(),
        point.pixel.into(),
        signed(point.latitude),
        signed(point.longitude),
    ])
}

/// An entry of calibration-2 by one of the second decoder's two calls.
type Entry = fn(usize, Assembly, &[u8], usize, usize) -> Result<Level, u8>;

fn entry(of: Entry, n: &[u64], lent: &[Lent]) -> Result<Level, u8> {
    let (channel, level) = (n[4] as usize, n[5] as usize);
    of(n[0] as usize, assembly(n), lent[0].bytes(), channel, level)
}

/// A level in the header's order: its revision stands before the magnitude.
fn level(level: Level) -> Vec<u64> {
    let mut fields = real(level.value);
    fields.insert(2, level.revision.into());
    fields
}

/// The same in f64.
fn level_f64(level: Level) -> Vec<u64> {
    vec![level.revision.into(), level.value.value().to_bits()]
}

pub fn albedo(n: &[u64], lent: &mut [Lent]) -> Answer {
    entry(blocks::albedo, n, lent).map(level)
}

pub fn albedo_f64(n: &[u64], lent: &mut [Lent]) -> Answer {
    entry(blocks::albedo, n, lent).map(level_f64)
}

pub fn temperature(n: &[u64], lent: &mut [Lent]) -> Answer {
    entry(blocks::temperature, n, lent).map(level)
}

pub fn temperature_f64(n: &[u64], lent: &mut [Lent]) -> Answer {
    entry(blocks::temperature, n, lent).map(level_f64)
}

pub fn elements(n: &[u64], lent: &mut [Lent]) -> Answer {
    let e = blocks::orbital_elements(n[0] as usize, assembly(n), lent[0].bytes())?;
    let elements = [
        e.epoch,
        e.semi_major_axis,
        e.eccentricity,
        e.inclination,
        e.ascending_node,
        e.argument_of_perigee,
        e.mean_anomaly,
    ];
    Ok(elements.map(f64::to_bits).to_vec())
}
