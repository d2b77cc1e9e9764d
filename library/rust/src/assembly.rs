//! Blocks put together out of 25 segments, and the entries of a finished one.
//!
//! An assembly is its record, [`Assembly`], and its block buffer. It begins
//! with a fresh record; the block buffer may hold anything.

use crate::number::R;
use crate::raw;
use crate::refusal::{unless, Refusal};

pub use crate::raw::Assembly;

/// What a line added to an assembly.
#[derive(Clone, Copy, Debug, PartialEq, Eq)]
pub struct Added {
    pub segment: u8,
    /// An equal later copy changes nothing.
    pub first_copy: bool,
}

/// A point of the mapping grid: image line and pixel, degrees north and
/// degrees east. South and west are below 0; the longitude is above -180 and at
/// most 180.
#[derive(Clone, Copy, Debug, PartialEq, Eq)]
pub struct GridPoint {
    pub line: u16,
    pub pixel: u16,
    pub latitude: i16,
    pub longitude: i16,
}

/// A level of calibration-2, and the calibration table ID of the block.
#[derive(Clone, Copy, Debug, PartialEq, Eq)]
pub struct Level {
    pub value: R,
    pub revision: u16,
}

/// The same in f64.
#[derive(Clone, Copy, Debug, PartialEq)]
pub struct LevelF64 {
    pub value: f64,
    pub revision: u16,
}

/// The orbital elements: the epoch as MJD, the axis in km, the angles in
/// degrees.
#[derive(Clone, Copy, Debug, PartialEq)]
pub struct Elements {
    pub epoch: f64,
    pub axis: f64,
    pub eccentricity: f64,
    pub inclination: f64,
    pub node: f64,
    pub perigee: f64,
    pub anomaly: f64,
}

/// An assembly that has no segment yet: every field 0.
pub fn fresh_assembly() -> Assembly {
    // SAFETY: it takes nothing.
    unsafe { raw::hansobrik_fresh_assembly() }
}

/// The segment of a block that a line carries, added to the block's assembly.
/// Refused with FORMAT, STATE, NUMBER, SHORT_INPUT, REMAINDER, ID, FIELD,
/// REVISION, SEGMENT.
///
/// The record takes calibration table ID and MANAM revision from the line that
/// brings the first segment, and keeps them. For the two calibration blocks a
/// line with another calibration table ID is refused with REVISION, for MANAM
/// one with another MANAM revision, equal copies too; mapping and orbit go by
/// neither. So after a change of the operator's tables every line is refused
/// with REVISION until the caller begins a new assembly.
///
/// The record that the library gives back is stored in any case: a refused
/// call gives back the one that was handed in.
pub fn add_segment(
    format: u8,
    assembly: &mut Assembly,
    line: &[u8],
    number: u8,
    block: &mut [u8],
) -> Result<Added, Refusal> {
    // SAFETY: pointers and counts are those of two slices that do not overlap.
    let a = unsafe {
        raw::hansobrik_add_segment(
            format,
            *assembly,
            line.as_ptr(),
            line.len(),
            number,
            block.as_mut_ptr(),
            block.len(),
        )
    };
    *assembly = a.assembly;
    unless(
        a.refused,
        Added {
            segment: a.segment,
            first_copy: a.first_copy,
        },
    )
}

/// Of which revision of the operator's tables a finished block is: of MANAM the
/// MANAM revision, of a calibration block the calibration table ID; no other
/// block is served. Refused with FORMAT, STATE, NUMBER, SHORT_INPUT,
/// UNFINISHED.
pub fn revision(format: u8, assembly: Assembly, number: u8, block: &[u8]) -> Result<u16, Refusal> {
    // SAFETY: the pointer and the count are those of one slice.
    let a =
        unsafe { raw::hansobrik_revision(format, assembly, number, block.as_ptr(), block.len()) };
    unless(a.refused, a.revision)
}

/// A point of a finished mapping block, row and column 0 to 24, five degrees
/// apart: rows from 60 north to 60 south, columns from 45 to 165 east in
/// [`S_VISSR`](crate::S_VISSR) and [`S_VISSR_ONES`](crate::S_VISSR_ONES) and
/// from 80 east to 160 west in [`HIRID`](crate::HIRID). Refused with FORMAT,
/// STATE, RANGE, SHORT_INPUT, UNFINISHED.
pub fn mapping(
    format: u8,
    assembly: Assembly,
    block: &[u8],
    row: u16,
    column: u16,
) -> Result<GridPoint, Refusal> {
    // SAFETY: the pointer and the count are those of one slice.
    let a = unsafe {
        raw::hansobrik_mapping(format, assembly, block.as_ptr(), block.len(), row, column)
    };
    unless(
        a.refused,
        GridPoint {
            line: a.line,
            pixel: a.pixel,
            latitude: a.latitude,
            longitude: a.longitude,
        },
    )
}

fn level_of(a: raw::LevelAnswer) -> Result<Level, Refusal> {
    unless(
        a.refused,
        Level {
            value: R {
                negative: a.negative,
                magnitude: a.magnitude,
                places: a.places,
            },
            revision: a.revision,
        },
    )
}

fn level_f64_of(a: raw::LevelFloatAnswer) -> Result<LevelF64, Refusal> {
    unless(
        a.refused,
        LevelF64 {
            value: a.value,
            revision: a.revision,
        },
    )
}

/// One of the library's four calls for a level.
type LevelCall<A> = unsafe extern "C" fn(u8, Assembly, *const u8, usize, u8, u16) -> A;

fn level_by<A>(
    call: LevelCall<A>,
    format: u8,
    assembly: Assembly,
    block: &[u8],
    channel: u8,
    level: u16,
) -> A {
    // SAFETY: the pointer and the count are those of one slice.
    unsafe {
        call(
            format,
            assembly,
            block.as_ptr(),
            block.len(),
            channel,
            level,
        )
    }
}

/// The albedo of a level, 0 to 63, of VIS 1 to 4. Refused with FORMAT, STATE,
/// NUMBER, RANGE, SHORT_INPUT, UNFINISHED.
pub fn albedo(
    format: u8,
    assembly: Assembly,
    block: &[u8],
    channel: u8,
    level: u16,
) -> Result<Level, Refusal> {
    let call = raw::hansobrik_albedo;
    level_of(level_by(call, format, assembly, block, channel, level))
}

/// The same in f64.
pub fn albedo_f64(
    format: u8,
    assembly: Assembly,
    block: &[u8],
    channel: u8,
    level: u16,
) -> Result<LevelF64, Refusal> {
    let call = raw::hansobrik_albedo_f64;
    level_f64_of(level_by(call, format, assembly, block, channel, level))
}

/// The temperature of a level, 0 to 1,023, of IR 1 to 4. Refused with FORMAT,
/// STATE, NUMBER, RANGE, SHORT_INPUT, UNFINISHED.
pub fn temperature(
    format: u8,
    assembly: Assembly,
    block: &[u8],
    channel: u8,
    level: u16,
) -> Result<Level, Refusal> {
    let call = raw::hansobrik_temperature;
    level_of(level_by(call, format, assembly, block, channel, level))
}

/// The same in f64.
pub fn temperature_f64(
    format: u8,
    assembly: Assembly,
    block: &[u8],
    channel: u8,
    level: u16,
) -> Result<LevelF64, Refusal> {
    let call = raw::hansobrik_temperature_f64;
    level_f64_of(level_by(call, format, assembly, block, channel, level))
}

/// The orbital elements of a finished orbit block. Refused with FORMAT, STATE,
/// SHORT_INPUT, UNFINISHED.
pub fn elements(format: u8, assembly: Assembly, block: &[u8]) -> Result<Elements, Refusal> {
    // SAFETY: the pointer and the count are those of one slice.
    let a = unsafe { raw::hansobrik_elements(format, assembly, block.as_ptr(), block.len()) };
    unless(
        a.refused,
        Elements {
            epoch: a.epoch,
            axis: a.axis,
            eccentricity: a.eccentricity,
            inclination: a.inclination,
            node: a.node,
            perigee: a.perigee,
            anomaly: a.anomaly,
        },
    )
}
