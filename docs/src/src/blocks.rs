//! "Blocks come in 25 segments, each sent on eight lines. Bytes 193 and 195
//! are 0, 194 is the segment 0-24, 196 the repeat 0-7. Sizes: mapping 2,500,
//! orbit 3,200, MANAM 10,250, calibration-1 6,400, calibration-2 25,600. A
//! first copy is stored at segment times (size/25) and marked; an equal later
//! copy changes nothing."
//!
//! "Mapping: row i, column j (0-24) at bytes 100i+4j+1, line then pixel, I*2;
//! latitude 60-5i, longitude 45+5j degrees east."
//!
//! "Calibration-2: VIS v, level 0-63, at 257+256(v-1)+4 x level, R*4.6; IR c,
//! level 0-1,023, at 1281+4096(c-1)+4 x level, R*4.3."
//!
//! "The orbital elements (orbit block bytes 157-198, seven R*6 numbers, m 8
//! but 10 for eccentricity) are one record of f64 values."
//!
//! Document 02, T-02: "An assembly now remembers the calibration table ID
//! (sector bytes 28-29) and the MANAM revision (30-31) of its first segment. A
//! segment with another calibration ID is refused for the calibration blocks,
//! one with another MANAM revision for MANAM; mapping and orbit are as before. A
//! finished calibration or MANAM block's answer now says which revision it
//! holds, so every user of an entry gets it too. Refusals: 14 for a foreign
//! revision, tested before 8."
//!
//! Document 02, T-04: "The first longitude becomes 45 for format 1 and 80 for
//! format 2. Longitudes above 180 are given as west, so the last column of
//! format 2 is 160 west. Grid bytes and refusals stay." With source 001's sample
//! program, "ILON = 80+(IL2-1)*5", and table A.3, where 80 east is the first
//! longitude and 160 west the last.
//!
//! Document 02, T-11: "format 3 is format 1 with ones", "calibration-2 is served
//! in format 3".
//!
//! An assembly is two things the caller keeps: the record [`Assembly`] and the
//! block buffer. It starts with a record of zeros and any buffer. Blocks are
//! numbered 1 to 5 as listed.
//!
//! Both numbers are remembered for every block; which of them is compared goes
//! by the block. The first segment is the first that is taken: a refused one is
//! none. A later copy, equal or not, is a segment too, so it is refused with 14
//! where its line has another number.

use crate::document;
use crate::format::{format, LINE_BYTES};
use crate::numbers::{self, R};
use crate::refusal::{self, refuse_if, Refusal};
use crate::sectors;

/// Segments of every block.
pub const SEGMENTS: usize = 25;

/// The marks of a block with all 25 segments.
pub const ALL_MARKS: u32 = 0x01FF_FFFF;

pub const MAPPING: usize = 1;
pub const ORBIT: usize = 2;
pub const MANAM: usize = 3;
pub const CALIBRATION_1: usize = 4;
pub const CALIBRATION_2: usize = 5;

/// One block: where its segments stand in the sector DOC, and its size.
#[derive(Clone, Copy, Debug, PartialEq, Eq)]
pub struct Block {
    pub name: &'static str,
    /// The place of the segment's first byte, from 1, ID included.
    pub first: usize,
    /// The place of its last byte.
    pub last: usize,
    pub size: usize,
}

const fn row(name: &'static str, first: usize, last: usize, size: usize) -> Block {
    Block {
        name,
        first,
        last,
        size,
    }
}

/// The blocks 1 to 5.
pub const BLOCKS: [Block; 5] = [
    row("mapping", 197, 296, 2_500),
    row("orbit", 297, 424, 3_200),
    row("MANAM", 425, 834, 10_250),
    row("calibration-1", 835, 1_090, 6_400),
    row("calibration-2", 1_091, 2_114, 25_600),
];

impl Block {
    /// "size/25"
    pub fn segment_bytes(&self) -> usize {
        self.size / SEGMENTS
    }
}

/// The block of a number; refusal 4 for any other number and for
/// "calibration-2 in format 2".
pub fn block(format_number: usize, number: usize) -> Result<&'static Block, Refusal> {
    match number {
        CALIBRATION_2 if format_number == 2 => Err(refusal::NUMBER),
        1..=5 => Ok(&BLOCKS[number - 1]),
        _ => Err(refusal::NUMBER),
    }
}

/// The record of an assembly. The default is a fresh one.
#[derive(Clone, Copy, Debug, Default, PartialEq, Eq)]
pub struct Assembly {
    /// Bit s (value 2^s) says that segment s is stored.
    pub marks: u32,
    /// The calibration table ID of the line that brought the first segment.
    pub calibration: u16,
    /// The MANAM revision of that line.
    pub manam: u16,
}

/// "a segment mark above 24". The two numbers make no record impossible.
fn test_marks(assembly: Assembly) -> Result<(), Refusal> {
    refuse_if(assembly.marks & !ALL_MARKS != 0, refusal::STATE)
}

/// An I*2 of the sector DOC by its place. DOC starts with the line, so its byte
/// 1 is the line's first byte.
fn two_bytes(line: &[u8], place: usize) -> Result<u16, Refusal> {
    Ok(numbers::read_i(from_place(line, place), 2)? as u16)
}

/// Which of the two numbers a block goes by; mapping and orbit go by none.
fn by_block(number: usize, calibration: u16, manam: u16) -> Option<u16> {
    match number {
        MANAM => Some(manam),
        CALIBRATION_1 | CALIBRATION_2 => Some(calibration),
        _ => None,
    }
}

/// What a line added to an assembly.
#[derive(Clone, Copy, Debug, PartialEq, Eq)]
pub struct Added {
    pub segment: usize,
    /// Whether it was a first copy; an equal later copy changed nothing.
    pub first_copy: bool,
}

/// Adds the segment of a line to an assembly. Refusals 1, 12, 4, 2, 5, 6, 7,
/// 14, 8.
pub fn add_segment(
    format_number: usize,
    line: &[u8],
    block_number: usize,
    assembly: &mut Assembly,
    buffer: &mut [u8],
) -> Result<Added, Refusal> {
    format(format_number)?;
    test_marks(*assembly)?;
    let block = block(format_number, block_number)?;
    refuse_if(line.len() < LINE_BYTES, refusal::SHORT_INPUT)?;
    refuse_if(buffer.len() < block.size, refusal::SHORT_INPUT)?;
    sectors::accepted(format_number, line, 1)?;
    let segment = document::sub_commutation(format_number, line)?.segment;

    // Without a segment the record's numbers are nobody's: nothing is compared,
    // and this line's take their place.
    let calibration = two_bytes(line, 28)?;
    let manam = two_bytes(line, 30)?;
    let fresh = assembly.marks == 0;
    let foreign = by_block(block_number, calibration, manam)
        != by_block(block_number, assembly.calibration, assembly.manam);
    refuse_if(!fresh && foreign, refusal::REVISION)?;

    let sent = &line[block.first - 1..block.last];
    let start = segment * block.segment_bytes();
    let stored = &mut buffer[start..start + block.segment_bytes()];
    let mark = 1 << segment;
    let first_copy = assembly.marks & mark == 0;
    refuse_if(!first_copy && stored != sent, refusal::SEGMENT)?;

    if fresh {
        assembly.calibration = calibration;
        assembly.manam = manam;
    }
    if first_copy {
        stored.copy_from_slice(sent);
        assembly.marks |= mark;
    }
    Ok(Added {
        segment,
        first_copy,
    })
}

/// A grid point of the mapping block.
#[derive(Clone, Copy, Debug, PartialEq, Eq)]
pub struct GridPoint {
    pub line: u32,
    pub pixel: u32,
    /// Degrees north.
    pub latitude: i32,
    /// Degrees east; west is negative. Above -180, at most 180.
    pub longitude: i32,
}

/// The first longitude, degrees east: "45 for format 1 and 80 for format 2", and
/// "format 3 is format 1 with ones".
fn first_longitude(format_number: usize) -> i32 {
    [45, 80, 45][format_number - 1]
}

/// "Longitudes above 180 are given as west": 181 east is 179 west.
fn given_as_west(east: i32) -> i32 {
    let west = 360 - east;
    match east > 180 {
        true => -west,
        false => east,
    }
}

/// The bytes of a block or a sector from a place on, counted from 1.
pub fn from_place(buffer: &[u8], place: usize) -> &[u8] {
    &buffer[place - 1..]
}

/// Tests 2, then 9: the last tests of every entry.
fn test_entry(assembly: Assembly, buffer: &[u8], block: &Block) -> Result<(), Refusal> {
    refuse_if(buffer.len() < block.size, refusal::SHORT_INPUT)?;
    refuse_if(assembly.marks != ALL_MARKS, refusal::INCOMPLETE)
}

/// "which revision it holds": of a finished MANAM block its revision, of a
/// finished calibration block its table ID. 4 also for mapping and orbit, which
/// hold none. Refusals 1, 12, 4, 2, 9.
pub fn revision(
    format_number: usize,
    assembly: Assembly,
    block_number: usize,
    buffer: &[u8],
) -> Result<u16, Refusal> {
    format(format_number)?;
    test_marks(assembly)?;
    let block = block(format_number, block_number)?;
    let held = by_block(block_number, assembly.calibration, assembly.manam);
    let revision = held.ok_or(refusal::NUMBER)?;
    test_entry(assembly, buffer, block)?;
    Ok(revision)
}

/// The grid point of a row and column of the mapping block. Refusals 1, 12, 10,
/// 2, 9.
pub fn mapping(
    format_number: usize,
    assembly: Assembly,
    buffer: &[u8],
    row: usize,
    column: usize,
) -> Result<GridPoint, Refusal> {
    format(format_number)?;
    test_marks(assembly)?;
    let block = block(format_number, MAPPING)?;
    refuse_if(row > 24 || column > 24, refusal::RANGE)?;
    test_entry(assembly, buffer, block)?;

    let place = 100 * row + 4 * column + 1;
    Ok(GridPoint {
        line: numbers::read_i(from_place(buffer, place), 2)?,
        pixel: numbers::read_i(from_place(buffer, place + 2), 2)?,
        latitude: 60 - 5 * row as i32,
        longitude: given_as_west(first_longitude(format_number) + 5 * column as i32),
    })
}

/// "257+256(v-1)+4 x level", v 1 to 4, level 0 to 63.
pub fn vis_place(v: usize, level: usize) -> usize {
    257 + 256 * (v - 1) + 4 * level
}

/// "1281+4096(c-1)+4 x level", c 1 to 4, level 0 to 1,023.
pub fn ir_place(c: usize, level: usize) -> usize {
    1_281 + 4_096 * (c - 1) + 4 * level
}

/// A level's value, and the calibration table ID that its block holds: "every
/// user of an entry gets it too".
#[derive(Clone, Copy, Debug, PartialEq, Eq)]
pub struct Level {
    pub value: R,
    pub revision: u16,
}

/// The R*4.m at a place of calibration-2, with the block's revision.
fn level_at(assembly: Assembly, buffer: &[u8], place: usize, m: usize) -> Result<Level, Refusal> {
    Ok(Level {
        value: numbers::read_r(from_place(buffer, place), 4, m)?,
        revision: assembly.calibration,
    })
}

/// The albedo of a level of VIS v, R*4.6 of calibration-2. Refusals 1, 12, 4,
/// 10, 2, 9.
pub fn albedo(
    format_number: usize,
    assembly: Assembly,
    buffer: &[u8],
    v: usize,
    level: usize,
) -> Result<Level, Refusal> {
    format(format_number)?;
    test_marks(assembly)?;
    let block = block(format_number, CALIBRATION_2)?;
    refuse_if(!(1..=4).contains(&v), refusal::NUMBER)?;
    refuse_if(level > 63, refusal::RANGE)?;
    test_entry(assembly, buffer, block)?;
    level_at(assembly, buffer, vis_place(v, level), 6)
}

/// The temperature of a level of IR c, R*4.3 of calibration-2. Refusals 1, 12,
/// 4, 10, 2, 9.
pub fn temperature(
    format_number: usize,
    assembly: Assembly,
    buffer: &[u8],
    c: usize,
    level: usize,
) -> Result<Level, Refusal> {
    format(format_number)?;
    test_marks(assembly)?;
    let block = block(format_number, CALIBRATION_2)?;
    refuse_if(!(1..=4).contains(&c), refusal::NUMBER)?;
    refuse_if(level > 1_023, refusal::RANGE)?;
    test_entry(assembly, buffer, block)?;
    level_at(assembly, buffer, ir_place(c, level), 3)
}

/// "one record of f64 values"; names and units from source document 000.
#[derive(Clone, Copy, Debug, PartialEq)]
pub struct OrbitalElements {
    /// Epoch time (MJD), bytes 157-162.
    pub epoch: f64,
    /// Semi-major axis (km), bytes 163-168.
    pub semi_major_axis: f64,
    /// Eccentricity, bytes 169-174.
    pub eccentricity: f64,
    /// Inclination (degrees), bytes 175-180.
    pub inclination: f64,
    /// Longitude of the ascending node (degrees), bytes 181-186.
    pub ascending_node: f64,
    /// Argument of perigee (degrees), bytes 187-192.
    pub argument_of_perigee: f64,
    /// Mean anomaly (degrees), bytes 193-198.
    pub mean_anomaly: f64,
}

/// The R*6.m at a place of the orbit block, in f64.
fn element(buffer: &[u8], place: usize, m: usize) -> Result<f64, Refusal> {
    Ok(numbers::read_r(from_place(buffer, place), 6, m)?.value())
}

/// The seven orbital elements of the orbit block. Refusals 1, 12, 2, 9.
pub fn orbital_elements(
    format_number: usize,
    assembly: Assembly,
    buffer: &[u8],
) -> Result<OrbitalElements, Refusal> {
    format(format_number)?;
    test_marks(assembly)?;
    let block = block(format_number, ORBIT)?;
    test_entry(assembly, buffer, block)?;

    Ok(OrbitalElements {
        epoch: element(buffer, 157, 8)?,
        semi_major_axis: element(buffer, 163, 8)?,
        eccentricity: element(buffer, 169, 10)?,
        inclination: element(buffer, 175, 8)?,
        ascending_node: element(buffer, 181, 8)?,
        argument_of_perigee: element(buffer, 187, 8)?,
        mean_anomaly: element(buffer, 193, 8)?,
    })
}
