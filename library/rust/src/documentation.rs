//! The fields of the documentation sector.

use crate::number::{bcd, float, integer, real, R};
use crate::raw;
use crate::refusal::{unless, Refusal};

/// The scan mode; a byte that names none is given as it is.
#[derive(Clone, Copy, Debug, PartialEq, Eq)]
pub enum ScanMode {
    Full,
    Limited,
    Single,
    Unnamed(u8),
}

/// The mirror that scanner select names; a byte that names none is given as
/// it is.
#[derive(Clone, Copy, Debug, PartialEq, Eq)]
pub enum Mirror {
    OneA,
    OneB,
    TwoA,
    TwoB,
    Unnamed(u8),
}

/// Line numbers and the line position, scan count minus set line.
#[derive(Clone, Copy, Debug, PartialEq, Eq)]
pub struct LineNumbers {
    pub set_line: u16,
    pub reset_line: u16,
    pub scan_count: u16,
    pub position: i32,
}

/// Date and time.
#[derive(Clone, Copy, Debug, PartialEq, Eq)]
pub struct Date {
    pub year: u16,
    pub month: u8,
    pub day: u8,
    pub hour: u8,
    pub minute: u8,
    pub second: u8,
    pub hundredths: u8,
}

/// The segment 0 to 24 of every block that a line carries, its repeat 0 to 7.
#[derive(Clone, Copy, Debug, PartialEq, Eq)]
pub struct SubCommutation {
    pub segment: u8,
    pub repeat: u8,
}

/// The scan mode, byte 3. Refused with FORMAT, SHORT_INPUT, REMAINDER, ID.
pub fn scan_mode(format: u8, line: &[u8]) -> Result<ScanMode, Refusal> {
    // SAFETY: the pointer and the count are those of one slice.
    let a = unsafe { raw::hansobrik_scan_mode(format, line.as_ptr(), line.len()) };
    let mode = match a.name {
        1 => ScanMode::Full,
        2 => ScanMode::Limited,
        3 => ScanMode::Single,
        _ => ScanMode::Unnamed(a.byte),
    };
    unless(a.refused, mode)
}

/// Scanner select, byte 67. Refused with FORMAT, SHORT_INPUT, REMAINDER, ID.
pub fn scanner_select(format: u8, line: &[u8]) -> Result<Mirror, Refusal> {
    // SAFETY: the pointer and the count are those of one slice.
    let a = unsafe { raw::hansobrik_scanner_select(format, line.as_ptr(), line.len()) };
    let mirror = match a.name {
        1 => Mirror::OneA,
        2 => Mirror::OneB,
        3 => Mirror::TwoA,
        4 => Mirror::TwoB,
        _ => Mirror::Unnamed(a.byte),
    };
    unless(a.refused, mirror)
}

/// Set line, reset line, scan count and line position. Refused with FORMAT,
/// SHORT_INPUT, REMAINDER, ID, FIELD.
pub fn line_numbers(format: u8, line: &[u8]) -> Result<LineNumbers, Refusal> {
    // SAFETY: the pointer and the count are those of one slice.
    let a = unsafe { raw::hansobrik_line_numbers(format, line.as_ptr(), line.len()) };
    unless(
        a.refused,
        LineNumbers {
            set_line: a.set_line,
            reset_line: a.reset_line,
            scan_count: a.scan_count,
            position: a.position,
        },
    )
}

/// Date and time. Refused with FORMAT, SHORT_INPUT, REMAINDER, ID, FIELD.
pub fn date(format: u8, line: &[u8]) -> Result<Date, Refusal> {
    // SAFETY: the pointer and the count are those of one slice.
    let a = unsafe { raw::hansobrik_date(format, line.as_ptr(), line.len()) };
    unless(
        a.refused,
        Date {
            year: a.year,
            month: a.month,
            day: a.day,
            hour: a.hour,
            minute: a.minute,
            second: a.second,
            hundredths: a.hundredths,
        },
    )
}

/// Which segment of every block the line carries, and its repeat. Refused with
/// FORMAT, SHORT_INPUT, REMAINDER, ID, FIELD.
pub fn sub_commutation(format: u8, line: &[u8]) -> Result<SubCommutation, Refusal> {
    // SAFETY: the pointer and the count are those of one slice.
    let a = unsafe { raw::hansobrik_sub_commutation(format, line.as_ptr(), line.len()) };
    unless(
        a.refused,
        SubCommutation {
            segment: a.segment,
            repeat: a.repeat,
        },
    )
}

/// I*n at a place: a byte of the sector from 1 to 2,293, ID included. Refused
/// with FORMAT, RANGE, SHORT_INPUT, REMAINDER, ID.
pub fn integer_field(format: u8, line: &[u8], place: usize, n: usize) -> Result<u32, Refusal> {
    // SAFETY: the pointer and the count are those of one slice.
    integer(unsafe { raw::hansobrik_integer_field(format, line.as_ptr(), line.len(), place, n) })
}

/// BCD*n at a place. Refused with FORMAT, RANGE, SHORT_INPUT, REMAINDER, ID,
/// FIELD.
pub fn bcd_field(format: u8, line: &[u8], place: usize, n: usize) -> Result<u64, Refusal> {
    // SAFETY: the pointer and the count are those of one slice.
    bcd(unsafe { raw::hansobrik_bcd_field(format, line.as_ptr(), line.len(), place, n) })
}

/// R*n.m at a place. Refused with FORMAT, RANGE, SHORT_INPUT, REMAINDER, ID.
pub fn real_field(format: u8, line: &[u8], place: usize, n: usize, m: u8) -> Result<R, Refusal> {
    // SAFETY: the pointer and the count are those of one slice.
    real(unsafe { raw::hansobrik_real_field(format, line.as_ptr(), line.len(), place, n, m) })
}

/// R*n.m at a place in f64. Refused with FORMAT, RANGE, SHORT_INPUT, REMAINDER,
/// ID.
pub fn f64_field(format: u8, line: &[u8], place: usize, n: usize, m: u8) -> Result<f64, Refusal> {
    // SAFETY: the pointer and the count are those of one slice.
    float(unsafe { raw::hansobrik_f64_field(format, line.as_ptr(), line.len(), place, n, m) })
}
