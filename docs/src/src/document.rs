//! "Documentation fields. Places are bytes of the sector from 1, ID included:
//! status 3-128, constants 129-192, sub-commutation 193-196, mapping 197-296,
//! orbit and attitude 297-424, MANAM 425-834, calibration-1 835-1090; in
//! format 1 calibration-2 1091-2114. 000's status block words are two less.
//! Calls for fields, segments and joined pixels test their sectors' checks."
//! Document 02, T-11: "calibration-2 is served in format 3".
//!
//! Every call tests 1, then 10 if it is given a number form, then 2, then the
//! sector DOC for 5 and 6, then 7. "Line numbers and date are separate calls;
//! 7 looks at a call's own bytes only."

use crate::format::{format, LINE_BYTES};
use crate::numbers::{self, R};
use crate::refusal::{self, refuse_if, Refusal};
use crate::sectors;

/// The last place of a documentation field: two bytes of ID and 2,291 of data.
/// The check word and the filler behind it are no fields.
pub const LAST_PLACE: usize = 2_293;

/// Tests 1, 2, 5, 6 for the sector DOC.
fn test(format_number: usize, line: &[u8]) -> Result<(), Refusal> {
    sectors::accepted(format_number, line, 1)
}

/// The bytes from a place on, up to the last place. The sector DOC starts with
/// the line, so its byte 1 is the line's first byte.
fn from_place(line: &[u8], place: usize) -> &[u8] {
    &line[place - 1..LAST_PLACE]
}

fn byte(line: &[u8], place: usize) -> u8 {
    line[place - 1]
}

fn bcd(line: &[u8], place: usize, n: usize) -> Result<u16, Refusal> {
    Ok(numbers::read_bcd(from_place(line, place), n)? as u16)
}

/// "Scan mode (3): 00 full, 0F limited, FF single, any other is unnamed and
/// keeps its number."
#[derive(Clone, Copy, Debug, PartialEq, Eq)]
pub enum ScanMode {
    Full,
    Limited,
    Single,
    Unnamed(u8),
}

impl ScanMode {
    pub fn of(byte: u8) -> ScanMode {
        match byte {
            0x00 => ScanMode::Full,
            0x0F => ScanMode::Limited,
            0xFF => ScanMode::Single,
            other => ScanMode::Unnamed(other),
        }
    }

    /// Its name, or the byte that has none.
    pub fn name(self) -> String {
        match self {
            ScanMode::Full => "full".to_string(),
            ScanMode::Limited => "limited".to_string(),
            ScanMode::Single => "single".to_string(),
            ScanMode::Unnamed(byte) => format!("unnamed {byte}"),
        }
    }

    /// The byte that stands for it.
    pub fn number(self) -> u8 {
        match self {
            ScanMode::Full => 0x00,
            ScanMode::Limited => 0x0F,
            ScanMode::Single => 0xFF,
            ScanMode::Unnamed(byte) => byte,
        }
    }
}

/// "Scanner select (67): FF, F0, 00, 0F name four mirrors; the rest unnamed."
/// The names are those of source document 000.
#[derive(Clone, Copy, Debug, PartialEq, Eq)]
pub enum ScannerSelect {
    Mirror1A,
    Mirror1B,
    Mirror2A,
    Mirror2B,
    Unnamed(u8),
}

impl ScannerSelect {
    pub fn of(byte: u8) -> ScannerSelect {
        match byte {
            0xFF => ScannerSelect::Mirror1A,
            0xF0 => ScannerSelect::Mirror1B,
            0x00 => ScannerSelect::Mirror2A,
            0x0F => ScannerSelect::Mirror2B,
            other => ScannerSelect::Unnamed(other),
        }
    }

    /// Its name, or the byte that has none.
    pub fn name(self) -> String {
        match self {
            ScannerSelect::Mirror1A => "1-A".to_string(),
            ScannerSelect::Mirror1B => "1-B".to_string(),
            ScannerSelect::Mirror2A => "2-A".to_string(),
            ScannerSelect::Mirror2B => "2-B".to_string(),
            ScannerSelect::Unnamed(byte) => format!("unnamed {byte}"),
        }
    }

    /// The byte that stands for it.
    pub fn number(self) -> u8 {
        match self {
            ScannerSelect::Mirror1A => 0xFF,
            ScannerSelect::Mirror1B => 0xF0,
            ScannerSelect::Mirror2A => 0x00,
            ScannerSelect::Mirror2B => 0x0F,
            ScannerSelect::Unnamed(byte) => byte,
        }
    }
}

/// Scan mode. Refusals 1, 2, 5, 6.
pub fn scan_mode(format_number: usize, line: &[u8]) -> Result<ScanMode, Refusal> {
    test(format_number, line)?;
    Ok(ScanMode::of(byte(line, 3)))
}

/// Scanner select. Refusals 1, 2, 5, 6.
pub fn scanner_select(format_number: usize, line: &[u8]) -> Result<ScannerSelect, Refusal> {
    test(format_number, line)?;
    Ok(ScannerSelect::of(byte(line, 67)))
}

/// "Set line 7-8". Refusals 1, 2, 5, 6, 7.
pub fn set_line(format_number: usize, line: &[u8]) -> Result<u16, Refusal> {
    test(format_number, line)?;
    bcd(line, 7, 2)
}

/// "reset line 9-10". Refusals 1, 2, 5, 6, 7.
pub fn reset_line(format_number: usize, line: &[u8]) -> Result<u16, Refusal> {
    test(format_number, line)?;
    bcd(line, 9, 2)
}

/// "scan count 11-12". Refusals 1, 2, 5, 6, 7.
pub fn scan_count(format_number: usize, line: &[u8]) -> Result<u16, Refusal> {
    test(format_number, line)?;
    bcd(line, 11, 2)
}

/// "Line position is scan count minus set line, -9,999 to 9,999." Its own
/// bytes are 7-8 and 11-12. Refusals 1, 2, 5, 6, 7.
pub fn line_position(format_number: usize, line: &[u8]) -> Result<i16, Refusal> {
    test(format_number, line)?;
    Ok(bcd(line, 11, 2)? as i16 - bcd(line, 7, 2)? as i16)
}

/// The line numbers together.
#[derive(Clone, Copy, Debug, PartialEq, Eq)]
pub struct LineNumbers {
    pub set_line: u16,
    pub reset_line: u16,
    pub scan_count: u16,
    pub line_position: i16,
}

/// All the line numbers in one call. Its own bytes are 7-12. Refusals 1, 2, 5,
/// 6, 7.
pub fn line_numbers(format_number: usize, line: &[u8]) -> Result<LineNumbers, Refusal> {
    Ok(LineNumbers {
        set_line: set_line(format_number, line)?,
        reset_line: reset_line(format_number, line)?,
        scan_count: scan_count(format_number, line)?,
        line_position: line_position(format_number, line)?,
    })
}

/// The time of a line.
#[derive(Clone, Copy, Debug, PartialEq, Eq)]
pub struct Date {
    pub year: u16,
    pub month: u16,
    pub day: u16,
    pub hour: u16,
    pub minute: u16,
    pub second: u16,
    pub hundredths: u16,
}

/// A date part of one byte; 7 for "date part out of range".
fn date_part(line: &[u8], place: usize, low: u16, high: u16) -> Result<u16, Refusal> {
    let value = bcd(line, place, 1)?;
    refuse_if(value < low || value > high, refusal::DIGIT)?;
    Ok(value)
}

/// "Year 20-21, then month, day, hour, minute, second, hundredths in 22-27,
/// BCD; 1-12, 1-31, 0-23, 0-59, 0-59, 0-99. No month lengths." Refusals 1, 2,
/// 5, 6, 7.
pub fn date(format_number: usize, line: &[u8]) -> Result<Date, Refusal> {
    test(format_number, line)?;
    Ok(Date {
        year: bcd(line, 20, 2)?,
        month: date_part(line, 22, 1, 12)?,
        day: date_part(line, 23, 1, 31)?,
        hour: date_part(line, 24, 0, 23)?,
        minute: date_part(line, 25, 0, 59)?,
        second: date_part(line, 26, 0, 59)?,
        hundredths: date_part(line, 27, 0, 99)?,
    })
}

/// What the sub-commutation bytes say.
#[derive(Clone, Copy, Debug, PartialEq, Eq)]
pub struct SubCommutation {
    pub segment: usize,
    pub repeat: usize,
}

/// "Bytes 193 and 195 are 0, 194 is the segment 0-24, 196 the repeat 0-7."
/// Refusals 1, 2, 5, 6, 7.
pub fn sub_commutation(format_number: usize, line: &[u8]) -> Result<SubCommutation, Refusal> {
    test(format_number, line)?;
    refuse_if(byte(line, 193) != 0, refusal::DIGIT)?;
    refuse_if(byte(line, 195) != 0, refusal::DIGIT)?;
    refuse_if(byte(line, 194) > 24, refusal::DIGIT)?;
    refuse_if(byte(line, 196) > 7, refusal::DIGIT)?;
    Ok(SubCommutation {
        segment: usize::from(byte(line, 194)),
        repeat: usize::from(byte(line, 196)),
    })
}

/// "number bytes ... fewer than needed": the n bytes from a place on have to
/// be places of the sector. There is no place 0.
fn test_place(line: &[u8], place: usize, n: usize) -> Result<(), Refusal> {
    refuse_if(line.len() < LINE_BYTES, refusal::SHORT_INPUT)?;
    let is_place = (1..=LAST_PLACE).contains(&place);
    refuse_if(
        !is_place || LAST_PLACE - place + 1 < n,
        refusal::SHORT_INPUT,
    )
}

/// Any field I*n by its place. Refusals 1, 10, 2, 5, 6.
pub fn field_i(format_number: usize, line: &[u8], place: usize, n: usize) -> Result<u32, Refusal> {
    format(format_number)?;
    numbers::test_i(n)?;
    test_place(line, place, n)?;
    test(format_number, line)?;
    numbers::read_i(from_place(line, place), n)
}

/// Any field BCD*n by its place. Refusals 1, 10, 2, 5, 6, 7.
pub fn field_bcd(
    format_number: usize,
    line: &[u8],
    place: usize,
    n: usize,
) -> Result<u64, Refusal> {
    format(format_number)?;
    numbers::test_bcd(n)?;
    test_place(line, place, n)?;
    test(format_number, line)?;
    numbers::read_bcd(from_place(line, place), n)
}

/// Any field R*n.m by its place. Refusals 1, 10, 2, 5, 6.
pub fn field_r(
    format_number: usize,
    line: &[u8],
    place: usize,
    n: usize,
    m: usize,
) -> Result<R, Refusal> {
    format(format_number)?;
    numbers::test_r(n, m)?;
    test_place(line, place, n)?;
    test(format_number, line)?;
    numbers::read_r(from_place(line, place), n, m)
}
