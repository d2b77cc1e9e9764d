//! The twelve sectors of a plain line, read and written.

use crate::raw;
use crate::refusal::{unless, Refusal};

/// Whether a sector is accepted. Refused with FORMAT, NUMBER, SHORT_INPUT,
/// REMAINDER, ID.
pub fn accepted(format: u8, line: &[u8], sector: u8) -> Result<(), Refusal> {
    // SAFETY: the pointer and the count are those of one slice.
    let a = unsafe { raw::hansobrik_accepted(format, line.as_ptr(), line.len(), sector) };
    unless(a, ())
}

/// What [`accepted`] says of each of the twelve sectors, each divided once.
/// Refused with FORMAT, SHORT_INPUT; of each sector that is not accepted its
/// refusal, REMAINDER or ID, is given.
pub fn answers(format: u8, line: &[u8]) -> Result<[Result<(), Refusal>; 12], Refusal> {
    // SAFETY: the pointer and the count are those of one slice.
    let a = unsafe { raw::hansobrik_answers(format, line.as_ptr(), line.len()) };
    unless(a.refused, a.answers.map(|number| unless(number, ())))
}

/// The filler bits of a sector that are set. Refused with FORMAT, NUMBER,
/// SHORT_INPUT.
pub fn filler(format: u8, line: &[u8], sector: u8) -> Result<usize, Refusal> {
    // SAFETY: the pointer and the count are those of one slice.
    let a = unsafe { raw::hansobrik_filler(format, line.as_ptr(), line.len(), sector) };
    unless(a.refused, a.count)
}

/// The data of a sector. Refused with FORMAT, NUMBER, SHORT_INPUT,
/// SHORT_OUTPUT, REMAINDER, ID.
pub fn data(format: u8, line: &[u8], sector: u8, out: &mut [u8]) -> Result<(), Refusal> {
    // SAFETY: pointers and counts are those of two slices that do not overlap.
    let a = unsafe {
        raw::hansobrik_data(
            format,
            line.as_ptr(),
            line.len(),
            sector,
            out.as_mut_ptr(),
            out.len(),
        )
    };
    unless(a, ())
}

/// The pixels of a sector from 2 to 11. Refused with FORMAT, NUMBER,
/// SHORT_INPUT, SHORT_OUTPUT, REMAINDER, ID.
pub fn pixels(format: u8, line: &[u8], sector: u8, out: &mut [u8]) -> Result<(), Refusal> {
    // SAFETY: pointers and counts are those of two slices that do not overlap.
    let a = unsafe {
        raw::hansobrik_pixels(
            format,
            line.as_ptr(),
            line.len(),
            sector,
            out.as_mut_ptr(),
            out.len(),
        )
    };
    unless(a, ())
}

/// The pixels of IR4, sector 12. Refused with FORMAT, NUMBER, SHORT_INPUT,
/// SHORT_OUTPUT, REMAINDER, ID.
pub fn pixels_wide(format: u8, line: &[u8], sector: u8, out: &mut [u16]) -> Result<(), Refusal> {
    // SAFETY: pointers and counts are those of two slices that do not overlap.
    let a = unsafe {
        raw::hansobrik_pixels_wide(
            format,
            line.as_ptr(),
            line.len(),
            sector,
            out.as_mut_ptr(),
            out.len(),
        )
    };
    unless(a, ())
}

/// The ten-bit pixels of IR1, IR2 or IR3, channel 1 to 3. Refused with FORMAT,
/// NUMBER, SHORT_INPUT, SHORT_OUTPUT, then REMAINDER and ID of the upper sector
/// and of the lower.
pub fn joined(format: u8, line: &[u8], channel: u8, out: &mut [u16]) -> Result<(), Refusal> {
    // SAFETY: pointers and counts are those of two slices that do not overlap.
    let a = unsafe {
        raw::hansobrik_joined(
            format,
            line.as_ptr(),
            line.len(),
            channel,
            out.as_mut_ptr(),
            out.len(),
        )
    };
    unless(a, ())
}

/// VIS1 to VIS4 in one strip of 36,656 bytes, each in its own part. Refused
/// with FORMAT, SHORT_INPUT, SHORT_OUTPUT; of each sector that is not accepted
/// its refusal, REMAINDER or ID, is given, and its part stays.
pub fn strip(
    format: u8,
    line: &[u8],
    strip: &mut [u8],
) -> Result<[Result<(), Refusal>; 4], Refusal> {
    // SAFETY: pointers and counts are those of two slices that do not overlap.
    let a = unsafe {
        raw::hansobrik_strip(
            format,
            line.as_ptr(),
            line.len(),
            strip.as_mut_ptr(),
            strip.len(),
        )
    };
    unless(a.refused, a.vis.map(|number| unless(number, ())))
}

/// Data into a sector, with ID, check word and zero filler; the other sectors
/// keep their bits. Refused with FORMAT, NUMBER, SHORT_INPUT.
pub fn put_data(format: u8, line: &mut [u8], sector: u8, bytes: &[u8]) -> Result<(), Refusal> {
    // SAFETY: pointers and counts are those of two slices that do not overlap.
    let a = unsafe {
        raw::hansobrik_put_data(
            format,
            line.as_mut_ptr(),
            line.len(),
            sector,
            bytes.as_ptr(),
            bytes.len(),
        )
    };
    unless(a, ())
}

/// Pixels into a sector from 2 to 11. Refused with FORMAT, NUMBER, RANGE,
/// SHORT_INPUT.
pub fn put_pixels(format: u8, line: &mut [u8], sector: u8, pixels: &[u8]) -> Result<(), Refusal> {
    // SAFETY: pointers and counts are those of two slices that do not overlap.
    let a = unsafe {
        raw::hansobrik_put_pixels(
            format,
            line.as_mut_ptr(),
            line.len(),
            sector,
            pixels.as_ptr(),
            pixels.len(),
        )
    };
    unless(a, ())
}

/// Pixels into IR4, sector 12. Refused with FORMAT, NUMBER, RANGE, SHORT_INPUT.
pub fn put_pixels_wide(
    format: u8,
    line: &mut [u8],
    sector: u8,
    pixels: &[u16],
) -> Result<(), Refusal> {
    // SAFETY: pointers and counts are those of two slices that do not overlap.
    let a = unsafe {
        raw::hansobrik_put_pixels_wide(
            format,
            line.as_mut_ptr(),
            line.len(),
            sector,
            pixels.as_ptr(),
            pixels.len(),
        )
    };
    unless(a, ())
}
