//! "Twelve sectors. Bit places count from 0 at the first information bit. Each
//! sector: ID, data, 16 check bits, 2,048 zero filler bits."
//!
//! "Check. ID, data and check bits, first bit highest, as a polynomial over two
//! elements, leave remainder 0 by x^16+x^12+x^5+1. No preset and no inversion
//! ... Filler is not covered. A sector is accepted exactly when the remainder
//! is 0 and the ID is its own. Set filler bits are counted, sector by sector,
//! and refuse nothing."
//!
//! Document 02, T-11: "All that read or write a sector take it from that record.
//! In format 3 the first 16 bits are inverted before the remainder is taken".
//!
//! "Pixels lie first bit highest, without gaps. IR1-3 at ten bits: four times
//! the upper pixel plus the lower one, both sectors accepted. The four visible
//! lines go into one strip of 36,656 bytes, each into its own part; the part
//! of a sector that is not accepted stays as it was, and four answers say
//! which; 5 and 6 stand only in those answers and do not refuse this call."

use crate::bits;
use crate::format::{format, LINE_BYTES};
use crate::refusal::{self, refuse_if, Refusal};

/// Check bits of every sector.
pub const CHECK_BITS: usize = 16;

/// Filler bits of every sector.
pub const FILLER_BITS: usize = 2_048;

/// Pixels of one infrared line.
pub const IR_PIXELS: usize = 2_291;

/// Pixels of one visible line.
pub const VIS_PIXELS: usize = 9_164;

/// Bytes of the strip of four visible lines.
pub const STRIP_BYTES: usize = 36_656;

/// One row of the paper's table.
#[derive(Clone, Copy, Debug, PartialEq, Eq)]
pub struct Sector {
    pub name: &'static str,
    /// The place of the first bit of the ID.
    pub start: usize,
    /// All bits, filler included.
    pub bits: usize,
    /// One half of the ID; the ID is this twice.
    pub half_id: &'static str,
    /// Pixels, or bytes in the sector DOC, ...
    pub count: usize,
    /// ... and the bits of each.
    pub width: usize,
}

const fn row(
    name: &'static str,
    start: usize,
    bits: usize,
    half_id: &'static str,
    count: usize,
    width: usize,
) -> Sector {
    Sector {
        name,
        start,
        bits,
        half_id,
        count,
        width,
    }
}

/// The sectors 1 to 12.
pub const SECTORS: [Sector; 12] = [
    row("DOC", 0, 20_408, "00000000", 2_291, 8),
    row("IR1 upper", 20_408, 20_408, "00010001", 2_291, 8),
    row("IR2 upper", 40_816, 20_408, "00100010", 2_291, 8),
    row("IR3 upper", 61_224, 20_408, "01000100", 2_291, 8),
    row("VIS1", 81_632, 57_060, "011011", 9_164, 6),
    row("VIS2", 138_692, 57_060, "101101", 9_164, 6),
    row("VIS3", 195_752, 57_060, "110110", 9_164, 6),
    row("VIS4", 252_812, 57_060, "111111", 9_164, 6),
    row("IR1 lower", 309_872, 6_662, "10001000", 2_291, 2),
    row("IR2 lower", 316_534, 6_662, "10011001", 2_291, 2),
    row("IR3 lower", 323_196, 6_662, "10101010", 2_291, 2),
    row("IR4", 329_858, 24_990, "10111011", 2_291, 10),
];

impl Sector {
    /// The ID: "each twice".
    pub fn id(&self) -> Vec<u8> {
        bits::from_text(&self.half_id.repeat(2))
    }

    /// Bits of data.
    pub fn data_bits(&self) -> usize {
        self.count * self.width
    }

    /// "Sector data are bytes": whole bytes that hold the data bits. In the
    /// sectors 9 to 12 the last byte has two spare low bits.
    pub fn data_bytes(&self) -> usize {
        self.data_bits().div_ceil(8)
    }

    /// The place of the first data bit.
    fn data_start(&self) -> usize {
        self.start + self.id().len()
    }

    /// Bits that the check covers: ID, data and check bits.
    fn covered_bits(&self) -> usize {
        self.id().len() + self.data_bits() + CHECK_BITS
    }

    /// The place of the first filler bit.
    pub fn filler_start(&self) -> usize {
        self.start + self.covered_bits()
    }
}

/// The sector of a number, or refusal 4.
pub fn sector(number: usize) -> Result<&'static Sector, Refusal> {
    match number {
        1..=12 => Ok(&SECTORS[number - 1]),
        _ => Err(refusal::NUMBER),
    }
}

/// A sector of pixels: all but DOC, whose data are bytes.
fn pixel_sector(number: usize) -> Result<&'static Sector, Refusal> {
    match number {
        2..=12 => sector(number),
        _ => Err(refusal::NUMBER),
    }
}

/// The remainder by x^16+x^12+x^5+1, as long division on paper: wherever the
/// highest bit left is set, the divisor is taken away there. Its terms lie 0,
/// 4, 11 and 16 places behind its first one. The last 16 bits are left. Before
/// that the first 16 bits are inverted where the start value has ones.
pub fn remainder(start: u16, dividend: &[u8]) -> u16 {
    let mut left = dividend.to_vec();
    for (bit, preset) in left.iter_mut().zip(bits::of_number(start.into(), 16)) {
        *bit ^= preset;
    }
    let last = left.len().saturating_sub(CHECK_BITS);
    for place in 0..last {
        if left[place] == 1 {
            for term in [0, 4, 11, 16] {
                left[place + term] ^= 1;
            }
        }
    }
    bits::number(&left[last..]) as u16
}

/// The check word that makes the remainder of ID, data and check bits 0: the
/// remainder of ID and data with 16 zeros behind them.
pub fn check_word(start: u16, id_and_data: &[u8]) -> u16 {
    let mut dividend = id_and_data.to_vec();
    dividend.extend([0; CHECK_BITS]);
    remainder(start, &dividend)
}

/// 0 for an accepted sector, else 5 or 6.
fn judge(start: u16, line: &[u8], sector: &Sector) -> Refusal {
    let covered = bits::part(line, sector.start, sector.covered_bits());
    if remainder(start, &covered) != 0 {
        refusal::REMAINDER
    } else if !covered.starts_with(&sector.id()) {
        refusal::ID
    } else {
        0
    }
}

/// Refuses a sector that is not accepted.
fn test(start: u16, line: &[u8], sector: &Sector) -> Result<(), Refusal> {
    match judge(start, line, sector) {
        0 => Ok(()),
        refusal => Err(refusal),
    }
}

/// The values of a sector's data, first bit highest, without gaps.
fn values(line: &[u8], sector: &Sector) -> Vec<u16> {
    bits::part(line, sector.data_start(), sector.data_bits())
        .chunks(sector.width)
        .map(|value| bits::number(value) as u16)
        .collect()
}

/// Whether a sector is accepted. Refusals 1, 4, 2, 5, 6.
pub fn accepted(format_number: usize, line: &[u8], number: usize) -> Result<(), Refusal> {
    let start = format(format_number)?.check_start;
    let sector = sector(number)?;
    refuse_if(line.len() < LINE_BYTES, refusal::SHORT_INPUT)?;
    test(start, line, sector)
}

/// What [`accepted`] says of each of the twelve sectors: 0, or 5 or 6. Refusals
/// 1, 2.
pub fn answers(format_number: usize, line: &[u8]) -> Result<[Refusal; 12], Refusal> {
    let start = format(format_number)?.check_start;
    refuse_if(line.len() < LINE_BYTES, refusal::SHORT_INPUT)?;
    Ok(std::array::from_fn(|i| judge(start, line, &SECTORS[i])))
}

/// How many filler bits of a sector are set. Refusals 1, 4, 2.
pub fn filler(format_number: usize, line: &[u8], number: usize) -> Result<usize, Refusal> {
    format(format_number)?;
    let sector = sector(number)?;
    refuse_if(line.len() < LINE_BYTES, refusal::SHORT_INPUT)?;
    Ok(bits::ones(&bits::part(
        line,
        sector.filler_start(),
        FILLER_BITS,
    )))
}

/// The data of an accepted sector, as bytes; spare low bits are zero. Gives
/// the number of bytes. Refusals 1, 4, 2, 3, 5, 6.
pub fn data(
    format_number: usize,
    line: &[u8],
    number: usize,
    out: &mut [u8],
) -> Result<usize, Refusal> {
    let start = format(format_number)?.check_start;
    let sector = sector(number)?;
    refuse_if(line.len() < LINE_BYTES, refusal::SHORT_INPUT)?;
    refuse_if(out.len() < sector.data_bytes(), refusal::SHORT_OUTPUT)?;
    test(start, line, sector)?;

    let data = bits::part(line, sector.data_start(), sector.data_bits());
    out[..sector.data_bytes()].copy_from_slice(&bits::to_bytes(&data));
    Ok(sector.data_bytes())
}

/// The pixels of an accepted sector 2 to 12. Gives the number of pixels.
/// Refusals 1, 4, 2, 3, 5, 6.
pub fn pixels(
    format_number: usize,
    line: &[u8],
    number: usize,
    out: &mut [u16],
) -> Result<usize, Refusal> {
    let start = format(format_number)?.check_start;
    let sector = pixel_sector(number)?;
    refuse_if(line.len() < LINE_BYTES, refusal::SHORT_INPUT)?;
    refuse_if(out.len() < sector.count, refusal::SHORT_OUTPUT)?;
    test(start, line, sector)?;

    out[..sector.count].copy_from_slice(&values(line, sector));
    Ok(sector.count)
}

/// "four times the upper pixel plus the lower one"
pub fn join(upper: u16, lower: u16) -> u16 {
    4 * upper + lower
}

/// The ten-bit pixels of IR1, IR2 or IR3, from its upper and lower sector.
/// Gives the number of pixels. Refusals 1, 4, 2, 3, then "the upper sector for
/// 5 and 6, then the lower".
pub fn joined(
    format_number: usize,
    line: &[u8],
    channel: usize,
    out: &mut [u16],
) -> Result<usize, Refusal> {
    let start = format(format_number)?.check_start;
    refuse_if(!(1..=3).contains(&channel), refusal::NUMBER)?;
    refuse_if(line.len() < LINE_BYTES, refusal::SHORT_INPUT)?;
    refuse_if(out.len() < IR_PIXELS, refusal::SHORT_OUTPUT)?;
    let upper = sector(channel + 1)?;
    let lower = sector(channel + 8)?;
    test(start, line, upper)?;
    test(start, line, lower)?;

    let uppers = values(line, upper);
    let lowers = values(line, lower);
    for pixel in 0..IR_PIXELS {
        out[pixel] = join(uppers[pixel], lowers[pixel]);
    }
    Ok(IR_PIXELS)
}

/// The four visible lines into one strip, VIS1 first. Gives an answer for each
/// sector: 0 if its part was written, else 5 or 6. Refusals 1, 2, 3.
pub fn visible(
    format_number: usize,
    line: &[u8],
    strip: &mut [u8],
) -> Result<[Refusal; 4], Refusal> {
    let start = format(format_number)?.check_start;
    refuse_if(line.len() < LINE_BYTES, refusal::SHORT_INPUT)?;
    refuse_if(strip.len() < STRIP_BYTES, refusal::SHORT_OUTPUT)?;

    let mut answers = [0; 4];
    for v in 0..4 {
        let sector = sector(5 + v)?;
        answers[v] = judge(start, line, sector);
        if answers[v] == 0 {
            for (pixel, value) in values(line, sector).iter().enumerate() {
                strip[v * VIS_PIXELS + pixel] = *value as u8;
            }
        }
    }
    Ok(answers)
}

/// Writes a sector: "ID, check word, zero filler; the other sectors keep their
/// bits".
fn put(start: u16, line: &mut [u8], sector: &Sector, data: &[u8]) {
    let mut whole = sector.id();
    whole.extend(data);
    let word = check_word(start, &whole);
    whole.extend(bits::of_number(u64::from(word), CHECK_BITS));
    whole.extend([0; FILLER_BITS]);

    for (place, &value) in whole.iter().enumerate() {
        bits::set_bit(line, sector.start + place, value);
    }
}

/// Sector data to a sector of a plain line; "the two spare low bits of sectors
/// 9 to 12 are ignored". Refusals 1, 4, 2.
pub fn put_data(
    format_number: usize,
    line: &mut [u8],
    number: usize,
    data: &[u8],
) -> Result<(), Refusal> {
    let start = format(format_number)?.check_start;
    let sector = sector(number)?;
    refuse_if(line.len() < LINE_BYTES, refusal::SHORT_INPUT)?;
    refuse_if(data.len() < sector.data_bytes(), refusal::SHORT_INPUT)?;

    put(
        start,
        line,
        sector,
        &bits::part(data, 0, sector.data_bits()),
    );
    Ok(())
}

/// Pixels to a sector 2 to 12 of a plain line. Refusals 1, 4, 10, 2.
pub fn put_pixels(
    format_number: usize,
    line: &mut [u8],
    number: usize,
    pixels: &[u16],
) -> Result<(), Refusal> {
    let start = format(format_number)?.check_start;
    let sector = pixel_sector(number)?;
    // "a pixel over its width among those the sector takes": pixels past the
    // sector's count are not looked at. 10 stands above 2 in the table, so a
    // list that is too short and holds such a pixel is refused with 10.
    let too_wide = |&pixel: &u16| pixel >> sector.width != 0;
    refuse_if(
        pixels.iter().take(sector.count).any(too_wide),
        refusal::RANGE,
    )?;
    refuse_if(line.len() < LINE_BYTES, refusal::SHORT_INPUT)?;
    refuse_if(pixels.len() < sector.count, refusal::SHORT_INPUT)?;

    let data: Vec<u8> = pixels[..sector.count]
        .iter()
        .flat_map(|&pixel| bits::of_number(u64::from(pixel), sector.width))
        .collect();
    put(start, line, sector, &data);
    Ok(())
}
