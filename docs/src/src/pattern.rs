//! The test pattern of `second signal N FORMAT [W [T]]`, said so exactly that
//! another program can make the same bytes.
//!
//! The recording is N lines on the wire, one behind the other, each as
//! [`crate::scramble::write_line`] writes it: nothing before, between or
//! after. Lines are numbered k = 0, 1, ..., N-1. All arithmetic below is on
//! whole numbers; `div` is the quotient without its rest, `mod` the rest.
//!
//! Every sector has its own ID, the right check word and zero filler.
//!
//! **New tables.** T, 0 to 1,000,000 and 0 where it is left out, is the line,
//! counted from 1, with which new tables come; with 0 none come. r is 1 where T
//! is not 0 and k + 1 >= T, else 0: the tables are the old ones (r = 0) before
//! line T, and the new ones (r = 1) from it on.
//!
//! **Sector 1 (DOC).** The byte at place p (3 to 2,293; places from 1, ID
//! included) of line k is given by the first row that names p:
//!
//! | p | byte |
//! |---|---|
//! | 3 | k mod 4 picks from 00, 0F, FF, 5A |
//! | 7-8 | 01 00 (set line 100) |
//! | 9-10 | 23 91 (reset line 2,391) |
//! | 11-12 | (100 + k) mod 10,000 as BCD*2 (scan count) |
//! | 20-27 | the date, see below |
//! | 28-29 | 2101 + r as I*2 (calibration table ID) |
//! | 30-31 | 731 + r as I*2 (MANAM revision) |
//! | 67 | k mod 5 picks from FF, F0, 00, 0F, A5 |
//! | 193, 195 | 0 |
//! | 194 | (k div 8) mod 25, the segment |
//! | 196 | k mod 8, the repeat |
//! | 197-2114, in format 2 197-1090 | the segment of each block, see below |
//! | 2115-2293, in format 2 1091-2293 | 0 |
//! | any other | (37p + 11k) mod 256 |
//!
//! **Date.** A line is 60 hundredths of a second (600 ms) after the one
//! before. With t = 60k, the date is, all as BCD: hundredths t mod 100, second
//! (t div 100) mod 60, minute (t div 6,000) mod 60, hour (t div 360,000) mod
//! 24; with d = t div 8,640,000, day 1 + d mod 28, month 1 + (d div 28) mod 12,
//! year (2005 + d div 336) mod 10,000. So line 0 is 2005-01-01 00:00:00.00. A
//! month has 28 days here; only lines past the 28th day show it.
//!
//! **Blocks.** Blocks are b = 1 mapping, 2 orbit, 3 MANAM, 4 calibration-1,
//! 5 calibration-2. Byte q of block b (q from 1 to its size) is
//! ((q x q + 97 x b x q) div 5) mod 256 for b 1 and 2, whatever r is, and
//! ((q x q + 97 x b x q) div 5 + 85 x r) mod 256 for b 3 to 5: there no byte of
//! the new tables is that of the old ones. A line carries, for each block, the
//! bytes of its segment: place p of a block that begins at place f and has
//! segments of z bytes holds byte q = segment x z + (p - f) + 1.
//!
//! **Pixels.** Pixel j (from 0) of sector s (2 to 12), w bits wide, of line k
//! is (j x (2s + k + 1) + j div 3 + 5s + k) mod 2^w.
//!
//! **Wrong bits.** W, 0 to 64 and 0 where it is left out, is how many bits of
//! each line's tail are inverted. The tail is the last 64 bits of SYNC, place 0
//! its first bit. In line k they are those at the places (7k + 23j) mod 64 for
//! j = 0, 1, ..., W-1. As 23 is odd, no two of them are the same.

use crate::bits;
use crate::blocks::{BLOCKS, CALIBRATION_2, MANAM};
use crate::document::LAST_PLACE;
use crate::format::{format, LINE_BYTES};
use crate::refusal::Refusal;
use crate::scramble::{write_line, TAIL_BITS};
use crate::sectors::{put_data, put_pixels, Sector, SECTORS};

/// The highest T.
pub const LAST_TABLES: u64 = 1_000_000;

/// Whether line k has the new tables, with T `tables`: whether r is 1.
pub fn changed(k: u64, tables: u64) -> bool {
    tables != 0 && k + 1 >= tables
}

/// The last `2n` decimal digits of a value, two to a byte.
pub fn bcd(value: u64, n: usize) -> Vec<u8> {
    (0..n as u32)
        .rev()
        .map(|i| value / 100u64.pow(i) % 100)
        .map(|two| (two / 10 * 16 + two % 10) as u8)
        .collect()
}

/// Byte q of block b, both from 1, of the old tables or of the new ones.
pub fn block_byte(b: usize, q: usize, changed: bool) -> u8 {
    let more = if changed && b >= MANAM { 85 } else { 0 };
    (((q * q + 97 * b * q) / 5 + more) % 256) as u8
}

/// The whole of block b, of the old tables or of the new ones.
pub fn block(b: usize, changed: bool) -> Vec<u8> {
    (1..=BLOCKS[b - 1].size)
        .map(|q| block_byte(b, q, changed))
        .collect()
}

/// The eight bytes of the date of line k.
pub fn date(k: u64) -> Vec<u8> {
    let t = 60 * k;
    let d = t / 8_640_000;
    let mut date = bcd((2005 + d / 336) % 10_000, 2);
    date.extend(bcd(1 + d / 28 % 12, 1));
    date.extend(bcd(1 + d % 28, 1));
    date.extend(bcd(t / 360_000 % 24, 1));
    date.extend(bcd(t / 6_000 % 60, 1));
    date.extend(bcd(t / 100 % 60, 1));
    date.extend(bcd(t % 100, 1));
    date
}

/// The data of the sector DOC of line k, with T `tables`.
pub fn doc(format_number: usize, k: u64, tables: u64) -> Vec<u8> {
    let segment = (k / 8 % 25) as usize;
    let changed = changed(k, tables);
    let r = u16::from(changed);

    // Index p is place p; the places 0 to 2 are thrown away at the end.
    let mut sector = vec![0; LAST_PLACE + 1];
    for (p, byte) in sector.iter_mut().enumerate().take(193) {
        *byte = ((37 * p as u64 + 11 * k) % 256) as u8;
    }
    let mut place = |first: usize, bytes: &[u8]| {
        sector[first..first + bytes.len()].copy_from_slice(bytes);
    };
    place(3, &[[0x00, 0x0F, 0xFF, 0x5A][(k % 4) as usize]]);
    place(7, &bcd(100, 2));
    place(9, &bcd(2_391, 2));
    place(11, &bcd((100 + k) % 10_000, 2));
    place(20, &date(k));
    place(28, &(2_101 + r).to_be_bytes());
    place(30, &(731 + r).to_be_bytes());
    place(67, &[[0xFF, 0xF0, 0x00, 0x0F, 0xA5][(k % 5) as usize]]);
    place(193, &[0, segment as u8, 0, (k % 8) as u8]);
    for b in 1..=5 {
        if format_number != 2 || b != CALIBRATION_2 {
            place(BLOCKS[b - 1].first, &segment_of(b, segment, changed));
        }
    }
    sector.split_off(3)
}

fn segment_of(b: usize, segment: usize, changed: bool) -> Vec<u8> {
    let bytes = BLOCKS[b - 1].segment_bytes();
    (1..=bytes)
        .map(|i| block_byte(b, segment * bytes + i, changed))
        .collect()
}

/// Pixel j of sector s of line k.
pub fn pixel(s: usize, j: usize, k: u64) -> u16 {
    let (s64, j64) = (s as u64, j as u64);
    let value = j64 * (2 * s64 + k + 1) + j64 / 3 + 5 * s64 + k;
    (value % (1 << SECTORS[s - 1].width)) as u16
}

/// All pixels of sector s of line k.
pub fn pixels(s: usize, k: u64) -> Vec<u16> {
    let sector: &Sector = &SECTORS[s - 1];
    (0..sector.count).map(|j| pixel(s, j, k)).collect()
}

/// The plain line k, with T `tables`.
pub fn line(format_number: usize, k: u64, tables: u64) -> Result<Vec<u8>, Refusal> {
    let mut line = vec![0; LINE_BYTES];
    put_data(format_number, &mut line, 1, &doc(format_number, k, tables))?;
    for s in 2..=12 {
        put_pixels(format_number, &mut line, s, &pixels(s, k))?;
    }
    Ok(line)
}

/// A line of zeros "with right IDs, check words and filler".
pub fn line_of_zeros(format_number: usize) -> Result<Vec<u8>, Refusal> {
    let mut line = vec![0; LINE_BYTES];
    for s in 1..=12 {
        put_data(
            format_number,
            &mut line,
            s,
            &vec![0; SECTORS[s - 1].data_bytes()],
        )?;
    }
    Ok(line)
}

/// A plain line as it goes out, in a list of its own.
pub fn on_the_wire(format_number: usize, line: &[u8]) -> Result<Vec<u8>, Refusal> {
    let mut wire = vec![0; format(format_number)?.wire_bytes];
    write_line(format_number, line, &mut wire)?;
    Ok(wire)
}

/// The places of the wrong bits in the tail of line k.
pub fn wrong_places(k: u64, wrong: usize) -> Vec<usize> {
    (0..wrong as u64)
        .map(|j| ((7 * k + 23 * j) % 64) as usize)
        .collect()
}

/// Line k as it goes out, with so many wrong bits in its tail and T `tables`.
pub fn signal(format_number: usize, k: u64, wrong: usize, tables: u64) -> Result<Vec<u8>, Refusal> {
    let mut wire = on_the_wire(format_number, &line(format_number, k, tables)?)?;
    let tail = format(format_number)?.sync_bits - TAIL_BITS;
    for place in wrong_places(k, wrong) {
        bits::turn_over(&mut wire, tail + place);
    }
    Ok(wire)
}
