//! The twelve sectors of a plain line.

use second::sectors;

use super::{two, Answer};
use crate::call::Lent;

/// Of the second decoder's one call for pixels the library has two, for
/// sectors 2 to 11 and for sector 12. A sector that belongs to the other one
/// is not served, and 0 is no sector at all.
fn unless_wide(sector: u64) -> usize {
    match sector {
        12 => 0,
        other => other as usize,
    }
}

fn only_wide(sector: u64) -> usize {
    match sector {
        12 => 12,
        _ => 0,
    }
}

fn widened(bytes: &[u8]) -> Vec<u16> {
    bytes.iter().copied().map(u16::from).collect()
}

pub fn accepted(n: &[u64], lent: &mut [Lent]) -> Answer {
    sectors::accepted(n[0] as usize, lent[0].bytes(), n[1] as usize)?;
    Ok(vec![])
}

pub fn answers(n: &[u64], lent: &mut [Lent]) -> Answer {
    let answers = sectors::answers(n[0] as usize, lent[0].bytes())?;
    Ok(answers.map(u64::from).to_vec())
}

pub fn filler(n: &[u64], lent: &mut [Lent]) -> Answer {
    let count = sectors::filler(n[0] as usize, lent[0].bytes(), n[1] as usize)?;
    Ok(vec![count as u64])
}

pub fn data(n: &[u64], lent: &mut [Lent]) -> Answer {
    let (line, out) = two(lent);
    let (format, sector) = (n[0] as usize, n[1] as usize);
    sectors::data(format, line.bytes(), sector, out.bytes_mut())?;
    Ok(vec![])
}

pub fn pixels(n: &[u64], lent: &mut [Lent]) -> Answer {
    let (line, out) = two(lent);
    let out = out.bytes_mut();
    let mut wide = widened(out);
    sectors::pixels(n[0] as usize, line.bytes(), unless_wide(n[1]), &mut wide)?;
    for (byte, pixel) in out.iter_mut().zip(wide) {
        *byte = pixel.try_into().expect("at most eight bits");
    }
    Ok(vec![])
}

pub fn pixels_wide(n: &[u64], lent: &mut [Lent]) -> Answer {
    let (line, out) = two(lent);
    let sector = only_wide(n[1]);
    sectors::pixels(n[0] as usize, line.bytes(), sector, out.words_mut())?;
    Ok(vec![])
}

pub fn joined(n: &[u64], lent: &mut [Lent]) -> Answer {
    let (line, out) = two(lent);
    let (format, channel) = (n[0] as usize, n[1] as usize);
    sectors::joined(format, line.bytes(), channel, out.words_mut())?;
    Ok(vec![])
}

pub fn strip(n: &[u64], lent: &mut [Lent]) -> Answer {
    let (line, strip) = two(lent);
    let answers = sectors::visible(n[0] as usize, line.bytes(), strip.bytes_mut())?;
    Ok(answers.map(u64::from).to_vec())
}

pub fn put_data(n: &[u64], lent: &mut [Lent]) -> Answer {
    let (line, bytes) = two(lent);
    let (format, sector) = (n[0] as usize, n[1] as usize);
    sectors::put_data(format, line.bytes_mut(), sector, bytes.bytes())?;
    Ok(vec![])
}

pub fn put_pixels(n: &[u64], lent: &mut [Lent]) -> Answer {
    let (line, pixels) = two(lent);
    let (format, sector) = (n[0] as usize, unless_wide(n[1]));
    sectors::put_pixels(format, line.bytes_mut(), sector, &widened(pixels.bytes()))?;
    Ok(vec![])
}

pub fn put_pixels_wide(n: &[u64], lent: &mut [Lent]) -> Answer {
    let (line, pixels) = two(lent);
    let (format, sector) = (n[0] as usize, only_wide(n[1]));
    sectors::put_pixels(format, line.bytes_mut(), sector, pixels.words())?;
    Ok(vec![])
}
