//! `filler` as one writes it in Rust, in three ways; `filler.rs` has their
//! times. Refused with 1, 4, 2, as the library's. They are not inlined, since
//! the library's cannot be.

use second::format::LINE_BYTES;
use second::refusal::{self, Refusal};
use second::sectors::{FILLER_BITS, SECTORS};

/// The library's algorithm: whole words, each counted in six steps.
#[inline(never)]
pub fn by_steps(format: u8, line: &[u8], sector: u8) -> Result<usize, Refusal> {
    let start = start(format, line, sector)?;
    Ok(words(line, start, FILLER_BITS, steps))
}

/// The same, the words counted by Rust's own function.
#[inline(never)]
pub fn by_count_ones(format: u8, line: &[u8], sector: u8) -> Result<usize, Refusal> {
    let start = start(format, line, sector)?;
    Ok(words(line, start, FILLER_BITS, |w| w.count_ones().into()))
}

/// Bit by bit.
#[inline(never)]
pub fn by_bits(format: u8, line: &[u8], sector: u8) -> Result<usize, Refusal> {
    let start = start(format, line, sector)?;
    Ok(bits(line, start, FILLER_BITS))
}

/// The place of a sector's first filler bit; the filler stands at its end.
fn start(format: u8, line: &[u8], sector: u8) -> Result<usize, Refusal> {
    if !matches!(format, 1..=3) {
        return Err(refusal::FORMAT);
    }
    if !matches!(sector, 1..=12) {
        return Err(refusal::NUMBER);
    }
    if line.len() < LINE_BYTES {
        return Err(refusal::SHORT_INPUT);
    }
    let sector = &SECTORS[usize::from(sector) - 1];
    Ok(sector.start + sector.bits - FILLER_BITS)
}

fn bits(s: &[u8], from: usize, count: usize) -> usize {
    (from..from + count)
        .map(|i| usize::from((s[i / 8] >> (7 - i % 8)) & 1))
        .sum()
}

/// The bits up to the next byte edge, then words of eight bytes, then the rest.
/// A word is read low byte first: no order of its bytes changes the count.
fn words(s: &[u8], from: usize, count: usize, ones: impl Fn(u64) -> u64) -> usize {
    if count < 64 {
        return fields(s, from, count, &ones) as usize;
    }
    let edge = (8 - from % 8) % 8;
    let whole = (count - edge) / 64;
    let behind = from + edge + 64 * whole;
    let inside = s[(from + edge) / 8..behind / 8]
        .chunks_exact(8)
        .map(|word| ones(u64::from_le_bytes(word.try_into().expect("eight bytes"))))
        .sum::<u64>();
    let sum =
        fields(s, from, edge, &ones) + inside + fields(s, behind, from + count - behind, &ones);
    sum as usize
}

/// Fields of at most 16 bits, for what does not fill a word.
fn fields(s: &[u8], from: usize, count: usize, ones: impl Fn(u64) -> u64) -> u64 {
    (0..count)
        .step_by(16)
        .map(|done| ones(field(s, from + done, (count - done).min(16))))
        .sum()
}

/// The number that at most 16 bits write: they lie in three bytes.
fn field(s: &[u8], at: usize, width: usize) -> u64 {
    let byte = |i| s.get(i).map_or(0, |&byte| u64::from(byte));
    let window = byte(at / 8) << 16 | byte(at / 8 + 1) << 8 | byte(at / 8 + 2);
    (window >> (24 - at % 8 - width)) & ((1 << width) - 1)
}

/// How many bits of a word are set: sums of 1 bit become sums of 2, of 4, and
/// so on, all of them at once.
pub fn steps(word: u64) -> u64 {
    let w = word;
    let w = (w & 0x5555_5555_5555_5555) + ((w >> 1) & 0x5555_5555_5555_5555);
    let w = (w & 0x3333_3333_3333_3333) + ((w >> 2) & 0x3333_3333_3333_3333);
    let w = (w & 0x0f0f_0f0f_0f0f_0f0f) + ((w >> 4) & 0x0f0f_0f0f_0f0f_0f0f);
    let w = (w & 0x00ff_00ff_00ff_00ff) + ((w >> 8) & 0x00ff_00ff_00ff_00ff);
    let w = (w & 0x0000_ffff_0000_ffff) + ((w >> 16) & 0x0000_ffff_0000_ffff);
    (w & 0x0000_0000_ffff_ffff) + ((w >> 32) & 0x0000_0000_ffff_ffff)
}

#[cfg(test)]
mod tests {
    use super::*;
    use second::damage::Random;
    use second::{bits, sectors};

    type Filler = fn(u8, &[u8], u8) -> Result<usize, Refusal>;
    const ALL: [Filler; 3] = [by_steps, by_count_ones, by_bits];

    #[test]
    fn as_the_second_decoder() {
        let mut random = Random::new(1);
        for format in [1, 2, 3] {
            let line = random.bytes(LINE_BYTES);
            for sector in 1..=12 {
                let expected = sectors::filler(format.into(), &line, sector.into());
                assert!(expected.is_ok_and(|count| count > 0));
                assert!(ALL.iter().all(|f| f(format, &line, sector) == expected));
            }
        }
    }

    /// Every byte of a line set: 2,048 in every sector. None: 0.
    #[test]
    fn all_and_none() {
        for sector in 1..=12 {
            for f in ALL {
                assert_eq!(f(1, &[0xff; LINE_BYTES], sector), Ok(2048));
                assert_eq!(f(1, &[0; LINE_BYTES], sector), Ok(0));
            }
        }
    }

    /// The format before the sector, the sector before the line.
    #[test]
    fn refusals() {
        let line = [0; LINE_BYTES];
        let short = &line[1..];
        for f in ALL {
            for format in [0, 4, 255] {
                assert_eq!(f(format, short, 0), Err(1));
            }
            for sector in [0, 13, 255] {
                assert_eq!(f(1, short, sector), Err(4));
            }
            assert_eq!(f(2, short, 12), Err(2));
            assert_eq!(f(2, &line, 12), Ok(0));
        }
    }

    /// Any place and any count, up to the last bit of the slice.
    #[test]
    fn any_place_and_count() {
        let bytes = Random::new(2).bytes(40);
        let end = 8 * bytes.len();
        for from in 0..=end {
            for count in 0..=end - from {
                let expected = bits::ones(&bits::part(&bytes, from, count));
                let native = |w: u64| w.count_ones().into();
                assert_eq!(super::bits(&bytes, from, count), expected);
                assert_eq!(words(&bytes, from, count, steps), expected);
                assert_eq!(words(&bytes, from, count, native), expected);
            }
        }
    }

    /// Every bit counts once, wherever it stands.
    #[test]
    fn every_bit_of_a_word() {
        assert_eq!(steps(0), 0);
        assert_eq!(steps(u64::MAX), 64);
        for i in 0..64 {
            assert_eq!(steps(1 << i), 1);
            assert_eq!(steps(!(1 << i)), 63);
        }
    }
}
