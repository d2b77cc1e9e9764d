//! Scrambling and complementing, in place, over any bits of a slice: the
//! exclusive or with a bit that only the place decides. By words, and three
//! simpler ways that are timed beside it. Each gives the register behind them.

use super::register::{behind, step, Words};

/// Of the bits from a place on, those of a 2nd, 4th, .. group of eight, the
/// first bit highest.
fn inverted(place: usize) -> u64 {
    0x00ff_00ff_00ff_00ff_u64.rotate_left((place & 15) as u32)
}

fn inverted_byte(place: usize) -> u8 {
    (inverted(place) >> 56) as u8
}

/// As the library does it: words of 64 bits, and the bytes behind them; bit by bit
/// up to the first byte edge and behind the last.
#[inline(never)]
pub fn by_words(s: &mut [u8], from: usize, count: usize, place: usize, r: u16) -> u16 {
    parts(s, from, count, place, r, words)
}

/// The same without the words.
#[inline(never)]
pub fn by_bytes(s: &mut [u8], from: usize, count: usize, place: usize, r: u16) -> u16 {
    parts(s, from, count, place, r, bytes)
}

/// The same by words of 32.
#[inline(never)]
pub fn by_halves(s: &mut [u8], from: usize, count: usize, place: usize, r: u16) -> u16 {
    parts(s, from, count, place, r, halves)
}

/// Bit by bit.
#[inline(never)]
pub fn by_bits(s: &mut [u8], from: usize, count: usize, place: usize, r: u16) -> u16 {
    bits(s, from, count, place, r)
}

/// The whole bytes in a way, and bit by bit what is before and behind them.
fn parts(
    s: &mut [u8],
    from: usize,
    count: usize,
    place: usize,
    r: u16,
    whole: impl Fn(&mut [u8], usize, u16) -> u16,
) -> u16 {
    let edge = ((8 - from % 8) % 8).min(count);
    let r = bits(s, from, edge, place, r);
    let (first, inside) = ((from + edge) / 8, (count - edge) / 8);
    let r = whole(&mut s[first..first + inside], place + edge, r);
    let done = edge + 8 * inside;
    bits(s, from + done, count - done, place + done, r)
}

fn bits(s: &mut [u8], from: usize, count: usize, place: usize, r: u16) -> u16 {
    (0..count).fold(r, |r, i| {
        let (key, r) = step(r, 1);
        let bit = key as u8 ^ ((place + i) / 8 % 2) as u8;
        s[(from + i) / 8] ^= bit << (7 - (from + i) % 8);
        r
    })
}

fn bytes(s: &mut [u8], place: usize, r: u16) -> u16 {
    s.iter_mut().enumerate().fold(r, |r, (i, byte)| {
        let (key, r) = step(r, 8);
        *byte ^= key as u8 ^ inverted_byte(place + 8 * i);
        r
    })
}

fn words(s: &mut [u8], place: usize, r: u16) -> u16 {
    let inverted = inverted(place).swap_bytes();
    let (whole, rest) = s.as_chunks_mut();
    if whole.is_empty() {
        return bytes(rest, place, r); // without the cost of two words ahead
    }
    let mut keys = Words::of(r);
    let r = whole.iter_mut().fold(r, |_, bytes| {
        let key = keys.next();
        *bytes = (u64::from_le_bytes(*bytes) ^ inverted ^ key).to_le_bytes();
        behind(key)
    });
    bytes(rest, place, r)
}

/// The 60 bits that follow a register are enough for the 32 behind them: each is
/// the exclusive or of those 56 and 60 places earlier.
fn halves(s: &mut [u8], place: usize, r: u16) -> u16 {
    let inverted = (inverted(place) >> 32) as u32;
    let (whole, rest) = s.as_chunks_mut();
    let (mut ahead, _) = (0..6).fold((0_u64, r), |(ahead, r), _| {
        let (key, r) = step(r, 10);
        (ahead << 10 | u64::from(key), r)
    });
    let r = whole.iter_mut().fold(r, |_, bytes| {
        let key = (ahead >> 28) as u32;
        let next = ((ahead ^ ahead >> 4) >> 24) & 0xffff_ffff;
        ahead = (ahead << 32 | next) & ((1 << 60) - 1);
        let mixed = u32::from_le_bytes(*bytes) ^ (key ^ inverted).swap_bytes();
        *bytes = mixed.to_le_bytes();
        key as u16 & 0x7fff
    });
    self::bytes(rest, place, r)
}

#[cfg(test)]
mod tests {
    use super::*;
    use second::bits;
    use second::damage::Random;
    use second::scramble::{complement, step as next, turn};

    type Mix = fn(&mut [u8], usize, usize, usize, u16) -> u16;
    const ALL: [Mix; 4] = [by_words, by_halves, by_bytes, by_bits];

    /// By the second decoder, bit by bit, at any place and from any register.
    fn expected(s: &[u8], from: usize, count: usize, place: usize, mut r: u16) -> (Vec<u8>, u16) {
        let mut s = s.to_vec();
        for i in 0..count {
            let bit = bits::bit(&s, from + i) ^ complement(place + i) ^ next(&mut r).unwrap();
            bits::set_bit(&mut s, from + i, bit);
        }
        (s, r)
    }

    /// Any bits of a slice, up to its last, with any place before them.
    #[test]
    fn any_bits() {
        let mut random = Random::new(1);
        let bytes = random.bytes(28);
        let end = 8 * bytes.len();
        for from in (0..18).chain(end - 70..=end) {
            for count in 0..=end - from {
                let place = random.under(100_000);
                let r = random.under(0x8000) as u16;
                let (s, behind) = expected(&bytes, from, count, place, r);
                for mix in ALL {
                    let mut mixed = bytes.clone();
                    assert_eq!(mix(&mut mixed, from, count, place, r), behind);
                    assert_eq!(mixed, s);
                }
            }
        }
    }

    /// A whole line, from the fifteen ones on.
    #[test]
    fn a_line() {
        let line = Random::new(2).bytes(second::format::LINE_BYTES);
        let turned = bits::to_bytes(&turn(&bits::from_bytes(&line)));
        for mix in ALL {
            let mut mixed = line.clone();
            mix(&mut mixed, 0, 8 * line.len(), 0, 0x7fff);
            assert!(mixed == turned);
            mix(&mut mixed, 0, 8 * line.len(), 0, 0x7fff);
            assert!(mixed == line);
        }
    }
}
