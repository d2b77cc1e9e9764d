//! The scrambling register, fifteen bits with the newest lowest: one bit of
//! it, up to fourteen at once, and words of 64.

const ALL: u16 = 0x7fff;

/// The next bits of a register, so many of at most fourteen, and the register
/// behind them. Each bit is the exclusive or of those fourteen and fifteen
/// places earlier, and so many are all in the register.
pub fn step(r: u16, width: u32) -> (u16, u16) {
    let key = ((r ^ r >> 1) >> (14 - width)) & ((1 << width) - 1);
    (key, (r << width | key) & ALL)
}

/// Words of 64 bits that follow a register, as this processor reads eight bytes:
/// the first byte lowest, in it the first bit highest.
pub struct Words {
    a: u64,
    b: u64,
}

impl Words {
    pub fn of(r: u16) -> Words {
        let (a, r) = word(r);
        let (b, _) = word(r);
        Words { a, b }
    }

    /// A bit is also the exclusive or of those 112 and 120 places earlier: the
    /// rule at eight times its distances, by whole bytes. All bits that the word
    /// behind these two needs are in them. The parts do not overlap; those of the
    /// newer word are put together by themselves, since they come last.
    pub fn next(&mut self) -> u64 {
        let Words { a, b } = *self;
        let next = (b << 48 ^ b << 56) ^ (a >> 16 ^ a >> 8);
        *self = Words { a: b, b: next };
        a
    }
}

/// The register behind a word.
pub fn behind(word: u64) -> u16 {
    word.swap_bytes() as u16 & ALL
}

/// The first word, eight bits a step.
fn word(r: u16) -> (u64, u16) {
    (0..8).fold((0, r), |(word, r), i| {
        let (key, r) = step(r, 8);
        (word | u64::from(key) << (8 * i), r)
    })
}

#[cfg(test)]
mod tests {
    use super::*;
    use second::scramble;

    /// The bits that follow a register, by the second decoder.
    fn bits(mut r: u16, count: usize) -> Vec<u8> {
        let mut bits = || scramble::step(&mut r).expect("fifteen bits");
        (0..count).map(|_| bits()).collect()
    }

    /// Every register, and every width.
    #[test]
    fn a_step_is_so_many_bits() {
        for r in 0..=ALL {
            for width in 1..=14 {
                let mut register = r;
                let bits = (0..width).map(|_| scramble::step(&mut register).unwrap());
                let key = bits.fold(0, |key, bit| key << 1 | u16::from(bit));
                assert_eq!(step(r, width), (key, register));
            }
        }
    }

    /// From every register on, every bit of the words that the first two give.
    #[test]
    fn a_bit_is_that_of_112_and_120_places_earlier() {
        for r in 0..=ALL {
            let bits = bits(r, 192);
            for i in 120..192 {
                assert_eq!(bits[i], bits[i - 112] ^ bits[i - 120]);
            }
        }
    }

    /// The same of the words themselves, and of the register behind them.
    #[test]
    fn words_follow_every_register() {
        for r in 0..=ALL {
            let mut words = Words::of(r);
            let mut register = r;
            for _ in 0..5 {
                let bits = (0..64).map(|_| scramble::step(&mut register).unwrap());
                let expected = bits.fold(0_u64, |word, bit| word << 1 | u64::from(bit));
                let word = words.next();
                assert_eq!(word.to_le_bytes(), expected.to_be_bytes());
                assert_eq!(behind(word), register);
            }
        }
    }
}
