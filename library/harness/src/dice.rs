//! Chance, made from a seed alone, so that every run with it makes the same
//! calls. The numbers are those of the second decoder's generator.

use second::damage::Random;

pub struct Dice {
    random: Random,
}

impl Dice {
    pub fn new(seed: u64) -> Dice {
        let mut random = Random::new(seed);
        // Seeds that lie close together give close first numbers.
        for _ in 0..16 {
            random.number();
        }
        Dice { random }
    }

    /// The generator itself, for the second decoder's own functions.
    pub fn random(&mut self) -> &mut Random {
        &mut self.random
    }

    /// 64 bits.
    pub fn number(&mut self) -> u64 {
        u64::from(self.random.number()) << 32 | u64::from(self.random.number())
    }

    /// A number of so many bits, every length of it as likely as another.
    pub fn of_any_length(&mut self, bits: u32) -> u64 {
        match self.under(bits as usize + 1) as u32 {
            0 => 0,
            length => self.number() >> (64 - length),
        }
    }

    /// A number under `limit`.
    pub fn under(&mut self, limit: usize) -> usize {
        self.random.under(limit)
    }

    /// A number from `low` to `high`.
    pub fn between(&mut self, low: usize, high: usize) -> usize {
        low + self.under(high - low + 1)
    }

    pub fn byte(&mut self) -> u8 {
        self.random.byte()
    }

    /// True once in `n` times.
    pub fn one_in(&mut self, n: usize) -> bool {
        self.under(n) == 0
    }

    /// One of these.
    pub fn pick<T: Copy>(&mut self, of: &[T]) -> T {
        of[self.under(of.len())]
    }
}
