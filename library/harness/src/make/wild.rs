//! Calls without a plan: every number and every buffer by itself, near the
//! edges of all calls together.

use second::blocks::ALL_MARKS;
use second::format::LINE_BYTES;

use super::Maker;
use crate::call::{Call, Lent};
use crate::rows::{Name, Part, ROWS};

/// Lengths that some call looks at.
const LENGTHS: [usize; 22] = [
    0, 1, 2, 3, 4, 5, 6, 573, 1_250, 2_291, 2_500, 2_864, 3_200, 6_400, 6_873, 9_164, 10_250,
    25_600, 36_656, 44_356, 45_606, 49_500,
];

/// Numbers of 64 bits that some call looks at.
const NUMBERS: [u64; 13] = [
    0,
    1,
    4,
    6,
    16,
    2_290,
    2_293,
    100_000,
    354_847,
    1 << 31,
    1 << 32,
    1 << 47,
    1 << 63,
];

impl Maker {
    pub fn wild(&mut self, name: Name) -> Call {
        let row = &ROWS[name as usize];
        let each = |(what, bits): &(&str, u32)| self.wild_number(what, *bits);
        let numbers: Vec<u64> = match name {
            Name::WithLine => [vec![self.wild_number("format", 8)], self.wild_report()].concat(),
            Name::Together => [self.wild_report(), self.wild_report()].concat(),
            Name::Take | Name::Publish | Name::Release | Name::Seen => self.wild_desk(name),
            _ => row.numbers.iter().map(each).collect(),
        };
        let lent = row.lent.iter().map(|part| self.wild_buffer(part));
        let lent = lent.collect();
        Call::new(name, &numbers, lent)
    }

    /// An edge, one beside it, or any number of so many bits.
    pub fn wild_number(&mut self, what: &str, bits: u32) -> u64 {
        let any = self.dice.of_any_length(bits);
        match (what, bits) {
            ("format", _) => self.dice.pick(&[1, 1, 1, 2, 2, 3, 3, 3, 0, 4, any]),
            ("setting", _) => {
                let served = self.dice.between(0, 6) as u64;
                self.dice.pick(&[0, 0, 6, served, served, served, 7, any])
            }
            ("marks", _) => {
                let all = u64::from(ALL_MARKS);
                let one = 1 << self.dice.under(32);
                self.dice.pick(&[0, all, all, all ^ one, any])
            }
            // what some of the good lines have
            ("calibration", _) => self.dice.pick(&[0, 2_101, 2_102, 0xFFFF, any]),
            ("manam", _) => self.dice.pick(&[0, 731, 732, 0xFFFF, any]),
            ("count", 32) => {
                let near = self.dice.under(11) as u64;
                self.dice.pick(&[near, near, near, any])
            }
            (_, 8) => {
                let low = self.dice.under(16) as u64;
                self.dice.pick(&[low, low, low, any])
            }
            (_, 16) => {
                let edge = self.dice.pick(&[0, 24, 63, 1_023, 0x7FFF]) + self.dice.under(2) as u64;
                self.dice.pick(&[edge, any])
            }
            (_, 64) => {
                let edge = self.dice.pick(&NUMBERS);
                let beside = edge.wrapping_add(self.dice.under(7) as u64).wrapping_sub(3);
                self.dice.pick(&[edge, beside, any])
            }
            _ => any,
        }
    }

    fn wild_length(&mut self) -> usize {
        let edge = self.dice.pick(&LENGTHS);
        match self.dice.under(6) {
            0 => edge.saturating_sub(1),
            1 => edge + 1,
            2 => self.dice.under(60),
            _ => edge,
        }
    }

    fn wild_buffer(&mut self, part: &Part) -> Lent {
        match (part.what, part.words) {
            ("register_", _) => Lent::Words(vec![self.dice.of_any_length(16) as u16]),
            // the second decoder is slow over long pieces
            ("piece", _) if !self.dice.one_in(100) => {
                let length = self.dice.under(20);
                Lent::Bytes(self.noise(length))
            }
            ("line", _) => {
                let mut line = self.any_line();
                let behind = self.dice.under(3);
                line.extend(self.noise(behind));
                if self.dice.one_in(8) {
                    let length = self.dice.pick(&[0, 1, 2_295, LINE_BYTES - 1]);
                    line.truncate(length);
                }
                Lent::Bytes(line)
            }
            (_, true) => {
                let length = self.wild_length();
                let mask = self.dice.pick(&[0x3FF, 0x3FF, 0xFFFF]);
                let mut buffer = self.out_wide(length.max(1), false);
                let words = buffer.words_mut();
                words.truncate(length);
                words.iter_mut().for_each(|word| *word &= mask);
                buffer
            }
            (_, false) => {
                let length = self.wild_length();
                let mask = self.dice.pick(&[0x03, 0x3F, 0xFF, 0xFF]);
                let mut bytes = self.noise(length);
                bytes.iter_mut().for_each(|byte| *byte &= mask);
                Lent::Bytes(bytes)
            }
        }
    }
}
