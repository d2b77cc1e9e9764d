//! What the calls share: formats, buffers of the right and the wrong length,
//! lines.

use second::format::LINE_BYTES;

use super::Maker;
use crate::call::Lent;
use crate::faults::Faults;
use crate::pool::FORMATS;

impl Maker {
    /// 1, 2 or 3, or another number.
    pub fn format(&mut self, faults: &Faults) -> u64 {
        let formats = FORMATS.map(|format| format as u64);
        match faults.has(1) {
            false => self.dice.pick(&formats),
            true => self.other_than(&formats),
        }
    }

    /// A byte that is none of these, often one that lies near them.
    pub fn other_than(&mut self, served: &[u64]) -> u64 {
        loop {
            let number = match self.dice.under(4) {
                0 => 255,
                1 => self.dice.byte().into(),
                _ => self.dice.under(16) as u64,
            };
            if !served.contains(&number) {
                return number;
            }
        }
    }

    /// A length for a buffer of which so much is needed: often just enough or
    /// one too few.
    pub fn length(&mut self, needed: usize, short: bool) -> usize {
        match (short, self.dice.under(8)) {
            (true, 0) => 0,
            (true, 1) => self.dice.under(needed),
            (true, _) => needed - 1,
            (false, 0) => needed + self.dice.between(1, 40),
            (false, _) => needed,
        }
    }

    pub fn noise(&mut self, count: usize) -> Vec<u8> {
        self.pool.noise(count, &mut self.dice)
    }

    /// A buffer of noise, for output.
    pub fn out(&mut self, needed: usize, short: bool) -> Lent {
        let length = self.length(needed, short);
        Lent::Bytes(self.noise(length))
    }

    pub fn out_wide(&mut self, needed: usize, short: bool) -> Lent {
        let length = self.length(needed, short);
        let pairs = self.noise(2 * length);
        let words = pairs
            .chunks(2)
            .map(|two| u16::from_be_bytes([two[0], two[1]]));
        Lent::Words(words.collect())
    }

    /// Bytes as a buffer that is long enough, with noise behind them, or not.
    pub fn fitted(&mut self, mut bytes: Vec<u8>, short: bool) -> Lent {
        let needed = bytes.len();
        let length = self.length(needed, short);
        bytes.truncate(length);
        bytes.extend(self.noise(length.saturating_sub(needed)));
        Lent::Bytes(bytes)
    }

    /// A line whose twelve sectors are accepted in a format.
    pub fn good_line(&mut self, format: u64) -> Vec<u8> {
        self.pool.good(format as usize, &mut self.dice)
    }

    /// A line of which anything may be true, of either card.
    pub fn any_line(&mut self) -> Vec<u8> {
        let format = self.dice.pick(&[1, 3]);
        let mut line = self.good_line(format);
        match self.dice.under(8) {
            0 => self.noise(LINE_BYTES),
            1 => vec![self.dice.pick(&[0x00, 0xFF]); LINE_BYTES],
            2 => line,
            3 => {
                let flips = self.dice.between(1, 100);
                self.pool.flip(&mut line, flips, &mut self.dice);
                line
            }
            _ => {
                for sector in 1..=12 {
                    self.damage(&mut line, sector);
                }
                line
            }
        }
    }

    /// A sector as it is, or with set filler bits, another ID, a wrong check
    /// word, that of the other card, or several of them.
    pub fn damage(&mut self, line: &mut [u8], sector: usize) {
        if self.dice.one_in(3) {
            self.pool.set_filler(line, sector, &mut self.dice);
        }
        if self.dice.one_in(4) {
            self.pool.break_id(line, sector, &mut self.dice);
        }
        if self.dice.one_in(4) {
            self.pool.break_check(line, sector, &mut self.dice);
        }
        if self.dice.one_in(8) {
            self.pool.change_card(line, sector);
        }
    }

    /// A sector whose check is wrong: damaged, or whole but from the other card.
    pub fn wrong_check(&mut self, line: &mut [u8], sector: usize) {
        match self.dice.one_in(4) {
            true => self.pool.change_card(line, sector),
            false => self.pool.break_check(line, sector, &mut self.dice),
        }
    }

    /// A sector that is refused with this number, 5 or 6, or accepted.
    pub fn judged(&mut self, line: &mut [u8], sector: usize, number: u8) {
        match number {
            5 => {
                if self.dice.one_in(3) {
                    self.pool.break_id(line, sector, &mut self.dice);
                }
                self.wrong_check(line, sector);
            }
            6 => self.pool.break_id(line, sector, &mut self.dice),
            _ => (),
        }
        if self.dice.one_in(4) {
            self.pool.set_filler(line, sector, &mut self.dice);
        }
    }
}
