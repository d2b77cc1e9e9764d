//! The reader and the writer.

use second::format::{format, LINE_BYTES};
use second::pattern;

use super::record::Record;
use super::{Asked, Maker};
use crate::call::{Call, Lent};
use crate::faults::Faults;
use crate::pool::FORMATS;
use crate::rows::Name;

/// Bytes of a line on the wire; of a format that is none, any number will do.
fn wire_bytes(number: u64) -> usize {
    format(number as usize).map_or(45_606, |format| format.wire_bytes)
}

impl Maker {
    /// A few bytes, now and then none.
    fn short_piece(&mut self) -> Vec<u8> {
        let count = match self.dice.under(8) {
            0 => 0,
            1 => 1,
            2..=6 => self.dice.between(2, 12),
            _ => self.dice.between(13, 60),
        };
        self.noise(count)
    }

    /// A whole line and some bytes behind it, or before.
    fn whole_line(&mut self) -> Vec<u8> {
        let format = self.dice.pick(&FORMATS);
        let line = self.any_line();
        let wire = pattern::on_the_wire(format, &line).expect("a whole line");
        let (before, behind) = (self.short_piece(), self.short_piece());
        [before, wire, behind].concat()
    }

    /// 0 to 6, or a number above that.
    fn setting(&mut self, wrong: bool) -> u64 {
        let above = self.dice.between(7, 255);
        let served = self.dice.between(0, 6);
        let setting = match wrong {
            true => self.dice.pick(&[7, 7, 7, 8, 64, 255, above]),
            false => self.dice.pick(&[0, 0, 6, served, served]),
        };
        setting as u64
    }

    fn possible(&mut self, setting: u64) -> (Record, Vec<u8>) {
        match self.dice.under(1_000) {
            0 => (self.between_lines(), self.whole_line()),
            1..=300 => (self.between_lines(), self.short_piece()),
            301..=600 => self.at_a_tail(setting.min(6) as usize),
            _ => (self.inside_a_line(), self.short_piece()),
        }
    }

    pub fn read(&mut self, faults: &Faults) -> Asked {
        let format = self.format(faults);
        let setting = self.setting(faults.has(13));
        let (mut record, piece) = self.possible(setting);
        if faults.has(12) {
            self.make_impossible(&mut record);
        }
        let line = self.out(LINE_BYTES, faults.has(2));
        let numbers = [vec![format, setting], record.numbers().to_vec()].concat();
        let lent = vec![Lent::Bytes(piece), line];
        Asked::planned(Call::new(Name::Read, &numbers, lent), faults)
    }

    pub fn write_line(&mut self, faults: &Faults) -> Asked {
        let format = self.format(faults);
        let line = self.any_line();
        let lent = vec![
            self.fitted(line, faults.has(2)),
            self.out(wire_bytes(format), faults.has(3)),
        ];
        Asked::planned(Call::new(Name::WriteLine, &[format], lent), faults)
    }
}
