//! Blocks out of segments, and their entries.

use second::blocks::{ALL_MARKS, BLOCKS, CALIBRATION_1, CALIBRATION_2, MANAM, MAPPING, ORBIT};

use super::{Asked, Maker};
use crate::call::{Call, Lent};
use crate::faults::Faults;
use crate::rows::Name;

/// Of the two numbers that a record remembers, the one that a block goes by:
/// the calibration table ID, the MANAM revision, or none.
pub fn goes_by(number: usize) -> Option<usize> {
    match number {
        CALIBRATION_1 | CALIBRATION_2 => Some(0),
        MANAM => Some(1),
        _ => None,
    }
}

impl Maker {
    /// Marks with a segment above 24.
    fn over_24(&mut self, marks: u32) -> u32 {
        let any = self.dice.number() as u32 | 1 << 25;
        marks | self.dice.pick(&[1 << 25, 1 << 25, 1 << 31, any])
    }

    /// The record of a finished block, or of one that lacks some segment. Its
    /// numbers may be any.
    fn entry_record(&mut self, faults: &Faults) -> [u64; 3] {
        let mut marks = ALL_MARKS;
        if faults.has(9) {
            let lacking = self.a_place_in(25);
            let few = self.dice.number() as u32;
            marks &= self.dice.pick(&[u32::MAX, u32::MAX, few, 0]);
            marks &= !(1 << lacking);
        }
        if faults.has(12) {
            marks = self.over_24(marks);
        }
        let (calibration, manam) = (self.table_number(), self.table_number());
        [marks.into(), calibration.into(), manam.into()]
    }

    /// A block's bytes: noise, or one byte over and over.
    fn block(&mut self, number: usize, short: bool) -> Lent {
        let block = self.out(BLOCKS[number - 1].size, short);
        match self.dice.under(8) {
            0 => Lent::Bytes(vec![self.dice.pick(&[0x00, 0x80, 0xFF]); block.count()]),
            _ => block,
        }
    }

    /// A format; the block that the buffers are made for, from `first` on; and
    /// the number to hand in, which is one that is not served with the fault 4.
    fn numbered(&mut self, served: &[u64], first: usize, faults: &Faults) -> (u64, usize, u64) {
        let format = self.format(faults);
        let last = match format {
            2 => CALIBRATION_1,
            _ => CALIBRATION_2,
        };
        let home = self.dice.between(first, last);
        if !faults.has(4) {
            return (format, home, home as u64);
        }
        if !faults.has(1) && self.dice.one_in(2) {
            return (2, home, CALIBRATION_2 as u64);
        }
        let near = self.dice.under(8) as u64;
        match served.contains(&near) {
            true => (format, home, self.other_than(served)),
            false => (format, home, near),
        }
    }

    pub fn add_segment(&mut self, faults: &Faults) -> Asked {
        // mapping and orbit are of no revision
        let first = if faults.has(14) { MANAM } else { MAPPING };
        let (format, home, number) = self.numbered(&[1, 2, 3, 4, 5], first, faults);
        let (short_line, short_block) = self.short_ones(faults.has(2));
        let (line, segment, tables) = self.line_with_segment(format, faults, short_line);
        let mut block = self.block(home, short_block);

        let mark = 1 << segment;
        let mut marks = self.other_marks(segment, faults.has(14));
        if faults.has(8) || self.dice.one_in(3) {
            marks |= mark;
            self.store(&line, home, segment, &mut block, faults.has(8));
        }
        // without a mark there is nothing to compare with
        let own = goes_by(home).filter(|_| marks != 0);
        let [calibration, manam] = self.remembered(tables, own, faults.has(14));
        if faults.has(12) {
            marks = self.over_24(marks);
        }
        let call = Call::new(
            Name::AddSegment,
            &[
                format,
                marks.into(),
                calibration.into(),
                manam.into(),
                number,
            ],
            vec![line, block],
        );
        Asked::planned(call, faults)
    }

    /// Marks without that of a segment: any, one, all the others, or none where
    /// there may be none.
    fn other_marks(&mut self, segment: usize, some: bool) -> u32 {
        let one = 1 << ((segment + self.dice.between(1, 24)) % 25);
        let any = self.dice.number() as u32 | one;
        let none = if some { one } else { 0 };
        let marks = self.dice.pick(&[any, any, any, u32::MAX, one, none]);
        marks & ALL_MARKS & !(1 << segment)
    }

    /// What a record remembers, beside the numbers of a line's tables. The one
    /// that the block goes by is the line's, or another; anything goes for the
    /// rest.
    fn remembered(&mut self, tables: [u16; 2], own: Option<usize>, foreign: bool) -> [u16; 2] {
        let mut remembered = tables;
        for (i, number) in remembered.iter_mut().enumerate() {
            let other = match own == Some(i) {
                true => foreign,
                false => !self.dice.one_in(3),
            };
            if other {
                *number = self.another(*number);
            }
        }
        remembered
    }

    /// Another number: by one bit, by the low byte alone, by the high byte
    /// alone, with its bytes the other way round, or any.
    fn another(&mut self, number: u16) -> u16 {
        let bit = 1 << self.dice.under(16);
        let byte = self.dice.between(1, 255) as u16;
        let any = self.dice.number() as u16;
        let other = self.dice.pick(&[
            number ^ bit,
            number ^ byte,
            number ^ byte << 8,
            number.swap_bytes(),
            any,
            0,
        ]);
        match other == number {
            true => number ^ bit,
            false => other,
        }
    }

    /// Puts the segment that a line sends where it belongs, so far as both
    /// buffers go; with the fault 8 one byte is another.
    fn store(&mut self, line: &Lent, home: usize, segment: usize, block: &mut Lent, other: bool) {
        let row = &BLOCKS[home - 1];
        let size = row.segment_bytes();
        let sent = line.bytes().get(row.first - 1..row.last);
        let stored = block
            .bytes_mut()
            .get_mut(segment * size..(segment + 1) * size);
        if let (Some(sent), Some(stored)) = (sent, stored) {
            stored.copy_from_slice(sent);
            if other {
                let place = self.a_place_in(size);
                stored[place] ^= 1 << self.dice.under(8);
            }
        }
    }

    pub fn revision(&mut self, faults: &Faults) -> Asked {
        let (format, home, number) = self.numbered(&[3, 4, 5], MANAM, faults);
        let record = self.entry_record(faults);
        let numbers = [&[format], &record[..], &[number]].concat();
        let lent = vec![self.block(home, faults.has(2))];
        Asked::planned(Call::new(Name::Revision, &numbers, lent), faults)
    }

    pub fn mapping(&mut self, faults: &Faults) -> Asked {
        let format = self.format(faults);
        let (wrong_row, wrong_column) = self.short_ones(faults.has(10));
        let record = self.entry_record(faults);
        let place = [self.index(25, wrong_row), self.index(25, wrong_column)];
        let numbers = [&[format], &record[..], &place].concat();
        let lent = vec![self.block(MAPPING, faults.has(2))];
        Asked::planned(Call::new(Name::Mapping, &numbers, lent), faults)
    }

    /// A number under the count, or one of sixteen bits that is not.
    fn index(&mut self, count: usize, wrong: bool) -> u64 {
        match wrong {
            false => self.a_place_in(count) as u64,
            true => {
                let any = self.dice.between(count, 65_535);
                self.dice.pick(&[count, count, count + 1, 65_535, any]) as u64
            }
        }
    }

    /// Albedo or temperature of a level.
    pub fn level(&mut self, name: Name, faults: &Faults) -> Asked {
        let levels = match name {
            Name::Albedo | Name::AlbedoF64 => 64,
            _ => 1_024,
        };
        let mut format = match faults.has(1) {
            true => self.format(faults),
            false => self.dice.pick(&[1, 3]),
        };
        let mut channel = self.dice.between(1, 4) as u64;
        if faults.has(4) {
            if !faults.has(1) && self.dice.one_in(2) {
                format = 2;
            } else {
                channel = self.other_than(&[1, 2, 3, 4]);
            }
        }
        let level = self.index(levels, faults.has(10));
        let record = self.entry_record(faults);
        let numbers = [&[format], &record[..], &[channel, level]].concat();
        let lent = vec![self.block(CALIBRATION_2, faults.has(2))];
        Asked::planned(Call::new(name, &numbers, lent), faults)
    }

    pub fn elements(&mut self, faults: &Faults) -> Asked {
        let format = self.format(faults);
        let record = self.entry_record(faults);
        let numbers = [&[format], &record[..]].concat();
        let lent = vec![self.block(ORBIT, faults.has(2))];
        Asked::planned(Call::new(Name::Elements, &numbers, lent), faults)
    }
}
