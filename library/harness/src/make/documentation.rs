//! The fields of the documentation sector.

use second::document::LAST_PLACE;

use super::number::{BCD, INTEGER};
use super::{Asked, Maker};
use crate::call::{Call, Lent};
use crate::faults::Faults;
use crate::pool::seal;
use crate::rows::Name;

/// The date's parts behind the year: place, least, largest.
const PARTS: [(usize, u8, u8); 6] = [
    (22, 1, 12),
    (23, 1, 31),
    (24, 0, 23),
    (25, 0, 59),
    (26, 0, 59),
    (27, 0, 99),
];

fn bcd(value: u8) -> u8 {
    (value / 10) << 4 | (value % 10)
}

/// The bytes of the sector DOC from one place to another.
fn places(line: &mut [u8], first: usize, last: usize) -> &mut [u8] {
    &mut line[first - 1..last]
}

impl Maker {
    /// A line whose sector DOC has a format's check word for what was written
    /// into it, but for the faults 5 and 6; short with the fault 2.
    fn sealed(&mut self, format: u64, mut line: Vec<u8>, faults: &Faults, short: bool) -> Lent {
        seal(format as usize, &mut line);
        if faults.has(6) {
            self.pool.break_id(&mut line, 1, &mut self.dice);
        }
        if faults.has(5) {
            self.wrong_check(&mut line, 1);
        }
        self.fitted(line, short)
    }

    fn document(&mut self, name: Name, format: u64, line: Vec<u8>, faults: &Faults) -> Asked {
        let lent = vec![self.sealed(format, line, faults, faults.has(2))];
        Asked::planned(Call::new(name, &[format], lent), faults)
    }

    /// Scan mode and scanner select: bytes that name something, that nearly
    /// do, or any.
    pub fn named(&mut self, name: Name, faults: &Faults) -> Asked {
        let format = self.format(faults);
        let mut line = self.good_line(format);
        for place in [3, 67] {
            let any = self.dice.byte();
            let byte = self
                .dice
                .pick(&[0x00, 0x0F, 0xF0, 0xFF, 0x01, 0x7F, any, any]);
            places(&mut line, place, place)[0] = byte;
        }
        self.document(name, format, line, faults)
    }

    pub fn line_numbers(&mut self, faults: &Faults) -> Asked {
        let format = self.format(faults);
        let mut line = self.good_line(format);
        self.digits(places(&mut line, 7, 12), faults.has(7));
        self.document(Name::LineNumbers, format, line, faults)
    }

    pub fn date(&mut self, faults: &Faults) -> Asked {
        let format = self.format(faults);
        let mut line = self.good_line(format);
        self.digits(places(&mut line, 20, 21), false);
        for (place, least, largest) in PARTS {
            let any = self.dice.between(least.into(), largest.into()) as u8;
            let value = self.dice.pick(&[least, largest, any, any]);
            places(&mut line, place, place)[0] = bcd(value);
        }
        if faults.has(7) {
            self.spoil_date(&mut line);
        }
        self.document(Name::Date, format, line, faults)
    }

    /// A digit over 9 anywhere, or a part just outside its range.
    fn spoil_date(&mut self, line: &mut [u8]) {
        let (place, least, largest) = self.dice.pick(&PARTS);
        let below = least.checked_sub(1);
        let above = Some(largest + 1).filter(|&value| value < 100);
        match self.dice.pick(&[below, above, None]) {
            Some(value) => places(line, place, place)[0] = bcd(value),
            None => {
                let first = self.dice.between(20, 27);
                self.digits(places(line, first, first), true);
            }
        }
    }

    /// Segment and repeat; with the fault 7 one of the four bytes is wrong, or
    /// several. Gives the segment.
    pub fn put_segment(&mut self, line: &mut [u8], wrong: bool) -> usize {
        let segment = self.a_place_in(25);
        let repeat = self.a_place_in(8);
        let bytes = places(line, 193, 196);
        bytes.copy_from_slice(&[0, segment as u8, 0, repeat as u8]);
        if wrong {
            for _ in 0..self.dice.between(1, 2) {
                let place = self.dice.under(4);
                let any = self.dice.byte();
                bytes[place] = match place {
                    1 => self.dice.pick(&[25, 25, 26, 255, any.max(25)]),
                    3 => self.dice.pick(&[8, 8, 9, 255, any.max(8)]),
                    _ => self.dice.pick(&[1, 1, 128, 255, any.max(1)]),
                };
            }
        }
        segment
    }

    pub fn sub_commutation(&mut self, faults: &Faults) -> Asked {
        let format = self.format(faults);
        let mut line = self.good_line(format);
        self.put_segment(&mut line, faults.has(7));
        self.document(Name::SubCommutation, format, line, faults)
    }

    /// A place where n bytes are in the sector, or are not: at its edge, far
    /// away, or where a sum would wrap around.
    fn place(&mut self, n: u64, wrong: bool) -> u64 {
        let past = (LAST_PLACE as u64 + 1).saturating_sub(n.clamp(1, 8)) + 1;
        if wrong {
            let any = self.dice.of_any_length(64).max(past);
            let huge = u64::MAX - self.dice.under(8) as u64;
            let wrapped = (1 << 32) + 3;
            return self
                .dice
                .pick(&[0, past, past, past + 1, any, huge, wrapped]);
        }
        let any = self.dice.between(1, past as usize - 1) as u64;
        self.dice.pick(&[1, 2, 3, past - 1, any, any])
    }

    /// A number field by place and form.
    pub fn field(&mut self, name: Name, faults: &Faults) -> Asked {
        let format = self.format(faults);
        let (n, m) = match name {
            Name::IntegerField => (self.size(&INTEGER, faults.has(10)), None),
            Name::BcdField => (self.size(&BCD, faults.has(10)), None),
            _ => {
                let (n, m) = self.r_form(faults);
                (n, Some(m))
            }
        };
        let (short_line, wrong_place) = self.short_ones(faults.has(2));
        let mut place = self.place(n, wrong_place);
        let digit_over = name == Name::BcdField && faults.has(7);
        if digit_over && !wrong_place {
            place = place.max(3); // a wrong digit in the ID would be fault 6
        }

        let mut line = self.good_line(format);
        if n <= 8 && !wrong_place {
            let (first, last) = (place.max(3) as usize, (place + n - 1) as usize);
            if first <= last {
                let bytes = places(&mut line, first, last);
                match name {
                    Name::BcdField => self.digits(bytes, digit_over),
                    _ => bytes.copy_from_slice(&self.number_bytes(bytes.len())),
                }
            }
        }
        let lent = vec![self.sealed(format, line, faults, short_line)];
        let mut numbers = vec![format, place, n];
        numbers.extend(m);
        Asked::planned(Call::new(name, &numbers, lent), faults)
    }

    /// A line with a segment and with the numbers of its tables, for the
    /// assembly. Gives the segment and the numbers too: the calibration table
    /// ID and the MANAM revision.
    pub fn line_with_segment(
        &mut self,
        format: u64,
        faults: &Faults,
        short: bool,
    ) -> (Lent, usize, [u16; 2]) {
        let mut line = self.good_line(format);
        let segment = self.put_segment(&mut line, faults.has(7));
        let tables = [self.table_number(), self.table_number()];
        for (place, number) in [28, 30].into_iter().zip(tables) {
            places(&mut line, place, place + 1).copy_from_slice(&number.to_be_bytes());
        }
        let line = self.sealed(format, line, faults, short);
        (line, segment, tables)
    }

    /// A number of two bytes.
    pub fn table_number(&mut self) -> u16 {
        let any = self.dice.number() as u16;
        self.dice
            .pick(&[0, 1, 0x00FF, 0x0100, 0xFF00, 0xFFFF, any, any])
    }
}
