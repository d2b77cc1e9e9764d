//! The twelve sectors of a plain line.

use second::format::LINE_BYTES;
use second::sectors::{Sector, IR_PIXELS, SECTORS, STRIP_BYTES};

use super::{Asked, Maker};
use crate::call::{Call, Lent};
use crate::faults::Faults;
use crate::rows::Name;

fn layout(sector: u64) -> &'static Sector {
    &SECTORS[sector as usize - 1]
}

impl Maker {
    /// One of the sectors that a call serves, and the number to hand in, which
    /// is another one with the fault 4.
    fn sector(&mut self, served: &[u64], faults: &Faults) -> (u64, u64) {
        let home = self.dice.pick(served);
        match faults.has(4) {
            true => (home, self.other_than(served)),
            false => (home, home),
        }
    }

    /// A line whose sector `home` is as the faults say, in a format; the others
    /// may be as they like.
    fn line_for(&mut self, format: u64, home: u64, faults: &Faults) -> Lent {
        let mut line = self.good_line(format);
        if self.dice.one_in(3) {
            for other in (1..=12).filter(|&other| other != home as usize) {
                self.damage(&mut line, other);
            }
        }
        let number = [5, 6].into_iter().find(|&number| faults.has(number));
        self.judged(&mut line, home as usize, number.unwrap_or(0));
        self.fitted(line, faults.has(2))
    }

    pub fn accepted(&mut self, faults: &Faults) -> Asked {
        let format = self.format(faults);
        let (home, sector) = self.sector(&ALL, faults);
        let lent = vec![self.line_for(format, home, faults)];
        Asked::planned(Call::new(Name::Accepted, &[format, sector], lent), faults)
    }

    pub fn answers(&mut self, faults: &Faults) -> Asked {
        let format = self.format(faults);
        let mut line = self.good_line(format);
        for sector in 1..=12 {
            let number = self.dice.pick(&[0, 0, 5, 6]);
            self.judged(&mut line, sector, number);
        }
        let lent = vec![self.fitted(line, faults.has(2))];
        Asked::planned(Call::new(Name::Answers, &[format], lent), faults)
    }

    pub fn filler(&mut self, faults: &Faults) -> Asked {
        let format = self.format(faults);
        let (_, sector) = self.sector(&ALL, faults);
        let line = self.any_line();
        let lent = vec![self.fitted(line, faults.has(2))];
        Asked::planned(Call::new(Name::Filler, &[format, sector], lent), faults)
    }

    pub fn data(&mut self, faults: &Faults) -> Asked {
        let format = self.format(faults);
        let (home, sector) = self.sector(&ALL, faults);
        let lent = vec![
            self.line_for(format, home, faults),
            self.out(layout(home).data_bytes(), faults.has(3)),
        ];
        Asked::planned(Call::new(Name::Data, &[format, sector], lent), faults)
    }

    pub fn pixels(&mut self, faults: &Faults) -> Asked {
        let format = self.format(faults);
        let (home, sector) = self.sector(&NARROW, faults);
        let lent = vec![
            self.line_for(format, home, faults),
            self.out(layout(home).count, faults.has(3)),
        ];
        Asked::planned(Call::new(Name::Pixels, &[format, sector], lent), faults)
    }

    pub fn pixels_wide(&mut self, faults: &Faults) -> Asked {
        let format = self.format(faults);
        let (home, sector) = self.sector(&WIDE, faults);
        let lent = vec![
            self.line_for(format, home, faults),
            self.out_wide(IR_PIXELS, faults.has(3)),
        ];
        Asked::planned(Call::new(Name::PixelsWide, &[format, sector], lent), faults)
    }

    /// The upper sector is tested for 5 and 6, then the lower: so 6 of the
    /// upper one comes before 5 of the lower one.
    pub fn joined(&mut self, faults: &Faults) -> Asked {
        let format = self.format(faults);
        let (home, channel) = self.sector(&[1, 2, 3], faults);
        let wished = match (faults.has(5), faults.has(6)) {
            (false, false) => 0,
            (true, false) => 5,
            (false, true) => 6,
            (true, true) => self.dice.pick(&[5, 6]),
        };
        let (upper, lower) = match (wished, self.dice.one_in(2)) {
            (0, _) => (0, 0),
            (_, true) => (wished, self.dice.pick(&[0, 5, 6])),
            (_, false) => (0, wished),
        };
        let mut line = self.good_line(format);
        self.judged(&mut line, home as usize + 1, upper);
        self.judged(&mut line, home as usize + 8, lower);
        let lent = vec![
            self.fitted(line, faults.has(2)),
            self.out_wide(IR_PIXELS, faults.has(3)),
        ];
        let call = Call::new(Name::Joined, &[format, channel], lent);
        let earlier = faults.without(&[5, 6]).first();
        let wanted = if earlier == 0 { wished } else { earlier };
        Asked {
            call,
            wanted: Some(wanted),
        }
    }

    pub fn strip(&mut self, faults: &Faults) -> Asked {
        let format = self.format(faults);
        let mut line = self.good_line(format);
        for sector in 5..=8 {
            let number = self.dice.pick(&[0, 0, 5, 6]);
            self.judged(&mut line, sector, number);
        }
        let lent = vec![
            self.fitted(line, faults.has(2)),
            self.out(STRIP_BYTES, faults.has(3)),
        ];
        Asked::planned(Call::new(Name::Strip, &[format], lent), faults)
    }

    /// Which of two buffers are short: none, one of them, or both.
    pub fn short_ones(&mut self, short: bool) -> (bool, bool) {
        match short {
            false => (false, false),
            true => self
                .dice
                .pick(&[(true, false), (false, true), (true, true)]),
        }
    }

    fn line_to_write(&mut self, short: bool) -> Lent {
        let line = match self.dice.one_in(2) {
            true => self.noise(LINE_BYTES),
            false => self.any_line(),
        };
        self.fitted(line, short)
    }

    pub fn put_data(&mut self, faults: &Faults) -> Asked {
        let format = self.format(faults);
        let (home, sector) = self.sector(&ALL, faults);
        let (short_line, short_data) = self.short_ones(faults.has(2));
        let lent = vec![
            self.line_to_write(short_line),
            self.out(layout(home).data_bytes(), short_data),
        ];
        Asked::planned(Call::new(Name::PutData, &[format, sector], lent), faults)
    }

    /// How many pixels to hand in. With a pixel over its width there is at
    /// least one.
    fn pixel_count(&mut self, needed: usize, short: bool, over: bool) -> usize {
        let count = self.length(needed, short);
        count.max(usize::from(over))
    }

    pub fn put_pixels(&mut self, faults: &Faults) -> Asked {
        let format = self.format(faults);
        let over = faults.has(10);
        // a byte is never over eight bits
        let (home, mut sector) = self.sector(if over { &NARROWER } else { &NARROW }, faults);
        if faults.has(4) {
            sector = self.other_than(&NARROW);
        }
        let Sector { count, width, .. } = *layout(home);
        let (short_line, short_pixels) = self.short_ones(faults.has(2));

        let given = self.pixel_count(count, short_pixels, over);
        let mut pixels = self.noise(given);
        // pixels that the sector does not take may be over its width
        for pixel in pixels.iter_mut().take(count) {
            *pixel &= (0xFF >> (8 - width)) as u8;
        }
        if over {
            let place = self.a_place_in(given.min(count));
            pixels[place] |= 1 << self.dice.between(width, 7);
        }
        let lent = vec![self.line_to_write(short_line), Lent::Bytes(pixels)];
        Asked::planned(Call::new(Name::PutPixels, &[format, sector], lent), faults)
    }

    pub fn put_pixels_wide(&mut self, faults: &Faults) -> Asked {
        let format = self.format(faults);
        let (_, sector) = self.sector(&WIDE, faults);
        let (short_line, short_pixels) = self.short_ones(faults.has(2));

        let given = self.pixel_count(IR_PIXELS, short_pixels, faults.has(10));
        let Lent::Words(mut pixels) = self.out_wide(IR_PIXELS + 40, false) else {
            unreachable!("numbers were asked for");
        };
        pixels.truncate(given);
        for pixel in pixels.iter_mut().take(IR_PIXELS) {
            *pixel &= 0x3FF;
        }
        if faults.has(10) {
            let place = self.a_place_in(given.min(IR_PIXELS));
            pixels[place] |= 1 << self.dice.between(10, 15);
        }
        let lent = vec![self.line_to_write(short_line), Lent::Words(pixels)];
        let call = Call::new(Name::PutPixelsWide, &[format, sector], lent);
        Asked::planned(call, faults)
    }

    /// The first place, the last, or any.
    pub fn a_place_in(&mut self, count: usize) -> usize {
        match self.dice.under(4) {
            0 => 0,
            1 => count - 1,
            _ => self.dice.under(count),
        }
    }
}

/// The sectors that a call serves.
const ALL: [u64; 12] = [1, 2, 3, 4, 5, 6, 7, 8, 9, 10, 11, 12];
const NARROW: [u64; 10] = [2, 3, 4, 5, 6, 7, 8, 9, 10, 11];
const NARROWER: [u64; 7] = [5, 6, 7, 8, 9, 10, 11];
const WIDE: [u64; 1] = [12];
