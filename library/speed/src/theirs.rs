//! The second decoder.

use crate::decoder::{Decoder, Made, Wire};
use crate::input::Input;
use second::format::format;
use second::{bits, blocks, document, reader, scramble, sectors};

pub struct Theirs {
    format: usize,
    state: reader::State,
    made: Made,
}

impl Theirs {
    pub fn new(format: u8) -> Theirs {
        Theirs {
            format: format.into(),
            state: reader::State::default(),
            made: Made::new(),
        }
    }
}

const GOOD: &str = "a good line";

impl Wire for Theirs {
    fn made(&mut self) -> &mut Made {
        &mut self.made
    }

    fn begin(&mut self) {
        self.state = reader::State::default();
    }

    fn read(&mut self, setting: u8, piece: &[u8]) -> (usize, bool) {
        let line = &mut self.made.line;
        let answer = reader::read(self.format, setting.into(), &mut self.state, piece, line);
        let answer = answer.expect(GOOD);
        (answer.taken, answer.complete)
    }

    fn write_line(&mut self) -> usize {
        let made = &mut self.made;
        scramble::write_line(self.format, &made.line, &mut made.wire).expect(GOOD)
    }

    /// It has SYNC, but no call that puts it alone.
    fn put_sync(&mut self) -> usize {
        let sync = scramble::sync(format(self.format).expect(GOOD).sync_bits);
        let bytes = bits::to_bytes(&sync);
        self.made.wire[..bytes.len()].copy_from_slice(&bytes);
        bytes.len()
    }
}

impl Decoder for Theirs {
    fn accepted(&mut self, sector: u8) -> bool {
        sectors::accepted(self.format, &self.made.line, sector.into()).is_ok()
    }

    fn filler(&mut self, sector: u8) -> usize {
        sectors::filler(self.format, &self.made.line, sector.into()).expect(GOOD)
    }

    fn joined(&mut self, channel: u8) {
        let made = &mut self.made;
        sectors::joined(self.format, &made.line, channel.into(), &mut made.joined).expect(GOOD);
    }

    fn strip(&mut self) {
        let made = &mut self.made;
        let parts = sectors::visible(self.format, &made.line, &mut made.strip).expect(GOOD);
        assert_eq!(parts, [0; 4], "{GOOD}");
    }

    fn position(&mut self) -> i32 {
        let numbers = document::line_numbers(self.format, &self.made.line);
        numbers.expect(GOOD).line_position.into()
    }

    fn hundredths(&mut self) -> u16 {
        let date = document::date(self.format, &self.made.line);
        date.expect(GOOD).hundredths
    }

    fn add_segment(&mut self, block: u8) -> bool {
        let made = &mut self.made;
        let b = usize::from(block) - 1;
        let kept = &mut made.assemblies[b];
        let mut assembly = blocks::Assembly {
            marks: kept.marks,
            calibration: kept.calibration,
            manam: kept.manam,
        };
        let added = blocks::add_segment(
            self.format,
            &made.line,
            block.into(),
            &mut assembly,
            &mut made.blocks[b],
        );
        (kept.marks, kept.calibration) = (assembly.marks, assembly.calibration);
        kept.manam = assembly.manam;
        added.expect(GOOD).first_copy
    }

    fn put_pixels(&mut self, input: &Input) {
        for (sector, pixels) in (2..).zip(&input.pixels) {
            sectors::put_pixels(self.format, &mut self.made.line, sector, pixels).expect(GOOD);
        }
    }
}
