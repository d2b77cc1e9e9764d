//! The library, and with the feature `before` that of an earlier commit: the
//! same calls of another crate, but for a reader that takes no setting yet, and
//! an assembly of which marks alone are kept.

use crate::decoder::{Decoder, Made, Wire};
use crate::input::Input;

const GOOD: &str = "a good line";

macro_rules! decoder {
    ($decoder:ident, $library:ident, $read:path, $add:path) => {
        pub struct $decoder {
            format: u8,
            state: $library::State,
            made: Made,
        }

        impl $decoder {
            pub fn new(format: u8) -> $decoder {
                $decoder {
                    format,
                    state: $library::fresh(),
                    made: Made::new(),
                }
            }
        }

        impl Wire for $decoder {
            fn made(&mut self) -> &mut Made {
                &mut self.made
            }

            fn begin(&mut self) {
                self.state = $library::fresh();
            }

            fn read(&mut self, setting: u8, piece: &[u8]) -> (usize, bool) {
                let line = &mut self.made.line;
                let answer = $read(self.format, setting, &mut self.state, piece, line);
                let answer = answer.expect(GOOD);
                (answer.taken, answer.complete)
            }

            fn write_line(&mut self) -> usize {
                let made = &mut self.made;
                $library::write_line(self.format, &made.line, &mut made.wire).expect(GOOD)
            }

            fn put_sync(&mut self) -> usize {
                $library::put_sync(self.format, &mut self.made.wire).expect(GOOD)
            }
        }

        impl Decoder for $decoder {
            fn accepted(&mut self, sector: u8) -> bool {
                $library::accepted(self.format, &self.made.line, sector).is_ok()
            }

            fn filler(&mut self, sector: u8) -> usize {
                $library::filler(self.format, &self.made.line, sector).expect(GOOD)
            }

            fn joined(&mut self, channel: u8) {
                let made = &mut self.made;
                $library::joined(self.format, &made.line, channel, &mut made.joined).expect(GOOD);
            }

            fn strip(&mut self) {
                let made = &mut self.made;
                let parts = $library::strip(self.format, &made.line, &mut made.strip).expect(GOOD);
                assert!(parts.iter().all(Result::is_ok), "{GOOD}");
            }

            fn position(&mut self) -> i32 {
                let numbers = $library::line_numbers(self.format, &self.made.line);
                numbers.expect(GOOD).position
            }

            fn hundredths(&mut self) -> u16 {
                let date = $library::date(self.format, &self.made.line);
                date.expect(GOOD).hundredths.into()
            }

            fn add_segment(&mut self, block: u8) -> bool {
                let made = &mut self.made;
                let b = usize::from(block) - 1;
                let added = $add(
                    self.format,
                    &mut made.assemblies[b],
                    &made.line,
                    block,
                    &mut made.blocks[b],
                );
                added.expect(GOOD).first_copy
            }

            fn put_pixels(&mut self, input: &Input) {
                for (sector, pixels) in (2..).zip(&input.narrow) {
                    $library::put_pixels(self.format, &mut self.made.line, sector, pixels)
                        .expect(GOOD);
                }
                $library::put_pixels_wide(self.format, &mut self.made.line, 12, &input.pixels[10])
                    .expect(GOOD);
            }
        }
    };
}

decoder!(Ours, hansobrik, hansobrik::read, hansobrik::add_segment);
#[cfg(feature = "before")]
decoder!(Before, before, read_before, add_before);

#[cfg(feature = "before_setting")]
use before::read as read_before;

/// A reader without a setting asks for the exact tail, as one with 0 does.
#[cfg(all(feature = "before", not(feature = "before_setting")))]
fn read_before(
    format: u8,
    setting: u8,
    state: &mut before::State,
    piece: &[u8],
    line: &mut [u8],
) -> Result<before::Read, before::Refusal> {
    assert_eq!(setting, 0, "the earlier reader takes no setting");
    before::read(format, state, piece, line)
}

/// The earlier library's call, over a record of its own or over marks.
#[cfg(feature = "before")]
fn add_before(
    format: u8,
    kept: &mut hansobrik::Assembly,
    line: &[u8],
    number: u8,
    block: &mut [u8],
) -> Result<before::Added, before::Refusal> {
    #[cfg(feature = "before_assembly")]
    {
        let mut assembly = before::Assembly {
            marks: kept.marks,
            calibration: kept.calibration,
            manam: kept.manam,
        };
        let added = before::add_segment(format, &mut assembly, line, number, block);
        (kept.marks, kept.calibration) = (assembly.marks, assembly.calibration);
        kept.manam = assembly.manam;
        added
    }
    #[cfg(not(feature = "before_assembly"))]
    before::add_segment(format, &mut kept.marks, line, number, block)
}
