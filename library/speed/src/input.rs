//! What both decoders are given: the lines of the second decoder's pattern.

use hansobrik::{put_data, put_pixels, put_pixels_wide, write_line, LINE_BYTES, WIRE_BYTES_2};
use second::pattern;

const GOOD: &str = "the pattern fits";

/// One line in every form that a call takes.
pub struct Input {
    /// The sectors from 2 to 12.
    pub pixels: Vec<Vec<u16>>,
    /// The same in bytes, without IR4.
    pub narrow: Vec<Vec<u8>>,
    pub line: Vec<u8>,
    pub wire: Vec<u8>,
}

impl Input {
    /// Line k of the pattern. The library makes it: the second decoder would
    /// take minutes for a thousand.
    pub fn new(format: u8, k: u64) -> Input {
        let pixels: Vec<Vec<u16>> = (2..=12).map(|sector| pattern::pixels(sector, k)).collect();
        let narrow: Vec<Vec<u8>> = pixels[..10].iter().map(|p| bytes(p)).collect();
        let mut line = vec![0; LINE_BYTES];
        let doc = pattern::doc(format.into(), k, 0);
        put_data(format, &mut line, 1, &doc).expect(GOOD);
        for (sector, values) in (2..).zip(&narrow) {
            put_pixels(format, &mut line, sector, values).expect(GOOD);
        }
        put_pixels_wide(format, &mut line, 12, &pixels[10]).expect(GOOD);
        let mut wire = vec![0; WIRE_BYTES_2];
        let count = write_line(format, &line, &mut wire).expect(GOOD);
        wire.truncate(count);
        Input {
            pixels,
            narrow,
            line,
            wire,
        }
    }
}

/// Pixels that are no wider than eight bits, as bytes.
fn bytes(pixels: &[u16]) -> Vec<u8> {
    pixels.iter().map(|&pixel| pixel as u8).collect()
}

/// A recording of the pattern's first lines.
pub fn recording(format: u8, lines: u64) -> Vec<u8> {
    (0..lines)
        .flat_map(|k| Input::new(format, k).wire)
        .collect()
}
