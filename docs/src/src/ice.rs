//! Written lines whose SYNC and dummy came with wrong bits, as from an iced
//! dish. Document 02, T-01: "In winter the dish is iced and one wrong bit in
//! the tail costs a line."
//!
//! Information bits stay as they were sent, so what the sectors say is right
//! wherever a line is found at its own place.

use std::ops::Range;

use crate::bits;
use crate::damage::{good, Random};
use crate::format::{format, Format, INFORMATION_BITS};
use crate::scramble::{tail, TAIL_BITS};

/// Lines of the test pattern, as they were received.
pub struct Received {
    format: Format,
    lines: usize,
    pub recording: Vec<u8>,
}

/// So many places under `limit`, no two of them the same.
pub fn places(count: usize, limit: usize, random: &mut Random) -> Vec<usize> {
    let mut places = Vec::new();
    while places.len() < count {
        let place = random.under(limit);
        if !places.contains(&place) {
            places.push(place);
        }
    }
    places
}

impl Received {
    /// Nothing is wrong yet.
    pub fn new(format_number: usize, lines: usize) -> Received {
        Received {
            format: format(format_number).expect("1, 2 or 3"),
            lines,
            recording: good(format_number, lines as u64),
        }
    }

    /// Where SYNC and dummy stand: before each line with the dummy of the line
    /// before, and behind the last one.
    pub fn between(&self) -> Vec<Range<usize>> {
        let mut all = Vec::new();
        let mut start = 0;
        for k in 0..self.lines {
            let information = 8 * self.format.wire_bytes * k + self.format.sync_bits;
            all.push(start..information);
            start = information + INFORMATION_BITS;
        }
        all.push(start..8 * self.recording.len());
        all
    }

    /// So many wrong bits in the tail of line k, from 0.
    pub fn wrong_in_tail(&mut self, k: usize, wrong: usize, random: &mut Random) {
        let first = self.between()[k].end - TAIL_BITS;
        for place in places(wrong, TAIL_BITS, random) {
            bits::turn_over(&mut self.recording, first + place);
        }
    }

    /// So many wrong bits in each SYNC with the dummy before it, anywhere.
    pub fn wrong_anywhere(&mut self, wrong: usize, random: &mut Random) {
        for range in self.between().into_iter().filter(|range| !range.is_empty()) {
            for place in places(wrong, range.len(), random) {
                bits::turn_over(&mut self.recording, range.start + place);
            }
        }
    }

    /// So many wrong bits in any 64 neighbours of SYNC and dummy: the same
    /// places of 64, again and again.
    pub fn wrong_in_every_64(&mut self, wrong: usize, random: &mut Random) {
        let of_64 = places(wrong, 64, random);
        for place in self.between().into_iter().flatten() {
            if of_64.contains(&(place % 64)) {
                bits::turn_over(&mut self.recording, place);
            }
        }
    }

    /// The tail with so many wrong bits, put somewhere into the SYNC of line k
    /// or the dummy before it, before the true one. Gives its place.
    pub fn earlier(&mut self, k: usize, wrong: usize, random: &mut Random) -> usize {
        let range = self.between()[k].clone();
        let first = range.start + random.under(range.len() - 2 * TAIL_BITS);
        for (i, &bit) in tail().iter().enumerate() {
            bits::set_bit(&mut self.recording, first + i, bit);
        }
        for place in places(wrong, TAIL_BITS, random) {
            bits::turn_over(&mut self.recording, first + place);
        }
        first
    }
}
