//! The works that are timed, each over either decoder.

use crate::decoder::{Decoder, Wire};
use crate::input::Input;
use std::hint::black_box;

#[derive(Clone, Copy)]
pub enum Work {
    /// One line of the wire, in pieces of so many bytes.
    Read {
        piece: usize,
        setting: u8,
    },
    /// The same with setting 0, the line buffer cleared before each line.
    ReadCleared {
        piece: usize,
    },
    /// The sectors from the first to the last number.
    Accepted(u8, u8),
    Filler(u8, u8),
    /// The channels from 1 to this one.
    Joined(u8),
    Strip,
    Write,
    PutPixels,
    /// The five blocks of a line, each the first copy of its segment.
    FirstCopies,
    /// The same line once more.
    LaterCopies,
    /// Everything that a line gives, read in pieces of 4,096 bytes with setting
    /// 0.
    Line,
}

/// One line of the wire, read with setting 0.
pub fn exactly(piece: usize) -> Work {
    Work::Read { piece, setting: 0 }
}

impl Work {
    /// Does the work once; the number sums up what came out. Buffers stay as
    /// the last run left them.
    pub fn run<D: Decoder>(self, decoder: &mut D, input: &Input) -> usize {
        let wire = black_box(&input.wire[..]);
        match self {
            Work::Read { piece, setting } => read(decoder, wire, setting, piece, |_| 0),
            Work::ReadCleared { piece } => {
                black_box(&mut decoder.made().line[..]).fill(0);
                read(decoder, wire, 0, piece, |_| 0)
            }
            Work::Accepted(first, last) => accepted(decoder, first, last),
            Work::Filler(first, last) => filler(decoder, first, last),
            Work::Joined(last) => joined(decoder, last),
            Work::Strip => strip(decoder),
            Work::Write => decoder.write_line(),
            Work::PutPixels => {
                decoder.put_pixels(black_box(input));
                black_box(&decoder.made().line).len()
            }
            Work::FirstCopies => {
                decoder.made().assemblies = black_box([hansobrik::fresh_assembly(); 5]);
                blocks(decoder)
            }
            Work::LaterCopies => blocks(decoder),
            Work::Line => read(decoder, wire, 0, 4096, each_line),
        }
    }
}

/// Reads a recording from its start, and does more with each line of it.
pub fn read<D: Wire>(
    decoder: &mut D,
    recording: &[u8],
    setting: u8,
    piece: usize,
    each: impl Fn(&mut D) -> usize,
) -> usize {
    decoder.begin();
    let mut sum = 0;
    for piece in recording.chunks(piece) {
        let mut rest = piece;
        while !rest.is_empty() {
            let (taken, complete) = decoder.read(setting, rest);
            rest = &rest[taken..];
            if complete {
                sum += 1 + each(decoder);
            }
        }
    }
    black_box(&decoder.made().line);
    sum
}

/// All that is done with a line once it stands in the buffer.
pub fn each_line<D: Decoder>(decoder: &mut D) -> usize {
    let sum = accepted(decoder, 1, 12)
        + filler(decoder, 1, 12)
        + joined(decoder, 3)
        + strip(decoder)
        + decoder.position().unsigned_abs() as usize
        + usize::from(decoder.hundredths());
    sum + blocks(decoder)
}

fn accepted<D: Decoder>(decoder: &mut D, first: u8, last: u8) -> usize {
    (first..=last)
        .map(|s| usize::from(decoder.accepted(s)))
        .sum()
}

fn filler<D: Decoder>(decoder: &mut D, first: u8, last: u8) -> usize {
    (first..=last).map(|s| decoder.filler(s)).sum()
}

fn joined<D: Decoder>(decoder: &mut D, last: u8) -> usize {
    for channel in 1..=last {
        decoder.joined(channel);
        black_box(&decoder.made().joined);
    }
    0
}

fn strip<D: Decoder>(decoder: &mut D) -> usize {
    decoder.strip();
    black_box(&decoder.made().strip);
    0
}

fn blocks<D: Decoder>(decoder: &mut D) -> usize {
    let sum = (1..=5).map(|b| usize::from(decoder.add_segment(b))).sum();
    black_box(&decoder.made().blocks);
    sum
}

#[cfg(test)]
mod tests {
    use super::*;
    use crate::ours::Ours;
    use crate::theirs::Theirs;

    /// Both decoders do the same work: the same sum, and the same in every
    /// buffer.
    #[test]
    fn both_do_the_same() {
        let input = Input::new(1, 9);
        let (mut ours, mut theirs) = (Ours::new(1), Theirs::new(1));
        for work in [
            exactly(1),
            Work::ReadCleared { piece: 4096 },
            exactly(45_606),
            Work::Accepted(1, 12),
            Work::Filler(1, 12),
            Work::Joined(3),
            Work::Strip,
            Work::Write,
            Work::FirstCopies,
            Work::LaterCopies,
            Work::Line,
            Work::PutPixels,
        ] {
            let sum = work.run(&mut ours, &input);
            assert_eq!(sum, work.run(&mut theirs, &input));
            assert!(ours.made() == theirs.made());
        }
        assert!(ours.made().line == input.line);
    }

    /// With wrong bits in the tail, the last 64 bits of SYNC, both give the line
    /// where the setting bears them, and none where it does not.
    #[test]
    fn both_bear_as_many_wrong_bits() {
        let (mut ours, mut theirs) = (Ours::new(1), Theirs::new(1));
        let mut input = Input::new(1, 9);
        for wrong in 0..=hansobrik::LARGEST_SETTING {
            for setting in [0, 4, 6] {
                let work = Work::Read {
                    piece: 4096,
                    setting,
                };
                let lines = usize::from(wrong <= setting);
                assert_eq!(work.run(&mut ours, &input), lines);
                assert_eq!(work.run(&mut theirs, &input), lines);
            }
            input.wire[hansobrik::SYNC_BYTES_1 - 8 + usize::from(wrong)] ^= 1;
        }
    }

    #[test]
    fn the_library_makes_the_pattern() {
        for format in [1, 2, 3] {
            let input = Input::new(format, 9);
            let line = second::pattern::line(format.into(), 9, 0).unwrap();
            assert!(line == input.line);
            assert!(input.wire == second::pattern::on_the_wire(format.into(), &line).unwrap());
        }
    }
}
