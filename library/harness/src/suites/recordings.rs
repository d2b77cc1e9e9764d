//! Whole recordings through the reader: damaged ones, at every bit offset, cut
//! anywhere and into single bytes, half of them at setting 0.

use second::damage;

use super::reading::Reading;
use crate::bench::{Bench, Difference};
use crate::call::{Call, Lent};
use crate::make::Maker;
use crate::pool::FORMATS;
use crate::rows::Name;

/// Setting 0, or any that is served.
fn setting(maker: &mut Maker) -> usize {
    match maker.dice.one_in(2) {
        true => 0,
        false => maker.dice.between(0, 6),
    }
}

/// Reads a recording in these pieces. Its lines are those of the definition.
fn play(
    bench: &mut Bench,
    maker: &mut Maker,
    format: usize,
    pieces: &[&[u8]],
    what: &str,
) -> Result<(), Difference> {
    let setting = setting(maker);
    let mut reading = Reading::new(bench, maker, format, setting);
    for piece in pieces {
        reading.feed(piece)?;
    }
    reading.finish(&pieces.concat(), what).map(|_| ())
}

/// The same, cut at random.
fn play_cut(
    bench: &mut Bench,
    maker: &mut Maker,
    format: usize,
    recording: &[u8],
    what: &str,
) -> Result<(), Difference> {
    let longest = maker
        .dice
        .pick(&[100, 1_000, 10_000, 60_000, recording.len()]);
    let pieces = damage::cut(recording, longest, maker.dice.random());
    play(bench, maker, format, &pieces, what)
}

/// A line written, and read again: it is the line, at every setting.
fn round_trip(bench: &mut Bench, maker: &mut Maker, format: usize) -> Result<(), Difference> {
    let line = maker.any_line();
    let wire = vec![0; second::format::format(format).expect("a format").wire_bytes];
    let lent = vec![Lent::Bytes(line.clone()), Lent::Bytes(wire)];
    let written = bench.call(Call::new(Name::WriteLine, &[format as u64], lent))?;

    let setting = setting(maker);
    let pieces = damage::cut(written.lent[1].bytes(), 20_000, maker.dice.random());
    let mut reading = Reading::new(bench, maker, format, setting);
    for piece in pieces {
        reading.feed(piece)?;
    }
    match reading.found.as_slice() {
        [found] if found.bytes == line => Ok(()),
        found => Err(Difference(format!(
            "a line written in format {format} comes back at setting {setting} as {} lines, or \
             as another",
            found.len()
        ))),
    }
}

pub fn run(bench: &mut Bench, maker: &mut Maker) -> Result<(), Difference> {
    for format in FORMATS {
        for kind in 0..damage::KINDS {
            let (what, recording) = damage::make(kind, format, maker.dice.random());
            play_cut(bench, maker, format, &recording, what)?;
        }
        let one = damage::good(format, 1);
        for by in 0..8 {
            let recording = damage::shifted(&one, by, maker.dice.random());
            play_cut(bench, maker, format, &recording, "shifted")?;
        }
        for _ in 0..8 {
            round_trip(bench, maker, format)?;
        }
    }
    let format = maker.dice.pick(&FORMATS);
    let by = maker.dice.under(8);
    let recording = damage::shifted(&damage::good(format, 1), by, maker.dice.random());
    let bytes: Vec<&[u8]> = recording.chunks(1).collect();
    play(bench, maker, format, &bytes, "single bytes")
}
