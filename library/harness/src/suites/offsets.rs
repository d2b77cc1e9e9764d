//! Lines that begin at each bit of a byte, read in pieces that end around
//! everything: a reader that takes whole bytes and words of a line goes wrong
//! where they meet single bits.
//!
//! What the record and the buffer must be after every piece is known from what
//! was sent, without the second decoder.

use std::ops::Range;

use second::bits;
use second::format::{INFORMATION_BITS, LINE_BYTES};
use second::scramble::{wire_line, TAIL_BITS};

use super::reading::Reading;
use crate::bench::{Bench, Difference};
use crate::make::{Maker, Record};
use crate::pool::FORMATS;

/// SYNC bits in front of a line: the tail, and some more.
const SYNC_BITS: usize = 96;

/// Bytes of a line, from its first and to its last, that are read in small pieces.
const AROUND: usize = 28;

/// Noise behind a line.
const BEHIND_BITS: usize = 96;

/// The longest of the small pieces, and of those that are read alone: five words
/// of eight bytes.
const SMALL: usize = 20;
const ALONE: usize = 40;

/// A line between SYNC and noise, and where it begins.
struct Sent {
    line: Vec<u8>,
    bits: Vec<u8>,
    first: usize,
}

impl Sent {
    /// The line begins at this bit of a byte. It is noise: where bits of it were
    /// equal, one might come for another.
    fn new(maker: &mut Maker, by: usize) -> Sent {
        let line = maker.noise(LINE_BYTES);
        let mut bits = maker.dice.random().bits(by);
        bits.extend(wire_line(SYNC_BITS, &bits::from_bytes(&line), 0));
        let filling = BEHIND_BITS + (8 - by) % 8;
        bits.extend(maker.dice.random().bits(filling));
        Sent {
            line,
            bits,
            first: by + SYNC_BITS,
        }
    }

    fn bytes(&self) -> Vec<u8> {
        bits::to_bytes(&self.bits)
    }

    fn end(&self) -> usize {
        self.first + INFORMATION_BITS
    }

    /// How many bits of the line are among the first bits.
    fn line_bits(&self, read: usize) -> usize {
        read.clamp(self.first, self.end()) - self.first
    }

    /// The record once so many bytes are taken. The byte that has the line's last
    /// bit leaves its other bits unread.
    fn record(&self, maker: &Maker, taken: usize) -> Record {
        let read = 8 * taken;
        if read < self.first {
            return searching(&self.bits[..read]);
        }
        if read >= self.end() + 8 {
            return searching(&self.bits[self.end()..read]);
        }
        if read >= self.end() {
            return Record {
                unread: bits::number(&self.bits[self.end()..read]),
                unread_count: (read - self.end()) as u64,
                ..Record::default()
            };
        }
        let position = read - self.first;
        let waiting = bits::part(&self.line, position / 8 * 8, position % 8);
        Record {
            position: position as u64,
            register: maker.pool.register(position),
            in_line: 1,
            waiting: bits::number(&waiting),
            waiting_count: waiting.len() as u64,
            ..Record::default()
        }
    }

    /// Reads bytes of it, cut so, from the record that is due there. After every
    /// piece the record is the one that is due, and the line's whole bytes are
    /// those that were sent.
    fn play(
        &self,
        bench: &mut Bench,
        maker: &mut Maker,
        bytes: &[u8],
        mut at: usize,
        lengths: impl Iterator<Item = usize>,
    ) -> Result<(), Difference> {
        let (format, setting) = (maker.dice.pick(&FORMATS), maker.dice.between(0, 6));
        let record = self.record(maker, at);
        let mut buffer = self.line.clone();
        buffer[self.line_bits(8 * at) / 8..].fill(0xEE);
        let reading = Reading::new(bench, maker, format, setting);
        let mut reading = reading.at(&record.numbers(), buffer);
        for length in lengths {
            reading.feed(&bytes[at..at + length])?;
            at += length;
            let due = self.record(reading.maker, at).numbers();
            if reading.record() != due || !self.holds(&reading, at) {
                return Err(Difference(format!(
                    "after {at} bytes, with a line from bit {} on, the record is {:?}, by what was \
                     sent {due:?}; or the bytes of the line are others",
                    self.first,
                    reading.record(),
                )));
            }
        }
        Ok(())
    }

    /// What came of the line is what was sent. Once it was handed out, the buffer
    /// may be another.
    fn holds(&self, reading: &Reading, taken: usize) -> bool {
        let done = self.line_bits(8 * taken) / 8;
        match reading.found.as_slice() {
            [] => done < LINE_BYTES && reading.line()[..done] == self.line[..done],
            [found] => done == LINE_BYTES && found.bytes == self.line,
            _ => false,
        }
    }

    /// The bytes with the tail's end and the line's first bytes, and those with
    /// its last ones.
    fn edges(&self) -> [Range<usize>; 2] {
        [
            0..self.first / 8 + AROUND,
            self.end() / 8 - AROUND..self.bits.len() / 8,
        ]
    }
}

/// Between lines, after these bits since the start of the search.
fn searching(since: &[u8]) -> Record {
    let remembered = &since[since.len().saturating_sub(TAIL_BITS - 1)..];
    Record {
        search: bits::number(remembered),
        search_count: remembered.len() as u64,
        ..Record::default()
    }
}

/// So many bytes in pieces of one length, the last one shorter.
fn equal(bytes: usize, length: usize) -> impl Iterator<Item = usize> {
    (0..bytes)
        .step_by(length)
        .map(move |at| length.min(bytes - at))
}

/// Both edges of a line in small pieces of every length, and cut into two at every
/// byte.
fn small_pieces(bench: &mut Bench, maker: &mut Maker, by: usize) -> Result<(), Difference> {
    let sent = Sent::new(maker, by);
    let bytes = sent.bytes();
    for part in sent.edges() {
        for length in 1..=SMALL {
            sent.play(bench, maker, &bytes, part.start, equal(part.len(), length))?;
        }
        for cut in 0..part.len() {
            let lengths = [cut, part.len() - cut];
            sent.play(bench, maker, &bytes, part.start, lengths.into_iter())?;
        }
    }
    // somewhere inside, from an even byte of the line and from an odd one
    let inside = maker.dice.between(AROUND, LINE_BYTES - AROUND - ALONE);
    for from in [inside, inside + 1] {
        for length in 0..=ALONE {
            let at = sent.first.div_ceil(8) + from;
            sent.play(bench, maker, &bytes, at, [length].into_iter())?;
        }
    }
    Ok(())
}

/// The whole of it: in one piece, in pieces of 4,096 bytes, and with both edges in
/// single bytes. The lines are those of the plain definition, and the one sent.
fn whole(bench: &mut Bench, maker: &mut Maker, by: usize) -> Result<(), Difference> {
    let sent = Sent::new(maker, by);
    let bytes = sent.bytes();
    let [front, back] = sent.edges();
    let singly = |part: Range<usize>| equal(part.len(), 1);
    let inside = back.start - front.end;
    let by_edges = singly(front).chain([inside]).chain(singly(back));
    for lengths in [
        vec![bytes.len()],
        equal(bytes.len(), 4096).collect(),
        by_edges.collect(),
    ] {
        read_whole(bench, maker, &sent, &bytes, &lengths)?;
    }
    Ok(())
}

fn read_whole(
    bench: &mut Bench,
    maker: &mut Maker,
    sent: &Sent,
    bytes: &[u8],
    lengths: &[usize],
) -> Result<(), Difference> {
    let (format, setting) = (maker.dice.pick(&FORMATS), maker.dice.between(0, 6));
    let mut reading = Reading::new(bench, maker, format, setting);
    let mut rest = bytes;
    for &length in lengths {
        let (piece, behind) = rest.split_at(length);
        reading.feed(piece)?;
        rest = behind;
    }
    let lines = reading.finish(bytes, "a line at a bit of a byte")?;
    match lines.as_slice() {
        [line] if line.bytes == sent.line && line.end == sent.end() => Ok(()),
        lines => Err(Difference(format!(
            "of a line sent from bit {} on come {} lines, or another",
            sent.first,
            lines.len()
        ))),
    }
}

/// All eight, and for a long run also all the bytes of each line one by one.
pub fn run(bench: &mut Bench, maker: &mut Maker, everywhere: bool) -> Result<(), Difference> {
    for by in 0..8 {
        small_pieces(bench, maker, by)?;
        whole(bench, maker, by)?;
        if everywhere {
            let sent = Sent::new(maker, by);
            let bytes = sent.bytes();
            read_whole(bench, maker, &sent, &bytes, &vec![1; bytes.len()])?;
        }
    }
    Ok(())
}
