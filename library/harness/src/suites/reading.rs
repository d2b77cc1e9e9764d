//! A recording on its way through the reader, call by call. What is handed
//! out, line by line, is held to the plain definition over the uncut recording
//! at the same setting.

use second::bits;
use second::format::LINE_BYTES;
use second::lines::{lines, Line};

use crate::bench::{Bench, Difference};
use crate::call::{Call, Lent};
use crate::make::{Asked, Maker};
use crate::rows::Name;

/// The line bits, the flag of the record, and how many bits are unread, among
/// its numbers.
const POSITION: usize = 0;
const IN_LINE: usize = 3;
const UNREAD_COUNT: usize = 6;

pub struct Reading<'a> {
    pub bench: &'a mut Bench,
    pub maker: &'a mut Maker,
    format: u64,
    setting: u64,
    record: Vec<u64>,
    line: Vec<u8>,
    taken: usize,
    pub found: Vec<Line>,
}

impl<'a> Reading<'a> {
    pub fn new(
        bench: &'a mut Bench,
        maker: &'a mut Maker,
        format: usize,
        setting: usize,
    ) -> Reading<'a> {
        Reading {
            bench,
            maker,
            format: format as u64,
            setting: setting as u64,
            record: vec![0; 9],
            line: vec![0xEE; LINE_BYTES],
            taken: 0,
            found: Vec::new(),
        }
    }

    /// The same from a record on, with what is in the buffer by then.
    pub fn at(self, record: &[u64], line: Vec<u8>) -> Reading<'a> {
        Reading {
            record: record.to_vec(),
            line,
            ..self
        }
    }

    pub fn record(&self) -> &[u64] {
        &self.record
    }

    pub fn line(&self) -> &[u8] {
        &self.line
    }

    /// Hands a piece over until it is used up; an empty one once.
    pub fn feed(&mut self, piece: &[u8]) -> Result<(), Difference> {
        let mut rest = piece;
        loop {
            // between lines the buffer may be exchanged for another one
            if self.record[IN_LINE] == 0 && self.maker.dice.one_in(10) {
                let length = LINE_BYTES + self.maker.dice.under(3);
                self.line = self.maker.noise(length);
            }
            let taken = self.call(rest)?;
            rest = &rest[taken..];
            if rest.is_empty() {
                return Ok(());
            }
        }
    }

    /// One call; the bytes that it took.
    fn call(&mut self, piece: &[u8]) -> Result<usize, Difference> {
        let line = std::mem::take(&mut self.line);
        let call = self.asked(self.setting, piece, line);
        let mut outcome = self.bench.call(call)?;

        self.line = std::mem::take(outcome.lent[1].bytes_mut());
        self.record = outcome.numbers[3..].to_vec();
        let taken = outcome.numbers[2] as usize;
        self.taken += taken;
        if outcome.numbers[1] == 1 {
            self.found.push(Line {
                bytes: self.line[..LINE_BYTES].to_vec(),
                end: 8 * self.taken - self.record[UNREAD_COUNT] as usize,
            });
        }
        Ok(taken)
    }

    fn asked(&self, setting: u64, piece: &[u8], line: Vec<u8>) -> Call {
        let numbers = [vec![self.format, setting], self.record.clone()].concat();
        let lent = vec![Lent::Bytes(piece.to_vec()), Lent::Bytes(line)];
        Call::new(Name::Read, &numbers, lent)
    }

    /// The call that comes next, but with a setting that is not served: it is
    /// refused with 13 and changes nothing, so the reading goes on as before.
    pub fn refused(&mut self, setting: usize, piece: &[u8]) -> Result<(), Difference> {
        let call = self.asked(setting as u64, piece, self.line.clone());
        let wanted = Some(second::refusal::SETTING);
        self.bench.ask(&Asked { call, wanted }).map(|_| ())
    }

    /// How many bits of a line are in, where the reading stops inside one.
    pub fn line_bits(&self) -> Option<usize> {
        (self.record[IN_LINE] == 1).then_some(self.record[POSITION] as usize)
    }

    /// The lines handed out are those of the recording.
    pub fn finish(self, recording: &[u8], what: &str) -> Result<Vec<Line>, Difference> {
        let (format, setting) = (self.format, self.setting);
        let defined = lines(setting as usize, &bits::from_bytes(recording));
        if self.found == defined {
            return Ok(self.found);
        }
        Err(Difference(format!(
            "{what} in format {format} at setting {setting}: {} lines handed out, which are not \
             the {} of the recording",
            self.found.len(),
            defined.len()
        )))
    }
}
