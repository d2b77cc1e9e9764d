//! A block put together call by call, every way. What must come of each call is
//! known here from the lines that went in, without the second decoder.

use second::blocks::{ALL_MARKS, BLOCKS, CALIBRATION_2, MANAM, MAPPING, ORBIT};
use second::refusal;

use crate::bench::{Bench, Difference};
use crate::call::{Call, Lent, Outcome};
use crate::make::{goes_by, Asked, Maker};
use crate::rows::Name;

use super::grid;

/// A line, and what it says.
pub struct Sent {
    pub line: Vec<u8>,
    pub segment: usize,
    /// Its calibration table ID and its MANAM revision.
    pub tables: [u16; 2],
    /// What it is refused with, whatever the block: 5, 6, 7 or, of a good line,
    /// 0.
    pub damage: u8,
}

pub struct Assembling {
    format: usize,
    pub number: usize,
    pub marks: u32,
    /// The numbers of the line that brought the first segment; without a mark,
    /// any.
    pub tables: [u16; 2],
    pub block: Vec<u8>,
}

impl Assembling {
    /// With a fresh record, and noise in the buffer.
    pub fn new(maker: &mut Maker, format: usize, number: usize) -> Assembling {
        Assembling {
            format,
            number,
            marks: 0,
            tables: [0, 0],
            block: maker.noise(BLOCKS[number - 1].size),
        }
    }

    /// All five.
    pub fn five(maker: &mut Maker, format: usize) -> Vec<Assembling> {
        (1..=5)
            .map(|number| Assembling::new(maker, format, number))
            .collect()
    }

    /// Begins anew with no marks and these numbers, over what the buffer has.
    pub fn begin(&mut self, tables: [u16; 2]) {
        (self.marks, self.tables) = (0, tables);
    }

    pub fn served(&self) -> bool {
        self.format != 2 || self.number != CALIBRATION_2
    }

    pub fn finished(&self) -> bool {
        self.marks == ALL_MARKS
    }

    /// What the block's own number is, where it goes by one.
    fn revision(&self) -> Option<u16> {
        goes_by(self.number).map(|i| self.tables[i])
    }

    /// Format and record, and the numbers behind them.
    fn numbers(&self, rest: &[u64]) -> Vec<u64> {
        let [calibration, manam] = self.tables;
        let head = [self.format as u64, self.marks.into()];
        [&head, &[calibration.into(), manam.into()], rest].concat()
    }

    /// What is stored of a segment, and what a line brings of it.
    fn copies<'a>(&'a self, sent: &'a Sent) -> (&'a [u8], &'a [u8]) {
        let row = &BLOCKS[self.number - 1];
        let stored = self.block.chunks(row.segment_bytes()).nth(sent.segment);
        let stored = stored.expect("a segment from 0 to 24");
        (stored, &sent.line[row.first - 1..row.last])
    }

    /// The refusal of a line, by the paper's words.
    fn wanted(&self, sent: &Sent) -> u8 {
        if !self.served() {
            return refusal::NUMBER;
        }
        if sent.damage != 0 {
            return sent.damage;
        }
        let brought = goes_by(self.number).map(|i| sent.tables[i]);
        if self.marks != 0 && brought != self.revision() {
            return refusal::REVISION;
        }
        let (stored, brought) = self.copies(sent);
        match self.marks >> sent.segment & 1 == 1 && stored != brought {
            true => refusal::SEGMENT,
            false => 0,
        }
    }

    /// Adds the segment of a line; what it is refused with.
    pub fn add(&mut self, bench: &mut Bench, sent: &Sent) -> Result<u8, Difference> {
        let wanted = self.wanted(sent);
        let lent = [&sent.line, &self.block].map(|bytes| Lent::Bytes(bytes.clone()));
        let numbers = self.numbers(&[self.number as u64]);
        let call = Call::new(Name::AddSegment, &numbers, lent.to_vec());
        let mut outcome = bench.ask(&Asked {
            call,
            wanted: Some(wanted),
        })?;
        if wanted == 0 {
            if self.marks == 0 {
                self.tables = sent.tables;
            }
            self.marks |= 1 << sent.segment;
            self.block = std::mem::take(outcome.lent[1].bytes_mut());
        }
        // behind `refused`, first_copy and segment
        if outcome.numbers[3..] != self.numbers(&[])[1..] {
            return Err(self.wrong(&format!("has the record {:?}", &outcome.numbers[3..])));
        }
        Ok(wanted)
    }

    fn wrong(&self, what: &str) -> Difference {
        Difference(format!(
            "block {} of format {} {what}; by the lines that went in it has marks {:#x} and tables \
             {:?}",
            self.number, self.format, self.marks, self.tables
        ))
    }

    /// The block is finished and has these bytes.
    pub fn holds(&self, bytes: &[u8]) -> Result<(), Difference> {
        match self.finished() && self.block == bytes {
            true => Ok(()),
            false => Err(self.wrong("is not finished, or has other bytes")),
        }
    }

    /// A call on the block as it stands: answered where it is finished.
    fn entry(&self, bench: &mut Bench, name: Name, rest: &[u64]) -> Result<Outcome, Difference> {
        let unserved = name == Name::Revision && self.revision().is_none();
        let wanted = match (self.served() && !unserved, self.finished()) {
            (false, _) => refusal::NUMBER,
            (true, false) => refusal::INCOMPLETE,
            (true, true) => 0,
        };
        let lent = vec![Lent::Bytes(self.block.clone())];
        let call = Call::new(name, &self.numbers(rest), lent);
        bench.ask(&Asked {
            call,
            wanted: Some(wanted),
        })
    }

    /// The same of a call that says of which revision its answer is, in this
    /// field.
    fn revised(
        &self,
        bench: &mut Bench,
        name: Name,
        rest: &[u64],
        field: usize,
    ) -> Result<(), Difference> {
        let outcome = self.entry(bench, name, rest)?;
        let wanted = self.revision().filter(|_| outcome.numbers[0] == 0);
        let said = outcome.numbers[field];
        match said == wanted.unwrap_or(0).into() {
            true => Ok(()),
            false => Err(self.wrong(&format!("is of revision {said} by {name:?}"))),
        }
    }

    fn levels(&self, bench: &mut Bench, channel: u64, every: usize) -> Result<(), Difference> {
        for level in (0..64).step_by(every) {
            self.revised(bench, Name::Albedo, &[channel, level], 3)?;
            self.revised(bench, Name::AlbedoF64, &[channel, level], 1)?;
        }
        for level in (0..1_024).step_by(every) {
            self.revised(bench, Name::Temperature, &[channel, level], 3)?;
            self.revised(bench, Name::TemperatureF64, &[channel, level], 1)?;
        }
        Ok(())
    }

    /// A point of the mapping grid: what it must be is known from the block's
    /// bytes.
    fn point(&self, bench: &mut Bench, row: u64, column: u64) -> Result<(), Difference> {
        let outcome = self.entry(bench, Name::Mapping, &[row, column])?;
        let place = (row as usize, column as usize);
        let wanted = match self.finished() {
            true => grid::point(self.format, &self.block, place.0, place.1),
            false => [0; 4],
        };
        match outcome.numbers[1..] == wanted {
            true => Ok(()),
            false => Err(self.wrong(&format!("has {:?} at {place:?}", &outcome.numbers[1..]))),
        }
    }

    /// All calls on the block, finished or not: with every entry, or every so
    /// many.
    pub fn entries(&self, bench: &mut Bench, every: usize) -> Result<(), Difference> {
        self.revised(bench, Name::Revision, &[self.number as u64], 1)?;
        match self.number {
            MAPPING => {
                let mut places = (0..625).step_by(every);
                places.try_for_each(|place| self.point(bench, place / 25, place % 25))
            }
            ORBIT => self.entry(bench, Name::Elements, &[]).map(|_| ()),
            CALIBRATION_2 => (1..=4).try_for_each(|channel| self.levels(bench, channel, every)),
            _ => Ok(()),
        }
    }
}

/// Whether a block's bytes change with the operator's tables.
pub fn changes(number: usize) -> bool {
    number >= MANAM
}
