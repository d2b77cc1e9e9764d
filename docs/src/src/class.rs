//! A class: one recording, an area of some slots, and a timetable for the feeder,
//! preview and capture. Not the paper's: its lines, its desk and its pixels are.
//!
//! Line times are 1, 2, 3, ..; in each the feeder has its turn, then preview, then
//! capture.
//!
//! - The feeder, until it has found the recording's end, takes a slot. Where none
//!   is free it offers nothing and waits for this line time. Else it plays the
//!   recording into the slot up to the next complete line and publishes it; where
//!   the recording ends before that the slot stays as it is, and the feeder is done.
//! - A consumer has a lag. Its next line is serial 1, then 2, ..; where that is
//!   published, and so many line times ago or more, it looks at it and releases it:
//!   at most one line a line time.
//! - The class is over when the feeder is done and both have released all lines.
//!   Then, where there were any, each tries the old fault: it releases its last
//!   line once more.
//!
//! The rows are, with single spaces:
//! ```text
//! time T feeder takes slot S serial N
//! time T feeder takes refused 16
//! time T feeder publishes slot S serial N
//! time T preview sees slot S serial N good G sum X
//! time T preview releases slot S serial N
//! time T preview releases slot S serial N refused 17
//! waits W
//! total N
//! ```
//! G is how many of the twelve sectors are accepted, X the sum of the ten-bit
//! pixels of IR1, or `refused K`. W is how often a take was refused, N how many
//! lines were published.

use crate::desk::{self, Desk, Place, CAPTURE, PREVIEW};
use crate::format::{format, LINE_BYTES};
use crate::reader::{self, State};
use crate::refusal::Refusal;
use crate::sectors::{self, IR_PIXELS};

/// Who reads, and how many line times behind the feeder.
struct Reader {
    name: &'static str,
    number: usize,
    lag: u64,
    /// Lines that it has released.
    done: usize,
}

/// A class that is under way.
struct Class<'a> {
    format: usize,
    setting: usize,
    /// Of the recording: the bytes that are not played yet.
    rest: &'a [u8],
    state: State,
    desk: Desk,
    area: Vec<u8>,
    /// The lines in order: where each was published, and in which line time.
    published: Vec<(Place, u64)>,
    /// Takes that were refused.
    waits: u64,
    feeder_done: bool,
    rows: Vec<String>,
}

/// The rows of a class, and how many bits of an unfinished line are in at its end.
/// Refusals 1, 13, 19.
pub fn rows(
    format_number: usize,
    setting: usize,
    slots: usize,
    lags: [u64; 2],
    recording: &[u8],
) -> Result<(Vec<String>, Option<usize>), Refusal> {
    format(format_number)?;
    reader::served(setting)?;
    let mut class = Class {
        format: format_number,
        setting,
        rest: recording,
        state: State::default(),
        desk: desk::fresh(slots)?,
        area: vec![0; slots * LINE_BYTES],
        published: vec![],
        waits: 0,
        feeder_done: recording.is_empty(),
        rows: vec![],
    };
    let reader = |name, number, lag| Reader {
        name,
        number,
        lag,
        done: 0,
    };
    let mut readers = [
        reader("preview", PREVIEW, lags[0]),
        reader("capture", CAPTURE, lags[1]),
    ];
    let mut time = 0;
    loop {
        time += 1;
        class.feed(time)?;
        for reader in &mut readers {
            class.follow(time, reader)?;
        }
        let all = class.published.len();
        if class.feeder_done && readers.iter().all(|reader| reader.done == all) {
            break;
        }
    }
    for reader in &readers {
        class.release_again(time, reader);
    }
    class.rows.push(format!("waits {}", class.waits));
    class.rows.push(format!("total {}", class.published.len()));
    let unfinished = class.state.in_line.then_some(class.state.position);
    Ok((class.rows, unfinished))
}

impl Class<'_> {
    /// The feeder's turn.
    fn feed(&mut self, time: u64) -> Result<(), Refusal> {
        if self.feeder_done {
            return Ok(());
        }
        match desk::take(&mut self.desk, self.area.len()) {
            Ok(place) => {
                self.say(time, "feeder takes", place, "");
                self.feeder_done = !self.fill(time, place)?;
            }
            Err(number) => {
                self.waits += 1;
                let row = format!("time {time} feeder takes refused {number}");
                self.rows.push(row);
            }
        }
        Ok(())
    }

    /// Plays the recording into a slot, up to the next complete line; whether there
    /// was one.
    fn fill(&mut self, time: u64, place: Place) -> Result<bool, Refusal> {
        let (from, to) = desk::part(place.0);
        let slot = &mut self.area[from..to];
        let answer = reader::read(self.format, self.setting, &mut self.state, self.rest, slot)?;
        self.rest = &self.rest[answer.taken..];
        if answer.complete {
            desk::publish(&mut self.desk, self.area.len(), place)?;
            self.published.push((place, time));
            self.say(time, "feeder publishes", place, "");
        }
        Ok(answer.complete)
    }

    /// A consumer's turn.
    fn follow(&mut self, time: u64, reader: &mut Reader) -> Result<(), Refusal> {
        let Some((place, since)) = self.published.get(reader.done).copied() else {
            return Ok(());
        };
        if time - since < reader.lag {
            return Ok(());
        }
        let (from, to) = desk::seen(&self.desk, self.area.len(), reader.number, place)?;
        let what = self.said_of(&self.area[from..to])?;
        self.say(time, &format!("{} sees", reader.name), place, &what);
        desk::release(&mut self.desk, self.area.len(), reader.number, place)?;
        self.say(time, &format!("{} releases", reader.name), place, "");
        reader.done += 1;
        Ok(())
    }

    /// What is said of a line: its accepted sectors, and the sum of IR1.
    fn said_of(&self, line: &[u8]) -> Result<String, Refusal> {
        let answers = sectors::answers(self.format, line)?;
        let good = answers.iter().filter(|answer| **answer == 0).count();
        let mut pixels = vec![0; IR_PIXELS];
        let sum = match sectors::joined(self.format, line, 1, &mut pixels) {
            Ok(_) => pixels
                .iter()
                .map(|p| u64::from(*p))
                .sum::<u64>()
                .to_string(),
            Err(number) => format!("refused {number}"),
        };
        Ok(format!(" good {good} sum {sum}"))
    }

    /// The old fault: the last line is released a second time.
    fn release_again(&mut self, time: u64, reader: &Reader) {
        if let Some((place, _)) = self.published.last().copied() {
            let again = desk::release(&mut self.desk, self.area.len(), reader.number, place);
            let answer = match again {
                Ok(()) => String::new(),
                Err(number) => format!(" refused {number}"),
            };
            self.say(time, &format!("{} releases", reader.name), place, &answer);
        }
    }

    fn say(&mut self, time: u64, who: &str, (slot, serial): Place, what: &str) {
        let row = format!("time {time} {who} slot {slot} serial {serial}{what}");
        self.rows.push(row);
    }
}
