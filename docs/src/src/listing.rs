//! "A listing program reads a recording of format 1. For one written line of
//! zeros with right IDs, check words and filler it writes, whole:
//! ```text
//! line 1 good 12 filler 0
//! total 1
//! ```
//! "
//!
//! `good` is how many of the twelve sectors are accepted, `filler` how many
//! filler bits of all twelve are set. Lines are counted from 1. A recording
//! without a line gives `total 0`. The other formats are listed likewise.

use crate::reader::Recording;
use crate::refusal::Refusal;
use crate::sectors;

/// The row of a plain line.
pub fn row(format_number: usize, number: usize, line: &[u8]) -> Result<String, Refusal> {
    let mut good = 0;
    let mut filler = 0;
    for sector in 1..=12 {
        if sectors::accepted(format_number, line, sector).is_ok() {
            good += 1;
        }
        filler += sectors::filler(format_number, line, sector)?;
    }
    Ok(format!("line {number} good {good} filler {filler}"))
}

/// The last row.
pub fn total(lines: usize) -> String {
    format!("total {lines}")
}

/// What is said of a recording that stops inside a line.
pub fn unfinished(bits: usize) -> String {
    format!("an unfinished line, {bits} of 354848 bits")
}

/// A listing of a recording that comes in pieces, read at one setting.
pub struct Listing {
    format: usize,
    recording: Recording,
    lines: usize,
}

impl Listing {
    pub fn new(format: usize, setting: usize) -> Listing {
        Listing {
            format,
            recording: Recording::new(format, setting),
            lines: 0,
        }
    }

    /// The rows of the lines that a piece completes.
    pub fn feed(&mut self, piece: &[u8]) -> Result<Vec<String>, Refusal> {
        let mut rows = Vec::new();
        self.recording.feed(piece, |line, _end| {
            self.lines += 1;
            rows.push(row(self.format, self.lines, line));
        })?;
        rows.into_iter().collect()
    }

    /// The last row.
    pub fn total(&self) -> String {
        total(self.lines)
    }

    /// How many bits of an unfinished line are in.
    pub fn unfinished(&self) -> Option<usize> {
        self.recording.unfinished()
    }
}

/// The whole listing of a recording at a setting, from the plain definition of
/// its lines.
pub fn of_recording(
    format_number: usize,
    setting: usize,
    recording: &[u8],
) -> Result<String, Refusal> {
    let lines = crate::lines::lines(setting, &crate::bits::from_bytes(recording));
    let mut text = String::new();
    for (index, line) in lines.iter().enumerate() {
        text += &row(format_number, index + 1, &line.bytes)?;
        text += "\n";
    }
    Ok(text + &total(lines.len()) + "\n")
}
