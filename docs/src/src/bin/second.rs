//! The second decoder as a program.
//!
//! - `second signal N FORMAT [W [T]]` writes a recording of N lines of the test
//!   pattern in format 1, 2 or 3, with W wrong bits in each tail and new tables
//!   from line T on; `second::pattern` says exactly what it is.
//! - `second listing [FORMAT [SETTING]] < recording` lists the lines of a
//!   recording. The format is 1 and the setting 0 where they are left out.
//! - `second fields [FORMAT [SETTING]] < recording` writes the documentation
//!   fields of every line, then what the assembled blocks say; see
//!   `second::fields`.
//! - `second report [FORMAT [SETTING]] < recording` writes the report of a
//!   recording; see `second::report`. Where it has over 100,000 lines nothing is
//!   written and the status is 1.
//! - `second class FORMAT SETTING SLOTS PREVIEW CAPTURE < recording` writes what
//!   comes of a class over an area of so many slots, in which preview and capture
//!   are so many line times behind the feeder; see `second::class`.
//! - `second damaged N FORMAT` writes the recording of `signal N FORMAT` with
//!   damage in its sectors; `second::damage` says exactly which.
//! - `second vectors` prints worked values of the paper's edges.
//! - `second zeros` writes one line of zeros with right IDs, check words and
//!   filler, in format 1.

use std::error::Error;
use std::fmt;
use std::io::{self, Read, Write};
use std::process::ExitCode;

use second::fields::Fields;
use second::listing::Listing;
use second::report::{self, Pass};
use second::scramble::TAIL_BITS;
use second::{class, damage, pattern, reader, refusal, vectors};

const USAGE: &str = "usage: second signal N FORMAT [W [T]]
       second listing [FORMAT [SETTING]] < recording
       second fields [FORMAT [SETTING]] < recording
       second report [FORMAT [SETTING]] < recording
       second class FORMAT SETTING SLOTS PREVIEW CAPTURE < recording
       second damaged N FORMAT
       second vectors
       second zeros
FORMAT is 1 (S-VISSR), 2 (HiRID) or 3 (S-VISSR, the check from ones)";

type Outcome = Result<(), Box<dyn Error>>;

/// A refusal that ends the program.
#[derive(Debug)]
struct Refused(refusal::Refusal);

impl fmt::Display for Refused {
    fn fmt(&self, f: &mut fmt::Formatter<'_>) -> fmt::Result {
        write!(f, "refusal {}", self.0)
    }
}

impl Error for Refused {}

fn refused(number: refusal::Refusal) -> Box<dyn Error> {
    Refused(number).into()
}

/// The exit status of an error: 1 for a recording with too many lines for a
/// report, which is nobody's mistake, 2 for all others.
fn status(error: &(dyn Error + 'static)) -> u8 {
    match error.downcast_ref() {
        Some(Refused(refusal::FULL)) => 1,
        _ => 2,
    }
}

fn signal(lines: u64, format: usize, wrong: usize, tables: u64) -> Outcome {
    second::format::format(format).map_err(refused)?;
    if wrong > TAIL_BITS {
        return Err(format!("not a number of wrong bits, 0 to 64: {wrong}").into());
    }
    if tables > pattern::LAST_TABLES {
        return Err(format!("not the line of new tables, 0 to 1000000: {tables}").into());
    }
    let mut out = io::stdout().lock();
    for k in 0..lines {
        out.write_all(&pattern::signal(format, k, wrong, tables).map_err(refused)?)?;
    }
    Ok(out.flush()?)
}

/// Writes rows, one a line.
fn print(rows: impl IntoIterator<Item = String>) -> Outcome {
    let mut out = io::stdout().lock();
    for row in rows {
        writeln!(out, "{row}")?;
    }
    Ok(())
}

/// Says on standard error that the recording stops inside a line.
fn tell(unfinished: Option<usize>) {
    if let Some(bits) = unfinished {
        eprintln!("{}", second::listing::unfinished(bits));
    }
}

/// Hands the recording over in pieces, and writes the rows that each gives.
fn follow(mut feed: impl FnMut(&[u8]) -> Result<Vec<String>, refusal::Refusal>) -> Outcome {
    let mut recording = io::stdin().lock();
    let mut piece = vec![0; 65_536];
    loop {
        let length = recording.read(&mut piece)?;
        if length == 0 {
            return Ok(());
        }
        print(feed(&piece[..length]).map_err(refused)?)?;
    }
}

/// Refuses a format or a setting that is not served, also where nothing is
/// read.
fn served(format: usize, setting: usize) -> Outcome {
    second::format::format(format).map_err(refused)?;
    reader::served(setting).map_err(refused)
}

fn listing(format: usize, setting: usize) -> Outcome {
    served(format, setting)?;
    let mut listing = Listing::new(format, setting);
    follow(|piece| listing.feed(piece))?;
    tell(listing.unfinished());
    print([listing.total()])
}

fn fields(format: usize, setting: usize) -> Outcome {
    served(format, setting)?;
    let mut fields = Fields::new(format, setting);
    follow(|piece| fields.feed(piece))?;
    tell(fields.unfinished());
    print(fields.end())
}

fn report(format: usize, setting: usize) -> Outcome {
    served(format, setting)?;
    let mut pass = Pass::new(format, setting);
    follow(|piece| pass.feed(piece).map(|()| vec![]))?;
    tell(pass.unfinished());
    print(report::rows(&pass.report))
}

/// The recording is read whole: the feeder is done where nothing of it is left.
fn class(format: usize, setting: usize, slots: usize, lags: [u64; 2]) -> Outcome {
    let mut recording = vec![];
    io::stdin().lock().read_to_end(&mut recording)?;
    let (rows, unfinished) =
        class::rows(format, setting, slots, lags, &recording).map_err(refused)?;
    tell(unfinished);
    print(rows)
}

fn damaged(lines: u64, format: usize) -> Outcome {
    second::format::format(format).map_err(refused)?;
    let mut out = io::stdout().lock();
    for k in 0..lines {
        let line = damage::damaged_line(format, k).map_err(refused)?;
        out.write_all(&pattern::on_the_wire(format, &line).map_err(refused)?)?;
    }
    Ok(out.flush()?)
}

fn zeros() -> Outcome {
    let line = pattern::line_of_zeros(1).map_err(refused)?;
    let wire = pattern::on_the_wire(1, &line).map_err(refused)?;
    Ok(io::stdout().lock().write_all(&wire)?)
}

fn run(words: &[&str]) -> Outcome {
    match words {
        ["signal", lines, format] => signal(lines.parse()?, format.parse()?, 0, 0),
        ["signal", lines, format, wrong] => {
            signal(lines.parse()?, format.parse()?, wrong.parse()?, 0)
        }
        ["signal", lines, format, wrong, tables] => signal(
            lines.parse()?,
            format.parse()?,
            wrong.parse()?,
            tables.parse()?,
        ),
        ["listing"] => listing(1, 0),
        ["listing", format] => listing(format.parse()?, 0),
        ["listing", format, setting] => listing(format.parse()?, setting.parse()?),
        ["fields"] => fields(1, 0),
        ["fields", format] => fields(format.parse()?, 0),
        ["fields", format, setting] => fields(format.parse()?, setting.parse()?),
        ["report"] => report(1, 0),
        ["report", format] => report(format.parse()?, 0),
        ["report", format, setting] => report(format.parse()?, setting.parse()?),
        ["class", format, setting, slots, preview, capture] => class(
            format.parse()?,
            setting.parse()?,
            slots.parse()?,
            [preview.parse()?, capture.parse()?],
        ),
        ["damaged", lines, format] => damaged(lines.parse()?, format.parse()?),
        ["vectors"] => print(vectors::rows()),
        ["zeros"] => zeros(),
        _ => Err(USAGE.into()),
    }
}

fn main() -> ExitCode {
    let words: Vec<String> = std::env::args().skip(1).collect();
    let words: Vec<&str> = words.iter().map(String::as_str).collect();
    match run(&words) {
        Ok(()) => ExitCode::SUCCESS,
        Err(error) => {
            eprintln!("{error}");
            ExitCode::from(status(error.as_ref()))
        }
    }
}

#[cfg(test)]
mod tests {
    use super::*;

    /// A recording of 100,001 lines has 4.5 GB, so the error alone is looked at.
    #[test]
    fn a_report_that_is_full_has_a_status_of_its_own() {
        let full = refused(refusal::FULL);
        assert_eq!(full.to_string(), "refusal 15");
        assert_eq!(status(full.as_ref()), 1);
        assert_eq!(status(refused(refusal::FORMAT).as_ref()), 2);
        assert_eq!(status(run(&["report", "7"]).unwrap_err().as_ref()), 2);
        assert_eq!(status(run(&["reports"]).unwrap_err().as_ref()), 2);
    }
}
