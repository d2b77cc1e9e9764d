//! The report of a pass.

use second::format::format;
use second::refusal::{self, refuse_if};
use second::report::{self, Channel, Range, Tally};

use super::Answer;
use crate::call::Lent;
use crate::report::{Report, NUMBERS};

/// The record in the header's order.
fn fields(report: &report::Report) -> Vec<u64> {
    Report::from(report).numbers()
}

/// The second decoder has no marks: what is not there has no least and largest
/// either. So a mark that is neither 0 nor 1 is refused here.
fn record(numbers: &[u64]) -> Result<report::Report, u8> {
    let report = Report::of(numbers);
    refuse_if(report.has_wrong_mark(), refusal::STATE)?;
    Ok(report::Report {
        lines: report.lines,
        sectors: report
            .sectors
            .map(|[accepted, remainder, id, filler]| Tally {
                accepted,
                remainder,
                id,
                filler,
            }),
        channels: report
            .channels
            .map(|[count, sum, least, largest, present]| {
                let range = Range {
                    least: least as u16,
                    largest: largest as u16,
                };
                Channel {
                    count,
                    sum,
                    range: (present == 1).then_some(range),
                }
            }),
    })
}

pub fn empty() -> Vec<u64> {
    fields(&report::Report::default())
}

pub fn with_line(n: &[u64], lent: &mut [Lent]) -> Answer {
    let number = n[0] as usize;
    format(number)?;
    let after = report::with_line(number, &record(&n[1..])?, lent[0].bytes())?;
    Ok(fields(&after))
}

pub fn together(n: &[u64]) -> Answer {
    let (first, second) = (record(n)?, record(&n[NUMBERS..])?);
    Ok(fields(&report::together(&first, &second)?))
}
