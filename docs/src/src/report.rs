//! Document 02, T-05: "After each pass I want one record over all its lines:
//! lines found, for each of the 12 sectors how many were accepted and how many
//! refused with 5 and with 6, filler bits set, and for IR1-3 over accepted pairs
//! and IR4 over its accepted sector the count, sum, least and largest of the
//! ten-bit pixels. Accepted, 5 and 6 together equal the lines found. The record
//! for two passes one after the other is the two records added, with the lesser
//! least and the greater largest; those of no pixels are marked absent. The
//! report takes at most 100,000 lines. Refusals: 12 for a record over the limit,
//! with sector counts that do not add up, or a count or sum above what its lines
//! allow; 15, tested after 12, for one line more, or two records together over
//! the limit."
//!
//! Filler bits are counted sector by sector, as document 01 counts them, those of
//! refused sectors too. A pair is the upper and the lower sector of one channel,
//! both accepted.
//!
//! The rows of `second report` are, with single spaces:
//! ```text
//! lines N
//! sector 1 accepted A remainder R id I filler F
//! ..
//! IR1 pixels C sum S least L largest M
//! ..
//! ```
//! for the sectors 1 to 12 and for IR1 to IR4; R and I are refused with 5 and
//! with 6. Without pixels it is `least none largest none`.

use crate::format::{format, LINE_BYTES};
use crate::reader::Recording;
use crate::refusal::{self, refuse_if, Refusal};
use crate::sectors::{self, FILLER_BITS, IR_PIXELS};

/// "The report takes at most 100,000 lines."
pub const MOST_LINES: u64 = 100_000;

/// The largest pixel of ten bits.
const LARGEST_PIXEL: u128 = 1_023;

/// One sector over all lines.
#[derive(Clone, Copy, Debug, Default, PartialEq, Eq)]
pub struct Tally {
    /// Lines in which it was accepted, ...
    pub accepted: u64,
    /// ... refused with 5, ...
    pub remainder: u64,
    /// ... and refused with 6.
    pub id: u64,
    /// Filler bits that were set, in whichever lines.
    pub filler: u64,
}

/// The least and the largest pixel.
#[derive(Clone, Copy, Debug, PartialEq, Eq)]
pub struct Range {
    pub least: u16,
    pub largest: u16,
}

/// One infrared channel over all lines.
#[derive(Clone, Copy, Debug, Default, PartialEq, Eq)]
pub struct Channel {
    /// Pixels.
    pub count: u64,
    pub sum: u64,
    /// None where it is marked absent.
    pub range: Option<Range>,
}

/// The record. Sector n stands at n - 1, IRn at n - 1. The default is that of no
/// line. The caller keeps it and may make it up.
#[derive(Clone, Copy, Debug, Default, PartialEq, Eq)]
pub struct Report {
    pub lines: u64,
    pub sectors: [Tally; 12],
    pub channels: [Channel; 4],
}

impl Channel {
    /// One pixel more.
    fn take(&mut self, pixel: u16) {
        self.count += 1;
        self.sum += u64::from(pixel);
        let only = Range {
            least: pixel,
            largest: pixel,
        };
        self.range = both(self.range, Some(only));
    }
}

/// "the lesser least and the greater largest; those of no pixels are marked
/// absent": the mark alone says so, also where a record was made up.
fn both(first: Option<Range>, second: Option<Range>) -> Option<Range> {
    match (first, second) {
        (Some(a), Some(b)) => Some(Range {
            least: a.least.min(b.least),
            largest: a.largest.max(b.largest),
        }),
        (Some(one), None) | (None, Some(one)) => Some(one),
        (None, None) => None,
    }
}

/// "a record over the limit, with sector counts that do not add up, or a count
/// or sum above what its lines allow": a line has 2,048 filler bits in each
/// sector and 2,291 pixels in each channel, none of them over 1,023. This list
/// and nothing else; any other record is served, also one that no lines lead to.
/// The numbers have 64 bits and may be made up, so sums of them need more.
pub fn impossible(report: &Report) -> bool {
    let lines = u128::from(report.lines);
    let most_filler = lines * FILLER_BITS as u128;
    let most_pixels = lines * IR_PIXELS as u128;
    let most_sum = most_pixels * LARGEST_PIXEL;

    let over_the_limit = report.lines > MOST_LINES;
    let counts_do_not_add_up = report.sectors.iter().any(|sector| {
        let counts = [sector.accepted, sector.remainder, sector.id];
        counts.map(u128::from).iter().sum::<u128>() != lines
    });
    let filler_above =
        (report.sectors.iter()).any(|sector| u128::from(sector.filler) > most_filler);
    let count_above = (report.channels.iter()).any(|ir| u128::from(ir.count) > most_pixels);
    let sum_above = (report.channels.iter()).any(|ir| u128::from(ir.sum) > most_sum);

    over_the_limit || counts_do_not_add_up || filler_above || count_above || sum_above
}

/// The ten-bit pixels of IR1 to IR4 in a line; none where a sector that they
/// stand in is not accepted.
fn pixels(format_number: usize, line: &[u8], channel: usize) -> Option<Vec<u16>> {
    let mut pixels = vec![0; IR_PIXELS];
    let answer = match channel {
        4 => sectors::pixels(format_number, line, 12, &mut pixels),
        _ => sectors::joined(format_number, line, channel, &mut pixels),
    };
    answer.is_ok().then_some(pixels)
}

/// The record with one line more. Refusals 1, 12, 15, 2.
pub fn with_line(format_number: usize, report: &Report, line: &[u8]) -> Result<Report, Refusal> {
    format(format_number)?;
    refuse_if(impossible(report), refusal::STATE)?;
    refuse_if(report.lines + 1 > MOST_LINES, refusal::FULL)?;
    refuse_if(line.len() < LINE_BYTES, refusal::SHORT_INPUT)?;

    let mut after = *report;
    after.lines += 1;
    for (index, answer) in sectors::answers(format_number, line)?
        .into_iter()
        .enumerate()
    {
        let sector = &mut after.sectors[index];
        match answer {
            0 => sector.accepted += 1,
            refusal::REMAINDER => sector.remainder += 1,
            refusal::ID => sector.id += 1,
            other => unreachable!("a sector is not refused with {other}"),
        }
        sector.filler += sectors::filler(format_number, line, index + 1)? as u64;
    }
    for (index, channel) in after.channels.iter_mut().enumerate() {
        for pixel in pixels(format_number, line, index + 1).unwrap_or_default() {
            channel.take(pixel);
        }
    }
    Ok(after)
}

/// "The record for two passes one after the other is the two records added".
/// Refusals 12, of the first and then of the second, and 15.
pub fn together(first: &Report, second: &Report) -> Result<Report, Refusal> {
    refuse_if(impossible(first), refusal::STATE)?;
    refuse_if(impossible(second), refusal::STATE)?;
    refuse_if(first.lines + second.lines > MOST_LINES, refusal::FULL)?;

    Ok(Report {
        lines: first.lines + second.lines,
        sectors: std::array::from_fn(|i| {
            let (a, b) = (first.sectors[i], second.sectors[i]);
            Tally {
                accepted: a.accepted + b.accepted,
                remainder: a.remainder + b.remainder,
                id: a.id + b.id,
                filler: a.filler + b.filler,
            }
        }),
        channels: std::array::from_fn(|i| {
            let (a, b) = (first.channels[i], second.channels[i]);
            Channel {
                count: a.count + b.count,
                sum: a.sum + b.sum,
                range: both(a.range, b.range),
            }
        }),
    })
}

/// The rows of a report.
pub fn rows(report: &Report) -> Vec<String> {
    let mut rows = vec![format!("lines {}", report.lines)];
    for (number, s) in (1..).zip(&report.sectors) {
        rows.push(format!(
            "sector {number} accepted {} remainder {} id {} filler {}",
            s.accepted, s.remainder, s.id, s.filler
        ));
    }
    for (number, ir) in (1..).zip(&report.channels) {
        let (least, largest) = match ir.range {
            Some(range) => (range.least.to_string(), range.largest.to_string()),
            None => ("none".to_string(), "none".to_string()),
        };
        rows.push(format!(
            "IR{number} pixels {} sum {} least {least} largest {largest}",
            ir.count, ir.sum
        ));
    }
    rows
}

/// The report of a recording that comes in pieces, read at one setting.
pub struct Pass {
    format: usize,
    recording: Recording,
    /// So far.
    pub report: Report,
}

impl Pass {
    pub fn new(format: usize, setting: usize) -> Pass {
        Pass {
            format,
            recording: Recording::new(format, setting),
            report: Report::default(),
        }
    }

    /// Takes the lines that a piece completes. Where one is refused, with 15, the
    /// report stays as it was before it.
    pub fn feed(&mut self, piece: &[u8]) -> Result<(), Refusal> {
        let mut refused = Ok(());
        self.recording.feed(piece, |line, _end| {
            if refused.is_ok() {
                match with_line(self.format, &self.report, line) {
                    Ok(after) => self.report = after,
                    Err(number) => refused = Err(number),
                }
            }
        })?;
        refused
    }

    /// How many bits of an unfinished line are in.
    pub fn unfinished(&self) -> Option<usize> {
        self.recording.unfinished()
    }
}
