//! The report of a pass: one record over all its lines.
//!
//! ```
//! use hansobrik::{put_data, report, LINE_BYTES, S_VISSR};
//!
//! # fn main() -> Result<(), hansobrik::Refusal> {
//! // DOC is written. The other sectors are zeros without their IDs: refused with 6.
//! let mut line = [0; LINE_BYTES];
//! put_data(S_VISSR, &mut line, 1, &[7; 2291])?;
//!
//! let mut pass = report::empty();
//! for _ in 0..3 {
//!     pass = report::with_line(S_VISSR, &pass, &line)?;
//! }
//! assert_eq!((pass.lines, pass.sectors[0].accepted), (3, 3));
//! assert_eq!(pass.sectors[11].id, 3);
//! assert_eq!(pass.channels[3].range, None); // IR4 has no pixels
//!
//! let day = report::together(&pass, &pass)?;
//! assert_eq!(day.lines, 6);
//! # Ok(())
//! # }
//! ```

use crate::raw;
use crate::refusal::{unless, Refusal};

/// A sector over all lines of a report. Accepted, refused with REMAINDER and
/// refused with ID are its lines together.
#[derive(Clone, Copy, Debug, Default, PartialEq, Eq)]
pub struct Tally {
    pub accepted: u64,
    pub remainder: u64,
    pub id: u64,
    /// Its filler bits that were set, in lines that refused it too.
    pub filler: u64,
}

/// The least and the largest of some pixels.
#[derive(Clone, Copy, Debug, PartialEq, Eq)]
pub struct Range {
    pub least: u16,
    pub largest: u16,
}

/// The ten-bit pixels of an infrared channel over all lines of a report: IR1 to
/// IR3 of the lines in which the upper and the lower sector were both accepted,
/// IR4 of those in which its sector was.
#[derive(Clone, Copy, Debug, Default, PartialEq, Eq)]
pub struct Channel {
    pub count: u64,
    pub sum: u64,
    /// None where there are no pixels.
    pub range: Option<Range>,
}

/// One record over all lines of a pass. Sector n stands at n - 1, IRn at n - 1.
/// The default is that of no line.
#[derive(Clone, Copy, Debug, Default, PartialEq, Eq)]
pub struct Report {
    pub lines: u64,
    pub sectors: [Tally; 12],
    pub channels: [Channel; 4],
}

impl From<Tally> for raw::SectorTally {
    fn from(t: Tally) -> raw::SectorTally {
        raw::SectorTally {
            accepted: t.accepted,
            remainder: t.remainder,
            id: t.id,
            filler: t.filler,
        }
    }
}

impl From<raw::SectorTally> for Tally {
    fn from(t: raw::SectorTally) -> Tally {
        Tally {
            accepted: t.accepted,
            remainder: t.remainder,
            id: t.id,
            filler: t.filler,
        }
    }
}

impl From<Channel> for raw::ChannelTally {
    fn from(c: Channel) -> raw::ChannelTally {
        raw::ChannelTally {
            count: c.count,
            sum: c.sum,
            least: c.range.map_or(0, |range| range.least),
            largest: c.range.map_or(0, |range| range.largest),
            present: c.range.is_some().into(),
        }
    }
}

impl From<raw::ChannelTally> for Channel {
    fn from(c: raw::ChannelTally) -> Channel {
        let range = Range {
            least: c.least,
            largest: c.largest,
        };
        Channel {
            count: c.count,
            sum: c.sum,
            range: (c.present != 0).then_some(range),
        }
    }
}

impl From<&Report> for raw::PassReport {
    fn from(r: &Report) -> raw::PassReport {
        raw::PassReport {
            lines: r.lines,
            sectors: r.sectors.map(Into::into),
            channels: r.channels.map(Into::into),
        }
    }
}

impl From<raw::PassReport> for Report {
    fn from(r: raw::PassReport) -> Report {
        Report {
            lines: r.lines,
            sectors: r.sectors.map(Into::into),
            channels: r.channels.map(Into::into),
        }
    }
}

/// The report of no line: every number 0, no range.
pub fn empty() -> Report {
    // SAFETY: it takes nothing.
    unsafe { raw::hansobrik_empty_report() }.into()
}

/// A report with one line more. Refused with FORMAT, STATE, FULL, SHORT_INPUT.
///
/// A report is impossible, STATE, where it has over
/// [`REPORT_LINES`](crate::REPORT_LINES) lines, where accepted, remainder and id
/// of a sector are not its lines together, or where filler, count or sum are
/// above what so many lines have: 2,048 bits in a sector, 2,291 pixels in a
/// channel, 1,023 in a pixel. Nothing else is asked of it.
pub fn with_line(format: u8, report: &Report, line: &[u8]) -> Result<Report, Refusal> {
    // SAFETY: the pointer and the count are those of one slice.
    let a = unsafe { raw::hansobrik_with_line(format, report.into(), line.as_ptr(), line.len()) };
    unless(a.refused, a.report.into())
}

/// The report of two passes one after the other: the two added, with the lesser
/// least and the greater largest of those that there are. Refused with STATE, of
/// the first and then of the second, and FULL.
pub fn together(first: &Report, second: &Report) -> Result<Report, Refusal> {
    // SAFETY: numbers only.
    let a = unsafe { raw::hansobrik_together(first.into(), second.into()) };
    unless(a.refused, a.report.into())
}
