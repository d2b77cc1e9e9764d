//! A report as the numbers of a call: any that the header's widths allow, possible
//! or not.

use second::report;

/// The numbers of a report: its lines, four of each sector, five of each channel.
pub const NUMBERS: usize = 1 + 4 * 12 + 5 * 4;

// Of a sector.
pub const ACCEPTED: usize = 0;
pub const REMAINDER: usize = 1;
pub const ID: usize = 2;
pub const FILLER: usize = 3;

// Of a channel.
pub const COUNT: usize = 0;
pub const SUM: usize = 1;
pub const LEAST: usize = 2;
pub const LARGEST: usize = 3;
pub const PRESENT: usize = 4;

/// The limit of the report, and what one line allows: document 02.
pub const MOST_LINES: u64 = 100_000;
pub const LINE_FILLER: u64 = 2_048;
pub const LINE_PIXELS: u64 = 2_291;
pub const LINE_SUM: u64 = 2_291 * 1_023;

/// Marks that are neither 0 nor 1, some only by their upper bytes.
pub const WRONG_MARKS: [u64; 6] = [2, 3, 256, 1 << 16, 1 << 31, u32::MAX as u64];

/// In the header's order: sector n at n - 1, channel n at n - 1.
#[derive(Clone, Debug, Default, PartialEq, Eq)]
pub struct Report {
    pub lines: u64,
    pub sectors: [[u64; 4]; 12],
    pub channels: [[u64; 5]; 4],
}

impl Report {
    /// The first numbers of a list.
    pub fn of(numbers: &[u64]) -> Report {
        let (sectors, channels) = numbers[1..NUMBERS].split_at(4 * 12);
        Report {
            lines: numbers[0],
            sectors: std::array::from_fn(|i| std::array::from_fn(|j| sectors[4 * i + j])),
            channels: std::array::from_fn(|i| std::array::from_fn(|j| channels[5 * i + j])),
        }
    }

    pub fn numbers(&self) -> Vec<u64> {
        let sectors = self.sectors.as_flattened();
        [&[self.lines], sectors, self.channels.as_flattened()].concat()
    }

    /// Every sector accepted in all of so many lines, and no pixels.
    pub fn accepted(lines: u64) -> Report {
        Report {
            lines,
            sectors: [[lines, 0, 0, 0]; 12],
            channels: [[0; 5]; 4],
        }
    }

    /// A mark that is neither 0 nor 1.
    pub fn has_wrong_mark(&self) -> bool {
        self.channels.iter().any(|channel| channel[PRESENT] > 1)
    }
}

/// Where a least and a largest are absent, both are 0.
impl From<&report::Report> for Report {
    fn from(report: &report::Report) -> Report {
        Report {
            lines: report.lines,
            sectors: report
                .sectors
                .map(|s| [s.accepted, s.remainder, s.id, s.filler]),
            channels: report.channels.map(|c| {
                let (least, largest) = c.range.map_or((0, 0), |r| (r.least, r.largest));
                let present = c.range.is_some();
                [c.count, c.sum, least.into(), largest.into(), present.into()]
            }),
        }
    }
}
