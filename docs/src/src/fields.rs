//! The documentation fields of a recording as text, for comparing with another
//! decoder. Not a call of the paper: it only writes down what the calls of
//! [`crate::document`] and [`crate::blocks`] answer.
//!
//! Each line N, from 1, gives one row, all of it with single spaces:
//! ```text
//! line N mode M mirror R set A reset B count C position P date D segment S repeat T blocks a b c d e
//! ```
//! M and R are names, or `unnamed` and the byte; P is signed; D is a date and a
//! time as in `2005-01-01 00:00:00.00`. A call refused with K gives
//! `mode refused K`, `mirror refused K`, `set refused K` (for all four line
//! numbers), `date refused K` or `segment refused K` (for segment and repeat).
//! Behind `blocks` stand the answers of adding the line's segment to the blocks
//! 1 to 5, 0 or a refusal.
//!
//! After the last line come, in this order: a row for each block; of the
//! finished ones some grid points, the orbital elements, some albedos and some
//! temperatures; and the number of lines. The row of a block is, with n
//! segments stored,
//! ```text
//! mapping n/25
//! orbit n/25
//! MANAM n/25 revision R foreign M
//! calibration-1 n/25 revision R foreign M
//! calibration-2 n/25 revision R foreign M
//! ```
//! `revision R` stands only behind a finished block, R as the call
//! [`blocks::revision`] gives it. `foreign M` stands only where lines were
//! refused with 14 for this block; M is how many. A block has one assembly for
//! the whole recording, so lines of other tables stay foreign to it. In format
//! 2 the last row is `calibration-2 not in HiRID`.

use crate::blocks::{self, from_place, Assembly, Level};
use crate::blocks::{ALL_MARKS, BLOCKS, CALIBRATION_2, MAPPING, ORBIT};
use crate::document;
use crate::listing;
use crate::numbers::{self, R};
use crate::reader::Recording;
use crate::refusal::{self, Refusal};

/// The names of the blocks, in the order of their numbers.
const NAMES: [&str; 5] = [
    "mapping",
    "orbit",
    "MANAM",
    "calibration-1",
    "calibration-2",
];

/// The grid points asked for at the end: the corners, and one within.
const POINTS: [(usize, usize); 5] = [(0, 0), (0, 24), (24, 0), (24, 24), (12, 13)];

/// The orbital elements: name, place in the block, decimal places.
const ELEMENTS: [(&str, usize, usize); 7] = [
    ("epoch", 157, 8),
    ("axis", 163, 8),
    ("eccentricity", 169, 10),
    ("inclination", 175, 8),
    ("node", 181, 8),
    ("perigee", 187, 8),
    ("anomaly", 193, 8),
];

/// The levels asked of each visible and of each infrared channel.
const VIS_LEVELS: [usize; 3] = [0, 32, 63];
const IR_LEVELS: [usize; 3] = [0, 512, 1_023];

/// The text of an answer, or `refused K`.
fn or_refused<T>(answer: Result<T, Refusal>, text: impl Fn(T) -> String) -> String {
    match answer {
        Ok(answer) => text(answer),
        Err(number) => format!("refused {number}"),
    }
}

/// The row of a plain line, up to its segment and repeat.
fn groups(format_number: usize, number: usize, line: &[u8]) -> String {
    let mode = or_refused(document::scan_mode(format_number, line), |mode| mode.name());
    let mirror = or_refused(document::scanner_select(format_number, line), |mirror| {
        mirror.name()
    });
    let set = or_refused(document::line_numbers(format_number, line), |n| {
        format!(
            "{} reset {} count {} position {}",
            n.set_line, n.reset_line, n.scan_count, n.line_position
        )
    });
    let date = or_refused(document::date(format_number, line), |d| {
        format!(
            "{:04}-{:02}-{:02} {:02}:{:02}:{:02}.{:02}",
            d.year, d.month, d.day, d.hour, d.minute, d.second, d.hundredths
        )
    });
    let segment = or_refused(document::sub_commutation(format_number, line), |sub| {
        format!("{} repeat {}", sub.segment, sub.repeat)
    });
    format!("line {number} mode {mode} mirror {mirror} set {set} date {date} segment {segment}")
}

/// What stands behind an entry's name.
fn entry(answer: Result<R, Refusal>) -> String {
    or_refused(answer, |r| r.to_string())
}

/// Degrees from 0 on one side or the other.
fn degrees(n: i32, above: &str, below: &str) -> String {
    format!("{} {}", n.abs(), if n < 0 { below } else { above })
}

/// The assembly of one block, and how many lines it refused with 14.
struct Kept {
    assembly: Assembly,
    buffer: Vec<u8>,
    foreign: usize,
}

impl Kept {
    fn finished(&self) -> bool {
        self.assembly.marks == ALL_MARKS
    }
}

/// The assemblies of the blocks 1 to 5, and how many lines went into them.
struct Assemblies {
    format: usize,
    blocks: Vec<Kept>,
    lines: usize,
}

impl Assemblies {
    fn new(format: usize) -> Assemblies {
        let empty = |size| Kept {
            assembly: Assembly::default(),
            buffer: vec![0; size],
            foreign: 0,
        };
        Assemblies {
            format,
            blocks: BLOCKS.iter().map(|block| empty(block.size)).collect(),
            lines: 0,
        }
    }

    /// Adds the next line to all five, and gives its row.
    fn row(&mut self, line: &[u8]) -> String {
        self.lines += 1;
        let mut row = groups(self.format, self.lines, line) + " blocks";
        for (index, kept) in self.blocks.iter_mut().enumerate() {
            let (assembly, buffer) = (&mut kept.assembly, &mut kept.buffer);
            let added = blocks::add_segment(self.format, line, index + 1, assembly, buffer);
            if added == Err(refusal::REVISION) {
                kept.foreign += 1;
            }
            row += &format!(" {}", added.err().unwrap_or(0));
        }
        row
    }

    /// How many segments each block has, and of which revision. HiRID has no
    /// calibration-2.
    fn segments(&self) -> Vec<String> {
        let mut rows = Vec::new();
        for (index, kept) in self.blocks.iter().enumerate() {
            let Kept {
                assembly,
                buffer,
                foreign,
            } = kept;
            let mut row = format!("{} {}/25", NAMES[index], assembly.marks.count_ones());
            // Refused where the block is not finished, and for mapping and orbit.
            if let Ok(held) = blocks::revision(self.format, *assembly, index + 1, buffer) {
                row += &format!(" revision {held}");
            }
            if *foreign > 0 {
                row += &format!(" foreign {foreign}");
            }
            rows.push(row);
        }
        if self.format == 2 {
            rows[CALIBRATION_2 - 1] = "calibration-2 not in HiRID".to_string();
        }
        rows
    }

    fn mapping(&self) -> Vec<String> {
        let kept = &self.blocks[MAPPING - 1];
        let point = |&(row, column): &(usize, usize)| {
            let point = blocks::mapping(self.format, kept.assembly, &kept.buffer, row, column);
            let point = or_refused(point, |p| {
                format!(
                    "line {} pixel {} latitude {} longitude {}",
                    p.line,
                    p.pixel,
                    degrees(p.latitude, "north", "south"),
                    degrees(p.longitude, "east", "west")
                )
            });
            format!("mapping row {row} column {column} {point}")
        };
        POINTS.iter().map(point).collect()
    }

    /// The elements with all their places, read where the block has them; that
    /// the call in f64 reads the same is another test.
    fn orbit(&self) -> String {
        let kept = &self.blocks[ORBIT - 1];
        let element = |&(name, place, m): &(&str, usize, usize)| {
            let number = numbers::read_r(from_place(&kept.buffer, place), 6, m);
            format!(" {name} {}", entry(number))
        };
        let elements = or_refused(
            blocks::orbital_elements(self.format, kept.assembly, &kept.buffer),
            |_| ELEMENTS.iter().map(element).collect(),
        );
        format!("orbit{elements}")
    }

    fn levels(&self) -> Vec<String> {
        let kept = &self.blocks[CALIBRATION_2 - 1];
        let (assembly, buffer) = (kept.assembly, &kept.buffer);
        let value = |level: Result<Level, Refusal>| entry(level.map(|level| level.value));
        let mut rows = Vec::new();
        for v in 1..=4 {
            for level in VIS_LEVELS {
                let albedo = value(blocks::albedo(self.format, assembly, buffer, v, level));
                rows.push(format!("albedo VIS{v} level {level} {albedo}"));
            }
        }
        for c in 1..=4 {
            for level in IR_LEVELS {
                let temperature =
                    value(blocks::temperature(self.format, assembly, buffer, c, level));
                rows.push(format!("temperature IR{c} level {level} {temperature}"));
            }
        }
        rows
    }

    /// The rows after the last line.
    fn end(&self) -> Vec<String> {
        let mut rows = self.segments();
        if self.blocks[MAPPING - 1].finished() {
            rows.extend(self.mapping());
        }
        if self.blocks[ORBIT - 1].finished() {
            rows.push(self.orbit());
        }
        if self.blocks[CALIBRATION_2 - 1].finished() {
            rows.extend(self.levels());
        }
        rows.push(listing::total(self.lines));
        rows
    }
}

/// The fields of a recording that comes in pieces, read at one setting.
pub struct Fields {
    recording: Recording,
    assemblies: Assemblies,
}

impl Fields {
    pub fn new(format: usize, setting: usize) -> Fields {
        Fields {
            recording: Recording::new(format, setting),
            assemblies: Assemblies::new(format),
        }
    }

    /// The rows of the lines that a piece completes.
    pub fn feed(&mut self, piece: &[u8]) -> Result<Vec<String>, Refusal> {
        let mut rows = Vec::new();
        self.recording.feed(piece, |line, _end| {
            rows.push(self.assemblies.row(line));
        })?;
        Ok(rows)
    }

    /// The rows after the last line.
    pub fn end(&self) -> Vec<String> {
        self.assemblies.end()
    }

    /// How many bits of an unfinished line are in.
    pub fn unfinished(&self) -> Option<usize> {
        self.recording.unfinished()
    }
}
