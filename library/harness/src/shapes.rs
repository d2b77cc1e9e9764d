//! What several rows share: numbers handed in, buffers, fields of answers,
//! refusals. Names are the header's.

use crate::desk;
use crate::report::NUMBERS;
use crate::rows::{Kept, Part};

pub type Numbers = &'static [(&'static str, u32)];
pub type Parts = &'static [Part];
pub type Fields = &'static [&'static str];
pub type Refusals = &'static [u8];

// Numbers handed in, and the bits of each.
pub const FORMAT: Numbers = &[("format", 8)];
pub const REGISTER: Numbers = &[("register_", 16)];
pub const SECTOR: Numbers = &[("format", 8), ("sector", 8)];
pub const CHANNEL: Numbers = &[("format", 8), ("channel", 8)];
pub const READING: Numbers = &[
    ("format", 8),
    ("setting", 8),
    ("position", 64),
    ("search", 64),
    ("register_", 16),
    ("in_line", 8),
    ("search_count", 8),
    ("unread", 8),
    ("unread_count", 8),
    ("waiting", 8),
    ("waiting_count", 8),
];
pub const SIZE: Numbers = &[("n", 64)];
pub const R_FORM: Numbers = &[("n", 64), ("m", 8)];
pub const R_PUT: Numbers = &[("negative", 1), ("magnitude", 64), ("n", 64), ("m", 8)];
pub const FIELD: Numbers = &[("format", 8), ("place", 64), ("n", 64)];
pub const R_FIELD: Numbers = &[("format", 8), ("place", 64), ("n", 64), ("m", 8)];
pub const ASSEMBLED: Numbers = &[
    ("format", 8),
    ("marks", 32),
    ("calibration", 16),
    ("manam", 16),
];
pub const NUMBERED: Numbers = &[
    ("format", 8),
    ("marks", 32),
    ("calibration", 16),
    ("manam", 16),
    ("number", 8),
];
pub const POINT: Numbers = &[
    ("format", 8),
    ("marks", 32),
    ("calibration", 16),
    ("manam", 16),
    ("row", 16),
    ("column", 16),
];
pub const LEVEL: Numbers = &[
    ("format", 8),
    ("marks", 32),
    ("calibration", 16),
    ("manam", 16),
    ("channel", 8),
    ("level", 16),
];

// A report, of which every number of every sector and channel has a name.
macro_rules! sector {
    ($place:literal) => {
        [
            (concat!("sectors[", $place, "].accepted"), 64),
            (concat!("sectors[", $place, "].remainder"), 64),
            (concat!("sectors[", $place, "].id"), 64),
            (concat!("sectors[", $place, "].filler"), 64),
        ]
    };
}
macro_rules! channel {
    ($place:literal) => {
        [
            (concat!("channels[", $place, "].count"), 64),
            (concat!("channels[", $place, "].sum"), 64),
            (concat!("channels[", $place, "].least"), 16),
            (concat!("channels[", $place, "].largest"), 16),
            (concat!("channels[", $place, "].present"), 32),
        ]
    };
}
#[rustfmt::skip] // a table: four sectors or channels a line
const SECTOR_TALLIES: [[(&str, u32); 4]; 12] = [
    sector!(0), sector!(1), sector!(2), sector!(3),
    sector!(4), sector!(5), sector!(6), sector!(7),
    sector!(8), sector!(9), sector!(10), sector!(11),
];
const CHANNEL_TALLIES: [[(&str, u32); 5]; 4] = [channel!(0), channel!(1), channel!(2), channel!(3)];

/// The elements of one list, then those of another: so many in all.
const fn both<T: Copy, const ALL: usize>(one: &[T], other: &[T]) -> [T; ALL] {
    let mut all = [one[0]; ALL];
    let mut i = 0;
    while i < ALL {
        all[i] = if i < one.len() {
            one[i]
        } else {
            other[i - one.len()]
        };
        i += 1;
    }
    all
}

const fn names<const ALL: usize>(numbers: [(&'static str, u32); ALL]) -> [&'static str; ALL] {
    let mut names = [""; ALL];
    let mut i = 0;
    while i < ALL {
        names[i] = numbers[i].0;
        i += 1;
    }
    names
}

const OF_SECTORS: [(&str, u32); 49] = both(&[("lines", 64)], SECTOR_TALLIES.as_flattened());
const OF_REPORT: [(&str, u32); NUMBERS] = both(&OF_SECTORS, CHANNEL_TALLIES.as_flattened());
pub const REPORTING: Numbers = &both::<_, 70>(FORMAT, &OF_REPORT);
pub const TWO_REPORTS: Numbers = &both::<_, 138>(&OF_REPORT, &OF_REPORT);

// A desk, likewise.
macro_rules! slot {
    ($place:literal) => {
        [
            (concat!("slots[", $place, "].serial"), 32),
            (concat!("slots[", $place, "].used"), 16),
            (concat!("slots[", $place, "].holders"), 16),
        ]
    };
}
#[rustfmt::skip] // a table: four slots a line
const SLOTS: [[(&str, u32); 3]; 8] = [
    slot!(0), slot!(1), slot!(2), slot!(3),
    slot!(4), slot!(5), slot!(6), slot!(7),
];
const OF_DESK: [(&str, u32); desk::NUMBERS] =
    both(&[("count", 32), ("last", 32)], SLOTS.as_flattened());
pub const COUNTED: Numbers = &[("count", 32)];
pub const TAKING: Numbers = &both::<_, 27>(&OF_DESK, &[("area", 64)]);
pub const PUBLISHING: Numbers =
    &both::<_, 29>(&OF_DESK, &[("area", 64), ("slot", 64), ("serial", 32)]);
const OF_HOLD: Numbers = &[("area", 64), ("consumer", 8), ("slot", 64), ("serial", 32)];
pub const HOLDING: Numbers = &both::<_, 30>(&OF_DESK, OF_HOLD);

const fn part(what: &'static str, words: bool, written: bool) -> Part {
    Part {
        what,
        words,
        written,
    }
}

// Buffers: of bytes or of 16-bit numbers; only read, or written too.
pub const LINE: Part = part("line", false, false);
pub const LINE_WRITTEN: Part = part("line", false, true);
pub const PIECE: Part = part("piece", false, false);
pub const BYTES: Part = part("bytes", false, false);
pub const PIXELS: Part = part("pixels", false, false);
pub const PIXELS_WIDE: Part = part("pixels", true, false);
pub const BLOCK: Part = part("block", false, false);
pub const BLOCK_WRITTEN: Part = part("block", false, true);
pub const OUT: Part = part("out", false, true);
pub const OUT_WIDE: Part = part("out", true, true);
pub const STRIP: Part = part("strip", false, true);
pub const REGISTER_LENT: Part = part("register_", true, true);

// Fields of the answers.
pub const VERSION: Fields = &["version"];
pub const ALONE: Fields = &["refused"];
pub const COUNT: Fields = &["refused", "count"];
pub const LENGTHS: Fields = &[
    "refused",
    "number",
    "check_start",
    "sync_bits",
    "information_bits",
    "dummy_bits",
    "bytes",
];
pub const STEPPED: Fields = &["refused", "bit", "register_"];
pub const RECORD: Fields = &[
    "position",
    "search",
    "register_",
    "in_line",
    "search_count",
    "unread",
    "unread_count",
    "waiting",
    "waiting_count",
];
pub const READ: Fields = &[
    "refused",
    "complete",
    "taken",
    "position",
    "search",
    "register_",
    "in_line",
    "search_count",
    "unread",
    "unread_count",
    "waiting",
    "waiting_count",
];
pub const TWELVE: Fields = &[
    "refused",
    "answers[0]",
    "answers[1]",
    "answers[2]",
    "answers[3]",
    "answers[4]",
    "answers[5]",
    "answers[6]",
    "answers[7]",
    "answers[8]",
    "answers[9]",
    "answers[10]",
    "answers[11]",
];
pub const PARTS: Fields = &["refused", "vis[0]", "vis[1]", "vis[2]", "vis[3]"];
pub const VALUE: Fields = &["refused", "value"];
pub const REAL: Fields = &["refused", "negative", "places", "magnitude"];
pub const NAMED: Fields = &["refused", "name", "byte"];
pub const LINES: Fields = &[
    "refused",
    "set_line",
    "reset_line",
    "scan_count",
    "position",
];
pub const DATED: Fields = &[
    "refused",
    "month",
    "day",
    "hour",
    "minute",
    "second",
    "hundredths",
    "year",
];
pub const SEGMENT: Fields = &["refused", "segment", "repeat"];
pub const ASSEMBLY: Fields = &["marks", "calibration", "manam"];
pub const ADDED: Fields = &[
    "refused",
    "first_copy",
    "segment",
    "marks",
    "calibration",
    "manam",
];
pub const REVISED: Fields = &["refused", "revision"];
pub const GRID: Fields = &["refused", "line", "pixel", "latitude", "longitude"];
pub const LEVEL_REAL: Fields = &["refused", "negative", "places", "revision", "magnitude"];
pub const LEVEL_FLOAT: Fields = &["refused", "revision", "value"];
pub const ORBIT: Fields = &[
    "refused",
    "epoch",
    "axis",
    "eccentricity",
    "inclination",
    "node",
    "perigee",
    "anomaly",
];

pub const REPORT: Fields = &names(OF_REPORT);
pub const REPORTED: Fields = &both::<_, 70>(ALONE, REPORT);
pub const DESK: Fields = &both::<_, 27>(ALONE, &names(OF_DESK));
pub const TAKEN: Fields = &both::<_, 29>(&["refused", "serial", "slot"], &names(OF_DESK));
pub const SEEN: Fields = &["refused", "from", "to"];

// What comes back as it was handed in where a call is refused.
pub const KEEPS_NOTHING: Kept = Kept {
    field: 0,
    number: 0,
    count: 0,
};
pub const KEEPS_REGISTER: Kept = Kept {
    field: 2,
    number: 0,
    count: 1,
};
pub const KEEPS_RECORD: Kept = Kept {
    field: 3,
    number: 2,
    count: 9,
};
pub const KEEPS_ASSEMBLY: Kept = Kept {
    field: 3,
    number: 1,
    count: 3,
};

pub const KEEPS_REPORT: Kept = Kept {
    field: 1,
    number: 1,
    count: NUMBERS,
};
pub const KEEPS_FIRST_REPORT: Kept = Kept {
    field: 1,
    number: 0,
    count: NUMBERS,
};

pub const KEEPS_COUNT: Kept = Kept {
    field: 1,
    number: 0,
    count: 1,
};
pub const KEEPS_DESK: Kept = Kept {
    field: 1,
    number: 0,
    count: desk::NUMBERS,
};
pub const KEEPS_DESK_BEHIND: Kept = Kept {
    field: 3,
    number: 0,
    count: desk::NUMBERS,
};

// Refusals, in the order in which they are tested.
pub const DECODED: Refusals = &[1, 4, 2, 3, 5, 6];
pub const DOC: Refusals = &[1, 2, 5, 6];
pub const DOC_FIELD: Refusals = &[1, 2, 5, 6, 7];
pub const PLACED: Refusals = &[1, 10, 2, 5, 6];
pub const ENTRY: Refusals = &[1, 12, 4, 10, 2, 9];
