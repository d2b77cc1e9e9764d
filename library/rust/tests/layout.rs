//! The records as the header lays them out, for 64-bit machines. The numbers
//! are C's: each field at the next multiple of its own size, the whole a
//! multiple of the largest.

use hansobrik::raw::*;
use std::mem::{align_of, offset_of, size_of};

/// Size, alignment and the offset of every field, in the header's order.
macro_rules! laid_out {
    ($record:ty, $size:expr, $align:expr, { $($field:ident: $offset:expr),* $(,)? }) => {
        assert_eq!(size_of::<$record>(), $size, "size of {}", stringify!($record));
        assert_eq!(align_of::<$record>(), $align, "alignment of {}", stringify!($record));
        $(assert_eq!(
            offset_of!($record, $field),
            $offset,
            "{}.{}",
            stringify!($record),
            stringify!($field)
        );)*
    };
}

#[test]
fn records_have_the_layout_of_the_header() {
    laid_out!(State, 24, 8, {
        position: 0, search: 8, register: 16, in_line: 18, search_count: 19,
        unread: 20, unread_count: 21, waiting: 22, waiting_count: 23,
    });
    laid_out!(Assembly, 8, 4, { marks: 0, calibration: 4, manam: 6 });
    laid_out!(SectorTally, 32, 8, { accepted: 0, remainder: 8, id: 16, filler: 24 });
    laid_out!(ChannelTally, 24, 8, { count: 0, sum: 8, least: 16, largest: 18, present: 20 });
    laid_out!(PassReport, 488, 8, { lines: 0, sectors: 8, channels: 392 });
    laid_out!(DeskSlot, 8, 4, { serial: 0, used: 4, holders: 6 });
    laid_out!(LineDesk, 72, 4, { count: 0, last: 4, slots: 8 });
    laid_out!(FormatAnswer, 40, 8, {
        refused: 0, number: 1, check_start: 2, sync_bits: 8, information_bits: 16, dummy_bits: 24,
        bytes: 32,
    });
    laid_out!(StepAnswer, 4, 2, { refused: 0, bit: 1, register: 2 });
    laid_out!(CountAnswer, 16, 8, { refused: 0, count: 8 });
    laid_out!(ReadAnswer, 40, 8, { refused: 0, complete: 1, taken: 8, state: 16 });
    laid_out!(TwelveAnswer, 13, 1, { refused: 0, answers: 1 });
    laid_out!(StripAnswer, 5, 1, { refused: 0, vis: 1 });
    laid_out!(IntegerAnswer, 8, 4, { refused: 0, value: 4 });
    laid_out!(BcdAnswer, 16, 8, { refused: 0, value: 8 });
    laid_out!(RealAnswer, 16, 8, { refused: 0, negative: 1, places: 2, magnitude: 8 });
    laid_out!(FloatAnswer, 16, 8, { refused: 0, value: 8 });
    laid_out!(NameAnswer, 3, 1, { refused: 0, name: 1, byte: 2 });
    laid_out!(LinesAnswer, 12, 4, {
        refused: 0, set_line: 2, reset_line: 4, scan_count: 6, position: 8,
    });
    laid_out!(DateAnswer, 10, 2, {
        refused: 0, month: 1, day: 2, hour: 3, minute: 4, second: 5, hundredths: 6, year: 8,
    });
    laid_out!(SegmentAnswer, 3, 1, { refused: 0, segment: 1, repeat: 2 });
    laid_out!(AddAnswer, 12, 4, { refused: 0, first_copy: 1, segment: 2, assembly: 4 });
    laid_out!(RevisionAnswer, 4, 2, { refused: 0, revision: 2 });
    laid_out!(GridAnswer, 10, 2, { refused: 0, line: 2, pixel: 4, latitude: 6, longitude: 8 });
    laid_out!(LevelAnswer, 16, 8, {
        refused: 0, negative: 1, places: 2, revision: 4, magnitude: 8,
    });
    laid_out!(LevelFloatAnswer, 16, 8, { refused: 0, revision: 2, value: 8 });
    laid_out!(OrbitAnswer, 64, 8, {
        refused: 0, epoch: 8, axis: 16, eccentricity: 24, inclination: 32, node: 40,
        perigee: 48, anomaly: 56,
    });
    laid_out!(ReportAnswer, 496, 8, { refused: 0, report: 8 });
    laid_out!(DeskAnswer, 76, 4, { refused: 0, desk: 4 });
    laid_out!(TakenAnswer, 88, 8, { refused: 0, serial: 4, slot: 8, desk: 16 });
    laid_out!(SeenAnswer, 24, 8, { refused: 0, from: 8, to: 16 });
}
