//! The sizes and numbers of the header.

/// The three formats.
pub const S_VISSR: u8 = 1;
pub const HIRID: u8 = 2;
/// S-VISSR from a card that presets its check register with ones.
pub const S_VISSR_ONES: u8 = 3;

/// Wrong bits of the tail, of its 64, that a reader may be told to bear.
pub const LARGEST_SETTING: u8 = 6;

/// One plain line.
pub const LINE_BYTES: usize = 44_356;
/// One line on the wire, format 1.
pub const WIRE_BYTES_1: usize = 45_606;
/// The same, format 2.
pub const WIRE_BYTES_2: usize = 49_500;
/// And format 3, as in format 1.
pub const WIRE_BYTES_3: usize = 45_606;
pub const SYNC_BYTES_1: usize = 1_250;
pub const SYNC_BYTES_2: usize = 2_500;
pub const SYNC_BYTES_3: usize = 1_250;

/// 1 DOC, 2 to 4 IR1-3 upper, 5 to 8 VIS1-4, 9 to 11 IR1-3 lower, 12 IR4.
pub const SECTORS: u8 = 12;
/// Also the bytes of DOC.
pub const IR_PIXELS: usize = 2_291;
pub const VIS_PIXELS: usize = 9_164;
/// VIS1 to VIS4, 9,164 each.
pub const STRIP_BYTES: usize = 36_656;

/// Data of a sector as bytes: 1 to 4,
pub const DATA_BYTES_8: usize = 2_291;
/// 5 to 8,
pub const DATA_BYTES_6: usize = 6_873;
/// 9 to 11, the two low bits of the last byte spare,
pub const DATA_BYTES_2: usize = 573;
/// and 12, likewise.
pub const DATA_BYTES_10: usize = 2_864;

/// The five blocks,
pub const MAPPING: u8 = 1;
pub const ORBIT: u8 = 2;
pub const MANAM: u8 = 3;
pub const CALIBRATION_1: u8 = 4;
/// Not in format 2.
pub const CALIBRATION_2: u8 = 5;
/// and their sizes.
pub const MAPPING_BYTES: usize = 2_500;
pub const ORBIT_BYTES: usize = 3_200;
pub const MANAM_BYTES: usize = 10_250;
pub const CALIBRATION_1_BYTES: usize = 6_400;
pub const CALIBRATION_2_BYTES: usize = 25_600;
pub const SEGMENTS: u8 = 25;

/// IR1 to IR4.
pub const CHANNELS: u8 = 4;
/// The most lines of a report.
pub const REPORT_LINES: u64 = 100_000;

/// A desk has so many slots of one line each,
pub const LEAST_SLOTS: usize = 2;
/// up to so many.
pub const MOST_SLOTS: usize = 8;
/// What a slot of the record is used for,
pub const FREE: u16 = 0;
pub const FILLING: u16 = 1;
pub const HELD: u16 = 2;
/// and the two who hold a line: as a consumer one of them, as holders their sum.
pub const PREVIEW: u8 = 1;
pub const CAPTURE: u8 = 2;

/// The marks of a finished block.
pub const ALL_MARKS: u32 = 0x01FF_FFFF;
/// The scrambling register before the first information bit.
pub const FIFTEEN_ONES: u16 = 0x7FFF;
