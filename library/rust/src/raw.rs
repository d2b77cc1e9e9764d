//! The C calls as they are: the records and declarations of `hansobrik.h`.
//!
//! No compiler compares these declarations with the header or with the archive.
//! `.ci/boundary` holds them to the sources that the archive is made from;
//! `tests/layout.rs` tests sizes and offsets.
//!
//! A buffer is a pointer and a count of its elements. Buffers lent to one call
//! must not overlap; the safe calls of this crate take slices, which cannot.

/// What a reader keeps between calls; 24 bytes without a gap. Every field 0 is
/// a fresh one.
///
/// A caller may look at `in_line` and `position`: where `in_line` is 1 at the
/// end of a recording, it stops inside a line, of whose bits it has the first
/// `position`. The other fields are the reader's own.
#[repr(C)]
#[derive(Clone, Copy, Debug, Default, PartialEq, Eq)]
pub struct State {
    /// In a line: the next line bit.
    pub position: u64,
    /// Between lines: the last bits since the search began, the last one
    /// lowest.
    pub search: u64,
    /// In a line: the scrambling register.
    pub register: u16,
    /// 1 in a line, 0 between lines.
    pub in_line: u8,
    pub search_count: u8,
    /// Between lines: bits of the last byte taken that are still to read.
    pub unread: u8,
    pub unread_count: u8,
    /// In a line: bits that wait for their byte.
    pub waiting: u8,
    pub waiting_count: u8,
}

/// What an assembly keeps between calls; 8 bytes without a gap. Every field 0
/// is a fresh one.
///
/// A caller may look at all of it: at `marks`, and once a segment is marked at
/// the two numbers, which say of which revision of the operator's tables the
/// assembly is. Before that they say nothing.
#[repr(C)]
#[derive(Clone, Copy, Debug, Default, PartialEq, Eq)]
pub struct Assembly {
    /// Bit s is set once segment s is stored.
    pub marks: u32,
    /// The calibration table ID, sector bytes 28-29 of the line that brought
    /// the first segment.
    pub calibration: u16,
    /// The MANAM revision, bytes 30-31 of that line.
    pub manam: u16,
}

/// A sector over all lines of a report.
#[repr(C)]
#[derive(Clone, Copy, Debug, Default, PartialEq, Eq)]
pub struct SectorTally {
    /// Lines in which it was accepted,
    pub accepted: u64,
    /// refused with REMAINDER,
    pub remainder: u64,
    /// and refused with ID.
    pub id: u64,
    /// Its filler bits that were set, in lines that refused it too.
    pub filler: u64,
}

/// The ten-bit pixels of an infrared channel over all lines of a report.
#[repr(C)]
#[derive(Clone, Copy, Debug, Default, PartialEq, Eq)]
pub struct ChannelTally {
    pub count: u64,
    pub sum: u64,
    pub least: u16,
    pub largest: u16,
    /// 1: least and largest hold. 0: there are no pixels. No other mark is
    /// possible.
    pub present: u32,
}

/// One record over all lines of a pass; 488 bytes without a gap. Every field 0
/// is that of no line. Sector n stands at n - 1, IRn at n - 1.
#[repr(C)]
#[derive(Clone, Copy, Debug, Default, PartialEq, Eq)]
pub struct PassReport {
    pub lines: u64,
    pub sectors: [SectorTally; 12],
    pub channels: [ChannelTally; 4],
}

/// One slot of a desk. Of a free one serial and holders say nothing, of a filling
/// one its holders.
#[repr(C)]
#[derive(Clone, Copy, Debug, Default, PartialEq, Eq)]
pub struct DeskSlot {
    /// Of the line in it.
    pub serial: u32,
    /// 0 free, 1 filling, 2 held. No other mark is possible.
    pub used: u16,
    /// Of a held one: 1 preview, 2 capture, 3 both. No other mark is possible.
    pub holders: u16,
}

/// Who has which slot of an area; 72 bytes without a gap. Slots from the count on
/// do not exist: nobody looks at them, and they come back as they stand.
#[repr(C)]
#[derive(Clone, Copy, Debug, Default, PartialEq, Eq)]
pub struct LineDesk {
    /// 2 to 8.
    pub count: u32,
    /// The serial number given last; 0 before the first.
    pub last: u32,
    pub slots: [DeskSlot; 8],
}

#[repr(C)]
#[derive(Clone, Copy, Debug, Default, PartialEq, Eq)]
pub struct FormatAnswer {
    pub refused: u8,
    pub number: u8,
    /// What the check of its sectors starts from.
    pub check_start: u16,
    pub sync_bits: usize,
    pub information_bits: usize,
    pub dummy_bits: usize,
    pub bytes: usize,
}

#[repr(C)]
#[derive(Clone, Copy, Debug, Default, PartialEq, Eq)]
pub struct StepAnswer {
    pub refused: u8,
    pub bit: u8,
    pub register: u16,
}

#[repr(C)]
#[derive(Clone, Copy, Debug, Default, PartialEq, Eq)]
pub struct CountAnswer {
    pub refused: u8,
    pub count: usize,
}

#[repr(C)]
#[derive(Clone, Copy, Debug, Default, PartialEq, Eq)]
pub struct ReadAnswer {
    pub refused: u8,
    pub complete: bool,
    pub taken: usize,
    pub state: State,
}

#[repr(C)]
#[derive(Clone, Copy, Debug, Default, PartialEq, Eq)]
pub struct TwelveAnswer {
    pub refused: u8,
    pub answers: [u8; 12],
}

#[repr(C)]
#[derive(Clone, Copy, Debug, Default, PartialEq, Eq)]
pub struct StripAnswer {
    pub refused: u8,
    pub vis: [u8; 4],
}

#[repr(C)]
#[derive(Clone, Copy, Debug, Default, PartialEq, Eq)]
pub struct IntegerAnswer {
    pub refused: u8,
    pub value: u32,
}

#[repr(C)]
#[derive(Clone, Copy, Debug, Default, PartialEq, Eq)]
pub struct BcdAnswer {
    pub refused: u8,
    pub value: u64,
}

#[repr(C)]
#[derive(Clone, Copy, Debug, Default, PartialEq, Eq)]
pub struct RealAnswer {
    pub refused: u8,
    pub negative: bool,
    pub places: u8,
    pub magnitude: u64,
}

#[repr(C)]
#[derive(Clone, Copy, Debug, Default, PartialEq)]
pub struct FloatAnswer {
    pub refused: u8,
    pub value: f64,
}

#[repr(C)]
#[derive(Clone, Copy, Debug, Default, PartialEq, Eq)]
pub struct NameAnswer {
    pub refused: u8,
    pub name: u8,
    pub byte: u8,
}

#[repr(C)]
#[derive(Clone, Copy, Debug, Default, PartialEq, Eq)]
pub struct LinesAnswer {
    pub refused: u8,
    pub set_line: u16,
    pub reset_line: u16,
    pub scan_count: u16,
    pub position: i32,
}

#[repr(C)]
#[derive(Clone, Copy, Debug, Default, PartialEq, Eq)]
pub struct DateAnswer {
    pub refused: u8,
    pub month: u8,
    pub day: u8,
    pub hour: u8,
    pub minute: u8,
    pub second: u8,
    pub hundredths: u8,
    pub year: u16,
}

#[repr(C)]
#[derive(Clone, Copy, Debug, Default, PartialEq, Eq)]
pub struct SegmentAnswer {
    pub refused: u8,
    pub segment: u8,
    pub repeat: u8,
}

#[repr(C)]
#[derive(Clone, Copy, Debug, Default, PartialEq, Eq)]
pub struct AddAnswer {
    pub refused: u8,
    pub first_copy: bool,
    pub segment: u8,
    pub assembly: Assembly,
}

#[repr(C)]
#[derive(Clone, Copy, Debug, Default, PartialEq, Eq)]
pub struct RevisionAnswer {
    pub refused: u8,
    pub revision: u16,
}

#[repr(C)]
#[derive(Clone, Copy, Debug, Default, PartialEq, Eq)]
pub struct GridAnswer {
    pub refused: u8,
    pub line: u16,
    pub pixel: u16,
    pub latitude: i16,
    pub longitude: i16,
}

#[repr(C)]
#[derive(Clone, Copy, Debug, Default, PartialEq, Eq)]
pub struct LevelAnswer {
    pub refused: u8,
    pub negative: bool,
    pub places: u8,
    pub revision: u16,
    pub magnitude: u64,
}

#[repr(C)]
#[derive(Clone, Copy, Debug, Default, PartialEq)]
pub struct LevelFloatAnswer {
    pub refused: u8,
    pub revision: u16,
    pub value: f64,
}

#[repr(C)]
#[derive(Clone, Copy, Debug, Default, PartialEq)]
pub struct OrbitAnswer {
    pub refused: u8,
    pub epoch: f64,
    pub axis: f64,
    pub eccentricity: f64,
    pub inclination: f64,
    pub node: f64,
    pub perigee: f64,
    pub anomaly: f64,
}

#[repr(C)]
#[derive(Clone, Copy, Debug, Default, PartialEq, Eq)]
pub struct ReportAnswer {
    pub refused: u8,
    pub report: PassReport,
}

#[repr(C)]
#[derive(Clone, Copy, Debug, Default, PartialEq, Eq)]
pub struct DeskAnswer {
    pub refused: u8,
    pub desk: LineDesk,
}

#[repr(C)]
#[derive(Clone, Copy, Debug, Default, PartialEq, Eq)]
pub struct TakenAnswer {
    pub refused: u8,
    pub serial: u32,
    pub slot: usize,
    pub desk: LineDesk,
}

#[repr(C)]
#[derive(Clone, Copy, Debug, Default, PartialEq, Eq)]
pub struct SeenAnswer {
    pub refused: u8,
    pub from: usize,
    pub to: usize,
}

// The version of the archive.
extern "C" {
    pub fn hansobrik_version() -> u32;
}

// Formats, scrambling, SYNC.
extern "C" {
    pub fn hansobrik_format(format: u8) -> FormatAnswer;
    pub fn hansobrik_stepped(register: u16) -> StepAnswer;
    pub fn hansobrik_step(register: *mut u16) -> StepAnswer;
    pub fn hansobrik_put_sync(format: u8, out: *mut u8, out_count: usize) -> CountAnswer;
}

// Recordings.
extern "C" {
    pub fn hansobrik_fresh() -> State;
    pub fn hansobrik_read(
        format: u8,
        setting: u8,
        state: State,
        piece: *const u8,
        piece_count: usize,
        line: *mut u8,
        line_count: usize,
    ) -> ReadAnswer;
    pub fn hansobrik_write_line(
        format: u8,
        line: *const u8,
        line_count: usize,
        out: *mut u8,
        out_count: usize,
    ) -> CountAnswer;
}

// The twelve sectors of a plain line.
extern "C" {
    pub fn hansobrik_accepted(format: u8, line: *const u8, line_count: usize, sector: u8) -> u8;
    pub fn hansobrik_answers(format: u8, line: *const u8, line_count: usize) -> TwelveAnswer;
    pub fn hansobrik_filler(
        format: u8,
        line: *const u8,
        line_count: usize,
        sector: u8,
    ) -> CountAnswer;
    pub fn hansobrik_data(
        format: u8,
        line: *const u8,
        line_count: usize,
        sector: u8,
        out: *mut u8,
        out_count: usize,
    ) -> u8;
    pub fn hansobrik_pixels(
        format: u8,
        line: *const u8,
        line_count: usize,
        sector: u8,
        out: *mut u8,
        out_count: usize,
    ) -> u8;
    pub fn hansobrik_pixels_wide(
        format: u8,
        line: *const u8,
        line_count: usize,
        sector: u8,
        out: *mut u16,
        out_count: usize,
    ) -> u8;
    pub fn hansobrik_joined(
        format: u8,
        line: *const u8,
        line_count: usize,
        channel: u8,
        out: *mut u16,
        out_count: usize,
    ) -> u8;
    pub fn hansobrik_strip(
        format: u8,
        line: *const u8,
        line_count: usize,
        strip: *mut u8,
        strip_count: usize,
    ) -> StripAnswer;
    pub fn hansobrik_put_data(
        format: u8,
        line: *mut u8,
        line_count: usize,
        sector: u8,
        bytes: *const u8,
        bytes_count: usize,
    ) -> u8;
    pub fn hansobrik_put_pixels(
        format: u8,
        line: *mut u8,
        line_count: usize,
        sector: u8,
        pixels: *const u8,
        pixels_count: usize,
    ) -> u8;
    pub fn hansobrik_put_pixels_wide(
        format: u8,
        line: *mut u8,
        line_count: usize,
        sector: u8,
        pixels: *const u16,
        pixels_count: usize,
    ) -> u8;
}

// Numbers at the front of a buffer.
extern "C" {
    pub fn hansobrik_read_integer(bytes: *const u8, bytes_count: usize, n: usize) -> IntegerAnswer;
    pub fn hansobrik_read_bcd(bytes: *const u8, bytes_count: usize, n: usize) -> BcdAnswer;
    pub fn hansobrik_read_real(bytes: *const u8, bytes_count: usize, n: usize, m: u8)
        -> RealAnswer;
    pub fn hansobrik_read_f64(bytes: *const u8, bytes_count: usize, n: usize, m: u8)
        -> FloatAnswer;
    pub fn hansobrik_put_real(
        negative: bool,
        magnitude: u64,
        n: usize,
        m: u8,
        out: *mut u8,
        out_count: usize,
    ) -> u8;
}

// The documentation sector.
extern "C" {
    pub fn hansobrik_scan_mode(format: u8, line: *const u8, line_count: usize) -> NameAnswer;
    pub fn hansobrik_scanner_select(format: u8, line: *const u8, line_count: usize) -> NameAnswer;
    pub fn hansobrik_line_numbers(format: u8, line: *const u8, line_count: usize) -> LinesAnswer;
    pub fn hansobrik_date(format: u8, line: *const u8, line_count: usize) -> DateAnswer;
    pub fn hansobrik_sub_commutation(
        format: u8,
        line: *const u8,
        line_count: usize,
    ) -> SegmentAnswer;
    pub fn hansobrik_integer_field(
        format: u8,
        line: *const u8,
        line_count: usize,
        place: usize,
        n: usize,
    ) -> IntegerAnswer;
    pub fn hansobrik_bcd_field(
        format: u8,
        line: *const u8,
        line_count: usize,
        place: usize,
        n: usize,
    ) -> BcdAnswer;
    pub fn hansobrik_real_field(
        format: u8,
        line: *const u8,
        line_count: usize,
        place: usize,
        n: usize,
        m: u8,
    ) -> RealAnswer;
    pub fn hansobrik_f64_field(
        format: u8,
        line: *const u8,
        line_count: usize,
        place: usize,
        n: usize,
        m: u8,
    ) -> FloatAnswer;
}

// Blocks.
extern "C" {
    pub fn hansobrik_fresh_assembly() -> Assembly;
    pub fn hansobrik_add_segment(
        format: u8,
        assembly: Assembly,
        line: *const u8,
        line_count: usize,
        number: u8,
        block: *mut u8,
        block_count: usize,
    ) -> AddAnswer;
    pub fn hansobrik_revision(
        format: u8,
        assembly: Assembly,
        number: u8,
        block: *const u8,
        block_count: usize,
    ) -> RevisionAnswer;
    pub fn hansobrik_mapping(
        format: u8,
        assembly: Assembly,
        block: *const u8,
        block_count: usize,
        row: u16,
        column: u16,
    ) -> GridAnswer;
    pub fn hansobrik_albedo(
        format: u8,
        assembly: Assembly,
        block: *const u8,
        block_count: usize,
        channel: u8,
        level: u16,
    ) -> LevelAnswer;
    pub fn hansobrik_albedo_f64(
        format: u8,
        assembly: Assembly,
        block: *const u8,
        block_count: usize,
        channel: u8,
        level: u16,
    ) -> LevelFloatAnswer;
    pub fn hansobrik_temperature(
        format: u8,
        assembly: Assembly,
        block: *const u8,
        block_count: usize,
        channel: u8,
        level: u16,
    ) -> LevelAnswer;
    pub fn hansobrik_temperature_f64(
        format: u8,
        assembly: Assembly,
        block: *const u8,
        block_count: usize,
        channel: u8,
        level: u16,
    ) -> LevelFloatAnswer;
    pub fn hansobrik_elements(
        format: u8,
        assembly: Assembly,
        block: *const u8,
        block_count: usize,
    ) -> OrbitAnswer;
}

// The report of a pass.
extern "C" {
    pub fn hansobrik_empty_report() -> PassReport;
    pub fn hansobrik_with_line(
        format: u8,
        report: PassReport,
        line: *const u8,
        line_count: usize,
    ) -> ReportAnswer;
    pub fn hansobrik_together(first: PassReport, second: PassReport) -> ReportAnswer;
}

// The desk.
extern "C" {
    pub fn hansobrik_fresh_desk(count: u32) -> DeskAnswer;
    pub fn hansobrik_take(desk: LineDesk, area: usize) -> TakenAnswer;
    pub fn hansobrik_publish(desk: LineDesk, area: usize, slot: usize, serial: u32) -> DeskAnswer;
    pub fn hansobrik_release(
        desk: LineDesk,
        area: usize,
        consumer: u8,
        slot: usize,
        serial: u32,
    ) -> DeskAnswer;
    pub fn hansobrik_seen(
        desk: LineDesk,
        area: usize,
        consumer: u8,
        slot: usize,
        serial: u32,
    ) -> SeenAnswer;
}
