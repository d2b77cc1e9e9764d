//! The 50 calls as the header declares them. `tests/rows.rs` holds this table
//! to the header's own text.

pub use crate::names::Name;
pub use crate::shapes::REGISTER_LENT;
use crate::shapes::*;

/// How many calls there are.
pub const CALLS: usize = 50;

/// All refusals, in the order in which they are tested.
pub const ORDER: [u8; 19] = [
    1, 13, 19, 12, 15, 4, 10, 11, 2, 18, 16, 17, 3, 5, 6, 7, 14, 8, 9,
];

/// A buffer of a call.
#[derive(Clone, Copy, Debug, PartialEq, Eq)]
pub struct Part {
    pub what: &'static str,
    /// Of 16-bit numbers, not of bytes.
    pub words: bool,
    /// The call may change it.
    pub written: bool,
}

/// What comes back as it was handed in where a call is refused: the reader's
/// record, a register, an assembly's record, a report, a desk.
#[derive(Clone, Copy, Debug, PartialEq, Eq)]
pub struct Kept {
    /// The first of them among the answer's fields, ...
    pub field: usize,
    /// ... and among the numbers handed in, a register that is lent behind
    /// them.
    pub number: usize,
    pub count: usize,
}

/// One call.
#[derive(Clone, Copy, Debug)]
pub struct Row {
    pub name: Name,
    /// Its name in the header, without the prefix.
    pub text: &'static str,
    /// The numbers handed in, and the bits of each.
    pub numbers: Numbers,
    pub lent: Parts,
    /// The fields of the answer.
    pub fields: Fields,
    pub kept: Kept,
    /// The refusals in the order in which they are tested.
    pub refusals: Refusals,
}

const fn row(
    name: Name,
    text: &'static str,
    numbers: Numbers,
    lent: Parts,
    fields: Fields,
    refusals: Refusals,
) -> Row {
    let kept = match name {
        Name::Stepped | Name::Step => KEEPS_REGISTER,
        Name::Read => KEEPS_RECORD,
        Name::AddSegment => KEEPS_ASSEMBLY,
        Name::WithLine => KEEPS_REPORT,
        Name::Together => KEEPS_FIRST_REPORT,
        Name::FreshDesk => KEEPS_COUNT,
        Name::Take => KEEPS_DESK_BEHIND,
        Name::Publish | Name::Release => KEEPS_DESK,
        _ => KEEPS_NOTHING,
    };
    Row {
        name,
        text,
        numbers,
        lent,
        fields,
        kept,
        refusals,
    }
}

/// The calls, each at the place of its [`Name`].
#[rustfmt::skip] // a table: one row a call
pub const ROWS: [Row; CALLS] = [
    row(Name::Version, "version", &[], &[], VERSION, &[]),
    row(Name::Format, "format", FORMAT, &[], LENGTHS, &[1]),
    row(Name::Stepped, "stepped", REGISTER, &[], STEPPED, &[12]),
    row(Name::Step, "step", &[], &[REGISTER_LENT], STEPPED, &[12]),
    row(Name::PutSync, "put_sync", FORMAT, &[OUT], COUNT, &[1, 3]),
    row(Name::Fresh, "fresh", &[], &[], RECORD, &[]),
    row(Name::Read, "read", READING, &[PIECE, LINE_WRITTEN], READ, &[1, 13, 12, 2]),
    row(Name::WriteLine, "write_line", FORMAT, &[LINE, OUT], COUNT, &[1, 2, 3]),
    row(Name::Accepted, "accepted", SECTOR, &[LINE], ALONE, &[1, 4, 2, 5, 6]),
    row(Name::Answers, "answers", FORMAT, &[LINE], TWELVE, &[1, 2]),
    row(Name::Filler, "filler", SECTOR, &[LINE], COUNT, &[1, 4, 2]),
    row(Name::Data, "data", SECTOR, &[LINE, OUT], ALONE, DECODED),
    row(Name::Pixels, "pixels", SECTOR, &[LINE, OUT], ALONE, DECODED),
    row(Name::PixelsWide, "pixels_wide", SECTOR, &[LINE, OUT_WIDE], ALONE, DECODED),
    row(Name::Joined, "joined", CHANNEL, &[LINE, OUT_WIDE], ALONE, DECODED),
    row(Name::Strip, "strip", FORMAT, &[LINE, STRIP], PARTS, &[1, 2, 3]),
    row(Name::PutData, "put_data", SECTOR, &[LINE_WRITTEN, BYTES], ALONE, &[1, 4, 2]),
    row(Name::PutPixels, "put_pixels", SECTOR, &[LINE_WRITTEN, PIXELS], ALONE, &[1, 4, 10, 2]),
    row(Name::PutPixelsWide, "put_pixels_wide", SECTOR, &[LINE_WRITTEN, PIXELS_WIDE], ALONE, &[1, 4, 10, 2]),
    row(Name::ReadInteger, "read_integer", SIZE, &[BYTES], VALUE, &[10, 2]),
    row(Name::ReadBcd, "read_bcd", SIZE, &[BYTES], VALUE, &[10, 2, 7]),
    row(Name::ReadReal, "read_real", R_FORM, &[BYTES], REAL, &[10, 2]),
    row(Name::ReadF64, "read_f64", R_FORM, &[BYTES], VALUE, &[10, 2]),
    row(Name::PutReal, "put_real", R_PUT, &[OUT], ALONE, &[10, 11, 3]),
    row(Name::ScanMode, "scan_mode", FORMAT, &[LINE], NAMED, DOC),
    row(Name::ScannerSelect, "scanner_select", FORMAT, &[LINE], NAMED, DOC),
    row(Name::LineNumbers, "line_numbers", FORMAT, &[LINE], LINES, DOC_FIELD),
    row(Name::Date, "date", FORMAT, &[LINE], DATED, DOC_FIELD),
    row(Name::SubCommutation, "sub_commutation", FORMAT, &[LINE], SEGMENT, DOC_FIELD),
    row(Name::IntegerField, "integer_field", FIELD, &[LINE], VALUE, PLACED),
    row(Name::BcdField, "bcd_field", FIELD, &[LINE], VALUE, &[1, 10, 2, 5, 6, 7]),
    row(Name::RealField, "real_field", R_FIELD, &[LINE], REAL, PLACED),
    row(Name::F64Field, "f64_field", R_FIELD, &[LINE], VALUE, PLACED),
    row(Name::FreshAssembly, "fresh_assembly", &[], &[], ASSEMBLY, &[]),
    row(Name::AddSegment, "add_segment", NUMBERED, &[LINE, BLOCK_WRITTEN], ADDED, &[1, 12, 4, 2, 5, 6, 7, 14, 8]),
    row(Name::Revision, "revision", NUMBERED, &[BLOCK], REVISED, &[1, 12, 4, 2, 9]),
    row(Name::Mapping, "mapping", POINT, &[BLOCK], GRID, &[1, 12, 10, 2, 9]),
    row(Name::Albedo, "albedo", LEVEL, &[BLOCK], LEVEL_REAL, ENTRY),
    row(Name::AlbedoF64, "albedo_f64", LEVEL, &[BLOCK], LEVEL_FLOAT, ENTRY),
    row(Name::Temperature, "temperature", LEVEL, &[BLOCK], LEVEL_REAL, ENTRY),
    row(Name::TemperatureF64, "temperature_f64", LEVEL, &[BLOCK], LEVEL_FLOAT, ENTRY),
    row(Name::Elements, "elements", ASSEMBLED, &[BLOCK], ORBIT, &[1, 12, 2, 9]),
    row(Name::EmptyReport, "empty_report", &[], &[], REPORT, &[]),
    row(Name::WithLine, "with_line", REPORTING, &[LINE], REPORTED, &[1, 12, 15, 2]),
    row(Name::Together, "together", TWO_REPORTS, &[], REPORTED, &[12, 15]),
    row(Name::FreshDesk, "fresh_desk", COUNTED, &[], DESK, &[19]),
    row(Name::Take, "take", TAKING, &[], TAKEN, &[19, 12, 2, 18, 16]),
    row(Name::Publish, "publish", PUBLISHING, &[], DESK, &[19, 12, 2, 17]),
    row(Name::Release, "release", HOLDING, &[], DESK, &[19, 12, 2, 17]),
    row(Name::Seen, "seen", HOLDING, &[], SEEN, &[19, 12, 2, 17]),
];
