//! The edits, each with what the check must say of it.

use super::{compilers, texts, Edit};
use crate::calls::{ORDERS, TESTS};
use crate::header::FILE as HEADER;
use crate::numbers::{NAMED, NUMBERS, ORDER, TABLE};
use crate::rust::{DOCUMENTATION, RAW, REFUSAL, SIZES};
use crate::sizes::{BLOCK, DESK, FORMATS, LAYOUT, RACK, READER, REPORT};
use crate::version::{GROUND, MANIFEST};

/// The exports, by the crate that they call.
const TO_GROUND: &str = "crates/hansobrik/src/of_ground.rt";
const TO_RECORDING: &str = "crates/hansobrik/src/of_recording.rt";
const TO_SECTOR: &str = "crates/hansobrik/src/of_sector.rt";
const TO_BLOCKS: &str = "crates/hansobrik/src/of_blocks.rt";
const SECTOR: &str = "crates/rack_sector/src/lib.rt";
const NUMBER: &str = "crates/rack_number/src/lib.rt";

pub const EDITS: &[Edit] = &[
    // structs of the header
    texts(
        &[(HEADER, "uint32_t marks; /*", "uint16_t marks; /*")],
        &[
            "hansobrik_assembly: field 1",
            "uint16_t marks",
            "uint32_t marks",
            "rack_blocks",
        ],
    ),
    texts(
        &[
            (HEADER, "uint16_t calibration; /*", "uint16_t swap; /*"),
            (HEADER, "uint16_t manam; /*", "uint16_t calibration; /*"),
            (HEADER, "uint16_t swap; /*", "uint16_t manam; /*"),
        ],
        &["hansobrik_assembly: field 2", "manam", "calibration"],
    ),
    texts(
        &[(
            HEADER,
            "hansobrik_assembly assembly; /*",
            "uint64_t assembly; /*",
        )],
        &[
            "hansobrik_add_answer: field 4",
            "uint64_t assembly",
            "hansobrik_assembly assembly",
        ],
    ),
    texts(
        &[(
            HEADER,
            "uint8_t hour; uint8_t minute;",
            "uint8_t minute; uint8_t hour;",
        )],
        &[
            "hansobrik_date_answer: field 4",
            "uint8_t minute",
            "uint8_t hour",
        ],
    ),
    texts(
        &[(HEADER, "uint8_t month;", "uint8_t moon;")],
        &["hansobrik_date_answer: field 2", "moon", "month"],
    ),
    texts(
        &[(HEADER, "uint8_t repeat;", "")],
        &["hansobrik_segment_answer has 2 fields", "3 by the source"],
    ),
    texts(
        &[(HEADER, "uint8_t answers[12];", "uint8_t answers[11];")],
        &[
            "hansobrik_twelve_answer: field 2",
            "answers[11]",
            "answers[12]",
        ],
    ),
    texts(
        &[(HEADER, "uint8_t vis[4];", "uint8_t vis[5];")],
        &["hansobrik_strip_answer: field 2", "vis[5]", "vis[4]"],
    ),
    texts(
        &[(HEADER, "uint64_t position;", "size_t position;")],
        &[
            "hansobrik_state: field 1",
            "size_t position",
            "uint64_t position",
        ],
    ),
    // it stands in a gap: without it the answer is as long as with it
    texts(
        &[(HEADER, "uint16_t check_start; /*", "/*")],
        &["hansobrik_format_answer has 6 fields", "7 by the source"],
    ),
    texts(
        &[(
            HEADER,
            "} hansobrik_grid_answer;",
            "} hansobrik_point_answer;",
        )],
        &["hansobrik_grid_answer is missing", "rack_entries"],
    ),
    texts(
        &[(
            HEADER,
            "typedef struct",
            "typedef struct { uint8_t more; } hansobrik_more; typedef struct",
        )],
        &["hansobrik_more: the source has no such struct"],
    ),
    texts(
        &[(HEADER, "uint32_t present; /*", "uint16_t present; /*")],
        &[
            "hansobrik_channel_tally: field 5",
            "uint16_t present",
            "uint32_t present",
            "rack_report",
        ],
    ),
    texts(
        &[(
            HEADER,
            "hansobrik_sector_tally sectors[12];",
            "hansobrik_sector_tally sectors[11];",
        )],
        &[
            "hansobrik_pass_report: field 2",
            "sectors[11]",
            "sectors[12]",
        ],
    ),
    texts(
        &[(HEADER, "uint16_t used; /*", "uint8_t used; /*")],
        &[
            "hansobrik_desk_slot: field 2",
            "uint8_t used",
            "uint16_t used",
            "rack_desk",
        ],
    ),
    texts(
        &[(
            HEADER,
            "hansobrik_desk_slot slots[8];",
            "hansobrik_desk_slot slots[7];",
        )],
        &["hansobrik_line_desk: field 3", "slots[7]", "slots[8]"],
    ),
    // functions of the header
    texts(
        &[(
            HEADER,
            "hansobrik_accepted(uint8_t format, const",
            "hansobrik_accepted(const",
        )],
        &["hansobrik_accepted has 3 parameters", "4 by the source"],
    ),
    texts(
        &[(
            HEADER,
            "hansobrik_answers(uint8_t format, const uint8_t *line",
            "hansobrik_answers(uint8_t format, uint8_t *line",
        )],
        &[
            "hansobrik_answers: parameter 2",
            "`uint8_t *line`",
            "`const uint8_t *line`",
        ],
    ),
    texts(
        &[(
            HEADER,
            "uint16_t row, uint16_t column",
            "uint16_t column, uint16_t row",
        )],
        &["hansobrik_mapping: parameter 5", "column", "row"],
    ),
    texts(
        &[(
            HEADER,
            "hansobrik_stepped(uint16_t",
            "hansobrik_stepped(uint32_t",
        )],
        &[
            "hansobrik_stepped: parameter 1",
            "uint32_t register_",
            "uint16_t register_",
        ],
    ),
    texts(
        &[(
            HEADER,
            "hansobrik_step(uint16_t *register_)",
            "hansobrik_step(uint16_t register_)",
        )],
        &[
            "hansobrik_step: parameter 1",
            "uint16_t register_",
            "uint16_t *register_",
        ],
    ),
    texts(
        &[(
            HEADER,
            "uint8_t hansobrik_data(",
            "uint16_t hansobrik_data(",
        )],
        &["hansobrik_data gives uint16_t", "uint8_t by the source"],
    ),
    texts(
        &[(HEADER, "hansobrik_state hansobrik_fresh(void);", "")],
        &["hansobrik_fresh is missing", TO_RECORDING],
    ),
    texts(
        &[(HEADER, "hansobrik_fresh(void)", "hansobrik_fresh()")],
        &["hansobrik_fresh", "(void)"],
    ),
    texts(
        &[(
            HEADER,
            "uint32_t hansobrik_version(void);",
            "uint32_t hansobrik_version(void); uint32_t hansobrik_all_marks(void);",
        )],
        &["hansobrik_all_marks: the source has no such function"],
    ),
    texts(
        &[(
            HEADER,
            "uint32_t hansobrik_version(void);",
            "static inline uint32_t hansobrik_version(void) { return HANSOBRIK_VERSION; }",
        )],
        &["hansobrik_version has a body"],
    ),
    texts(
        &[(
            HEADER,
            "hansobrik_revision(uint8_t format, hansobrik_assembly assembly",
            "hansobrik_revision(uint8_t format, uint64_t assembly",
        )],
        &[
            "hansobrik_revision: parameter 2",
            "uint64_t assembly",
            "hansobrik_assembly assembly",
        ],
    ),
    texts(
        &[(
            HEADER,
            "hansobrik_together(hansobrik_pass_report first, hansobrik_pass_report second)",
            "hansobrik_together(hansobrik_pass_report second, hansobrik_pass_report first)",
        )],
        &["hansobrik_together: parameter 1", "second", "first"],
    ),
    texts(
        &[(
            HEADER,
            "hansobrik_publish(hansobrik_line_desk desk, size_t area, size_t slot, uint32_t serial)",
            "hansobrik_publish(hansobrik_line_desk desk, size_t slot, size_t area, uint32_t serial)",
        )],
        &["hansobrik_publish: parameter 2", "size_t slot", "size_t area"],
    ),
    texts(
        &[(
            HEADER,
            "hansobrik_take(hansobrik_line_desk desk, size_t area);",
            "hansobrik_take(hansobrik_line_desk *desk, size_t area);",
        )],
        &["hansobrik_take: parameter 1", "hansobrik_line_desk *desk"],
    ),
    // structs and functions of Rust
    texts(
        &[(RAW, "pub magnitude: u64,", "pub magnitude: u32,")],
        &["RealAnswer: field 4", "magnitude: u32", "magnitude: u64"],
    ),
    texts(
        &[(
            RAW,
            "pub set_line: u16, pub reset_line: u16,",
            "pub reset_line: u16, pub set_line: u16,",
        )],
        &["LinesAnswer: field 2", "reset_line", "set_line"],
    ),
    texts(
        &[(
            RAW,
            "#[repr(C)] #[derive(Clone, Copy, Debug, Default, PartialEq, Eq)] pub struct Count",
            "pub struct Count",
        )],
        &["CountAnswer is not #[repr(C)]"],
    ),
    texts(
        &[(RAW, "place: usize, n: usize,", "n: usize, place: usize,")],
        &[
            "hansobrik_integer_field: parameter 4",
            "n: usize",
            "place: usize",
        ],
    ),
    texts(
        &[(RAW, "piece: *const u8", "piece: *mut u8")],
        &["hansobrik_read: parameter 4", "*mut u8", "*const u8"],
    ),
    texts(
        &[(
            RAW,
            "format: u8, setting: u8, state",
            "setting: u8, format: u8, state",
        )],
        &["hansobrik_read: parameter 1", "setting: u8", "format: u8"],
    ),
    texts(
        &[(
            RAW,
            "pub fn hansobrik_format(format: u8) -> FormatAnswer;",
            "",
        )],
        &["hansobrik_format is missing", TO_GROUND],
    ),
    texts(
        &[(
            RAW,
            "pub fn hansobrik_version() -> u32;",
            "pub fn hansobrik_version() -> u32; pub fn hansobrik_all_marks() -> u32;",
        )],
        &["hansobrik_all_marks: the source has no such function"],
    ),
    texts(
        &[(
            RAW,
            "hansobrik_fresh_assembly() -> Assembly",
            "hansobrik_fresh_assembly() -> u64",
        )],
        &[
            "hansobrik_fresh_assembly gives u64",
            "Assembly by the source",
        ],
    ),
    texts(
        &[(
            RAW,
            "pub channels: [ChannelTally; 4],",
            "pub channels: [SectorTally; 4],",
        )],
        &[
            "PassReport: field 3",
            "channels: [SectorTally; 4]",
            "channels: [ChannelTally; 4]",
        ],
    ),
    texts(
        &[(
            RAW,
            "pub slots: [DeskSlot; 8],",
            "pub slots: [DeskSlot; 9],",
        )],
        &[
            "LineDesk: field 3",
            "slots: [DeskSlot; 9]",
            "slots: [DeskSlot; 8]",
        ],
    ),
    // the Rattle text
    texts(
        &[(NUMBER, "pub count: usize,", "pub count: u32,")],
        &[
            "hansobrik_count_answer: field 2",
            "size_t count",
            "uint32_t count",
            NUMBER,
        ],
    ),
    texts(
        &[(NUMBER, "pub count: usize,", "pub count: u32,")],
        &[
            "raw.rs",
            "CountAnswer: field 2",
            "count: usize",
            "count: u32",
        ],
    ),
    texts(
        &[(
            TO_RECORDING,
            "piece: &[u8], line: &mut [u8],",
            "line: &mut [u8], piece: &[u8],",
        )],
        &[
            "hansobrik_read: parameter 4",
            "const uint8_t *piece",
            "uint8_t *line",
        ],
    ),
    texts(
        &[(
            TO_SECTOR,
            "pub extern \"C\" fn hansobrik_filler",
            "pub extern \"C\" fn hansobrik_fill",
        )],
        &["hansobrik_filler: the source has no such function"],
    ),
    texts(
        &[(
            GROUND,
            "#[repr(C)] #[derive(Clone, Copy)] pub struct StepAnswer",
            "#[derive(Clone, Copy)] pub struct StepAnswer",
        )],
        &["hansobrik_stepped", "StepAnswer", "no #[repr(C)] struct"],
    ),
    texts(
        &[(
            TO_GROUND,
            "#[unsafe(no_mangle)] pub extern \"C\" fn hansobrik_stepped",
            "pub extern \"C\" fn hansobrik_stepped",
        )],
        &[TO_GROUND, "`extern` without #[unsafe(no_mangle)]"],
    ),
    texts(
        &[(
            TO_BLOCKS,
            "#[unsafe(no_mangle)]",
            "#[export_name = \"hansobrik_other\"]",
        )],
        &[TO_BLOCKS, "`export_name`"],
    ),
    texts(
        &[(TO_BLOCKS, "#[unsafe(no_mangle)]", "#[no_mangle]")],
        &[TO_BLOCKS, "`no_mangle`"],
    ),
    texts(
        &[(SECTOR, "pub vis: [u8; 4],", "pub vis: [u8; 3],")],
        &["hansobrik_strip_answer: field 2", "vis[4]", "vis[3]"],
    ),
    // refusals
    texts(
        &[(
            HEADER,
            "HANSOBRIK_REFUSED_SEGMENT = 8",
            "HANSOBRIK_REFUSED_SEGMENT = 9",
        )],
        &["HANSOBRIK_REFUSED_SEGMENT is 9, but 8", NUMBERS],
    ),
    texts(
        &[
            (
                HEADER,
                "HANSOBRIK_REFUSED_FORMAT = 1,",
                "HANSOBRIK_REFUSED_SWAP = 12,",
            ),
            (
                HEADER,
                "HANSOBRIK_REFUSED_STATE = 12,",
                "HANSOBRIK_REFUSED_FORMAT = 1,",
            ),
            (
                HEADER,
                "HANSOBRIK_REFUSED_SWAP = 12,",
                "HANSOBRIK_REFUSED_STATE = 12,",
            ),
        ],
        &["HANSOBRIK_REFUSED_STATE stands where HANSOBRIK_REFUSED_FORMAT is tested"],
    ),
    texts(
        &[(
            REFUSAL,
            "FIELD: Refusal = Refusal(7)",
            "FIELD: Refusal = Refusal(8)",
        )],
        &["FIELD is 8, but 7", NUMBERS],
    ),
    texts(
        &[(
            NUMBERS,
            "    Range = 10,",
            "    Range = 99,",
        )],
        &[NUMBERS, "99", ORDER],
    ),
    texts(
        &[(ORDER, "1 ∷ 13 ∷", "13 ∷ 1 ∷")],
        &["order of testing is [13, 1,", ORDER],
    ),
    texts(
        &[(TABLE, "| 12 | `State` |", "| 99 | `State` |")],
        &[TABLE, "STATE is 99, but 12"],
    ),
    texts(
        &[
            (TABLE, "| 1 | `Format` |", "| 0 | `Swap` |"),
            (TABLE, "| 12 | `State` |", "| 1 | `Format` |"),
            (TABLE, "| 0 | `Swap` |", "| 12 | `State` |"),
        ],
        &[TABLE, "STATE stands where FORMAT is tested"],
    ),
    texts(
        &[(
            HEADER,
            "return \"the output is shorter than the result\";",
            "return \"the output is shorter\";",
        )],
        &[
            "the words of 3, SHORT_OUTPUT",
            "the output is shorter than the result",
        ],
    ),
    texts(
        &[(
            REFUSAL,
            "the segment differs from the stored one",
            "the segment differs",
        )],
        &[
            "the words of 8, SEGMENT",
            "the segment differs from the stored one",
        ],
    ),
    // the refusals of each call
    texts(
        &[(
            HEADER,
            "Refused: FORMAT, SETTING, STATE, SHORT_INPUT.",
            "Refused: FORMAT, STATE, SETTING, SHORT_INPUT.",
        )],
        &[
            "hansobrik_read: refused with (FORMAT, STATE, SETTING, SHORT_INPUT) by its comment",
            "(FORMAT, SETTING, STATE, SHORT_INPUT) by",
        ],
    ),
    texts(
        &[(
            HEADER,
            "Refused: RANGE, SHORT_INPUT, FIELD.",
            "Refused: SHORT_INPUT, RANGE, FIELD.",
        )],
        &["hansobrik_read_bcd: refused with (SHORT_INPUT, RANGE, FIELD) by its comment"],
    ),
    texts(
        &[(
            HEADER,
            "FIELD, REVISION, SEGMENT.",
            "FIELD, SEGMENT, REVISION.",
        )],
        &[
            "hansobrik_add_segment: refused with",
            "FIELD, SEGMENT, REVISION) by its comment",
            "FIELD, REVISION, SEGMENT) by",
        ],
    ),
    texts(
        &[(
            HEADER,
            "Refused: FORMAT, STATE, FULL, SHORT_INPUT.",
            "Refused: FORMAT, FULL, STATE, SHORT_INPUT.",
        )],
        &[
            "hansobrik_with_line: refused with (FORMAT, FULL, STATE, SHORT_INPUT) by its comment",
            "(FORMAT, STATE, FULL, SHORT_INPUT) by",
        ],
    ),
    texts(
        &[(
            HEADER,
            "Refused: OUT_OF_RANGE, STATE, SHORT_INPUT, NO_SERIAL, NO_SLOT.",
            "Refused: OUT_OF_RANGE, STATE, SHORT_INPUT, NO_SLOT, NO_SERIAL.",
        )],
        &[
            "hansobrik_take: refused with (OUT_OF_RANGE, STATE, SHORT_INPUT, NO_SLOT, NO_SERIAL) by",
            "(OUT_OF_RANGE, STATE, SHORT_INPUT, NO_SERIAL, NO_SLOT) by",
        ],
    ),
    texts(
        &[(TESTS, "(17, not there)", "(16, not there)")],
        &[
            "hansobrik_seen: refused with (OUT_OF_RANGE, STATE, SHORT_INPUT, NO_HOLD) by",
            "(OUT_OF_RANGE, STATE, SHORT_INPUT, NO_SLOT) by",
        ],
    ),
    texts(
        &[(HEADER, "first bit. Never refused.", "first bit.")],
        &["the comment of hansobrik_fresh names no refusals"],
    ),
    texts(
        &[(
            ORDERS,
            "(strip_refusal f long given) (format_test f ∷ (2,",
            "(strip_refusal f long given) (format_test f ∷ (4,",
        )],
        &[
            "hansobrik_strip: refused with",
            "(FORMAT, NUMBER, SHORT_OUTPUT) by",
            ORDERS,
        ],
    ),
    texts(
        &[(ORDERS, "pub put_real :", "pub put_reals :")],
        &["Orders has no row for hansobrik_put_real"],
    ),
    // sizes, names, the version
    texts(
        &[(
            HEADER,
            "HANSOBRIK_WIRE_BYTES_2 = 49500",
            "HANSOBRIK_WIRE_BYTES_2 = 49501",
        )],
        &["HANSOBRIK_WIRE_BYTES_2 is 49501, but 49500", FORMATS],
    ),
    texts(
        &[(
            HEADER,
            "HANSOBRIK_S_VISSR_ONES = 3",
            "HANSOBRIK_S_VISSR_ONES = 4",
        )],
        &["HANSOBRIK_S_VISSR_ONES is 4, but 3", FORMATS],
    ),
    texts(
        &[(
            FORMATS,
            "SYNC_BITS_3: usize = Self::SYNC_BITS_1;",
            "SYNC_BITS_3: usize = Self::SYNC_BITS_2;",
        )],
        &["HANSOBRIK_SYNC_BYTES_3 is 1250, but 2500", FORMATS],
    ),
    texts(
        &[(SIZES, "pub const WIRE_BYTES_3: usize = 45_606;", "")],
        &[SIZES, "WIRE_BYTES_3 is missing"],
    ),
    texts(
        &[(HEADER, "HANSOBRIK_SYNC_BYTES_1 = 1250,", "")],
        &[HEADER, "HANSOBRIK_SYNC_BYTES_1 is missing"],
    ),
    texts(
        &[(
            HEADER,
            "HANSOBRIK_SYNC_BYTES_1 = 1250,",
            "HANSOBRIK_SYNC_BYTES_1 = 1250, HANSOBRIK_MORE = 1,",
        )],
        &["HANSOBRIK_MORE: the source has no such name"],
    ),
    texts(
        &[(
            SIZES,
            "IR_PIXELS: usize = 2_291",
            "IR_PIXELS: usize = 2_292",
        )],
        &[SIZES, "IR_PIXELS is 2292, but 2291", LAYOUT],
    ),
    texts(
        &[(
            FORMATS,
            "SYNC_BITS_2: usize = 20000",
            "SYNC_BITS_2: usize = 20008",
        )],
        &["HANSOBRIK_WIRE_BYTES_2 is 49500, but 49501", FORMATS],
    ),
    texts(
        &[(
            READER,
            "LARGEST_SETTING: u8 = 6;",
            "LARGEST_SETTING: u8 = 7;",
        )],
        &["HANSOBRIK_LARGEST_SETTING is 6, but 7", READER],
    ),
    texts(
        &[(
            REPORT,
            "MOST_LINES: u64 = 100000;",
            "MOST_LINES: u64 = 100001;",
        )],
        &["HANSOBRIK_REPORT_LINES is 100000, but 100001", REPORT],
    ),
    texts(
        &[(DESK, "MOST_SLOTS: usize = 8;", "MOST_SLOTS: usize = 9;")],
        &["HANSOBRIK_MOST_SLOTS is 8, but 9", DESK],
    ),
    texts(
        &[(RACK, "used: 2,", "used: 3,")],
        &["HANSOBRIK_HELD is 2, but 3", RACK],
    ),
    texts(
        &[(SIZES, "CAPTURE: u8 = 2;", "CAPTURE: u8 = 3;")],
        &[SIZES, "CAPTURE is 3, but 2"],
    ),
    texts(
        &[(SIZES, "CHANNELS: u8 = 4;", "CHANNELS: u8 = 3;")],
        &[SIZES, "CHANNELS is 3, but 4", "rack_report"],
    ),
    texts(
        &[(BLOCK, "size: 10250,", "size: 10225,")],
        &["HANSOBRIK_MANAM_BYTES is 10250, but 10225", BLOCK],
    ),
    texts(
        &[(SIZES, "pub const SEGMENTS: u8 = 25;", "")],
        &[SIZES, "SEGMENTS is missing"],
    ),
    texts(
        &[(HEADER, "HANSOBRIK_MIRROR_1B = 2", "HANSOBRIK_MIRROR_1B = 5")],
        &["HANSOBRIK_MIRROR_1B is 5, but 2", NAMED],
    ),
    texts(
        &[(DOCUMENTATION, "=> ScanMode::Limited", "=> ScanMode::Single")],
        &[DOCUMENTATION, "HANSOBRIK_SCAN_LIMITED is missing"],
    ),
    texts(
        &[(
            HEADER,
            "#define HANSOBRIK_VERSION_MINOR",
            "#define HANSOBRIK_VERSION_MINOR 1 +",
        )],
        &[
            "by cc:",
            "HANSOBRIK_VERSION_MINOR is",
            "by the source",
            GROUND,
        ],
    ),
    texts(
        &[(
            HEADER,
            "#define HANSOBRIK_VERSION_TEXT \"",
            "#define HANSOBRIK_VERSION_TEXT \"1",
        )],
        &["HANSOBRIK_VERSION_TEXT is \"1", GROUND],
    ),
    texts(
        &[(MANIFEST, "version = \"", "version = \"1")],
        &[MANIFEST, "version = \"1", "but", GROUND],
    ),
    // what the texts do not show, and what the compilers see without them
    texts(
        &[(
            HEADER,
            "typedef struct",
            "\n#pragma pack(1)\ntypedef struct",
        )],
        &[
            "by cc:",
            "the size of hansobrik_count_answer is 9, but 16 by the source",
        ],
    ),
    texts(
        &[(
            RAW,
            "#[repr(C)]",
            "use core::primitive::u32 as u16; #[repr(C)]",
        )],
        &[
            "by rustc:",
            "not raw::StepAnswer.register as u16",
            "found `*const u32`",
        ],
    ),
    texts(
        &[(HEADER, "extern \"C\" {", "extern \"C++\" {")],
        &["by c++:", "hansobrik_read(", "with 'C' linkage"],
    ),
    compilers(
        &[(HEADER, "uint32_t marks; /*", "uint16_t marks; /*")],
        &["by cc:", "not hansobrik_assembly.marks as uint32_t"],
    ),
    compilers(
        &[(HEADER, "uint32_t marks; /*", "uint16_t marks; /*")],
        &[
            "by c++:",
            "the size of hansobrik_add_answer is 10, but 12 by the source",
        ],
    ),
    compilers(
        &[(
            RAW,
            "pub calibration: u16,",
            "pub calibration: u16, pub gap: u16,",
        )],
        &[
            "by rustc:",
            "the offset of raw::Assembly.manam is 8, but 6 by the source",
        ],
    ),
    compilers(
        &[(RAW, "pub check_start: u16,", "pub check_start: u32,")],
        &[
            "by rustc:",
            "the offset of raw::FormatAnswer.check_start is 4, but 2 by the source",
        ],
    ),
    compilers(
        &[(RAW, "pub least: u16,", "pub least: u32,")],
        &[
            "by rustc:",
            "the size of raw::PassReport is 520, but 488 by the source",
        ],
    ),
    compilers(
        &[(RAW, "pub holders: u16,", "pub holders: u32,")],
        &[
            "by rustc:",
            "the size of raw::LineDesk is 104, but 72 by the source",
        ],
    ),
    compilers(
        &[(
            HEADER,
            "uint8_t hour; uint8_t minute;",
            "uint8_t minute; uint8_t hour;",
        )],
        &[
            "by c++:",
            "the offset of hansobrik_date_answer.hour is 4, but 3 by the source",
        ],
    ),
    compilers(
        &[(
            HEADER,
            "hansobrik_answers(uint8_t format, const uint8_t *line",
            "hansobrik_answers(uint8_t format, uint8_t *line",
        )],
        &[
            "by cc:",
            "not hansobrik_answers as hansobrik_twelve_answer (uint8_t, const uint8_t *, size_t)",
        ],
    ),
    compilers(
        &[(
            HEADER,
            "HANSOBRIK_WIRE_BYTES_2 = 49500",
            "HANSOBRIK_WIRE_BYTES_2 = 49501",
        )],
        &[
            "by cc:",
            "HANSOBRIK_WIRE_BYTES_2 is 49501, but 49500 by the source",
        ],
    ),
    compilers(
        &[(RAW, "pub magnitude: u64,", "pub magnitude: u32,")],
        &[
            "by rustc:",
            "the size of raw::RealAnswer is 8, but 16 by the source",
        ],
    ),
    compilers(
        &[(
            RAW,
            "pub set_line: u16, pub reset_line: u16,",
            "pub reset_line: u16, pub set_line: u16,",
        )],
        &[
            "by rustc:",
            "the offset of raw::LinesAnswer.set_line is 4, but 2 by the source",
        ],
    ),
    compilers(
        &[(RAW, "piece: *const u8", "piece: *mut u8")],
        &[
            "by rustc:",
            "not raw::hansobrik_read as fn(u8, u8, raw::State, *const u8, usize",
        ],
    ),
    compilers(
        &[(
            SIZES,
            "IR_PIXELS: usize = 2_291",
            "IR_PIXELS: usize = 2_292",
        )],
        &[
            "by rustc:",
            "sizes::IR_PIXELS is 2292, but 2291 by the source",
        ],
    ),
    compilers(
        &[(
            REFUSAL,
            "FIELD: Refusal = Refusal(7)",
            "FIELD: Refusal = Refusal(8)",
        )],
        &["by rustc:", "refusal::Refusal::FIELD is 8, but 7 by"],
    ),
];
