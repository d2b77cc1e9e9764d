//! The sizes, out of the Rattle text of the crates that have them.

use crate::numbers::Named;
use crate::tokens::{number, tokens, Cursor, Token};
use crate::tree::Tree;

/// Where a size comes from.
enum From {
    /// An expression over the constants of the file.
    Constants(&'static str),
    /// The field of a struct, the first behind some words.
    Field(&'static str, &'static str),
    /// The same, bits as whole bytes.
    Bytes(&'static str, &'static str),
}

use From::{Bytes, Constants, Field};

pub const FORMATS: &str = "crates/formats/src/lib.rt";
pub const LAYOUT: &str = "crates/sector_table/src/layout.rt";
const STRIP: &str = "crates/visible/src/strip.rt";
pub const BLOCK: &str = "crates/blocks/src/block.rt";
const MARKS: &str = "crates/blocks/src/marks.rt";
const SCRAMBLE: &str = "crates/scramble/src/lib.rt";
pub const READER: &str = "crates/reader_refusals/src/lib.rt";
const TWELVE: &str = "crates/rack_sector/src/lib.rt";
const PASS: &str = "crates/rack_report/src/lib.rt";
pub const REPORT: &str = "crates/report_record/src/lib.rt";
pub const DESK: &str = "crates/desk_record/src/lib.rt";
const CONSUMERS: &str = "crates/desk/src/lib.rt";
pub const RACK: &str = "crates/rack_desk/src/lib.rt";

/// Every size by its name in Rust; in the header the prefix comes before it.
const SIZES: [(&str, &str, From); 41] = [
    ("S_VISSR", FORMATS, Field("fn svissr()", "number")),
    ("HIRID", FORMATS, Field("fn hirid()", "number")),
    ("S_VISSR_ONES", FORMATS, Field("fn svissr_ones()", "number")),
    ("LARGEST_SETTING", READER, Constants("LARGEST_SETTING")),
    ("LINE_BYTES", FORMATS, Constants("LINE_BYTES")),
    ("WIRE_BYTES_1", FORMATS, Constants("BYTES_1")),
    ("WIRE_BYTES_2", FORMATS, Constants("BYTES_2")),
    ("WIRE_BYTES_3", FORMATS, Constants("BYTES_3")),
    ("SYNC_BYTES_1", FORMATS, Constants("SYNC_BITS_1 / 8")),
    ("SYNC_BYTES_2", FORMATS, Constants("SYNC_BITS_2 / 8")),
    ("SYNC_BYTES_3", FORMATS, Constants("SYNC_BITS_3 / 8")),
    ("SECTORS", TWELVE, Field("answers: [u8", ";")),
    ("IR_PIXELS", LAYOUT, Field("2..=4 => Layout", "count")),
    ("VIS_PIXELS", LAYOUT, Field("5..=8 => Layout", "count")),
    ("STRIP_BYTES", STRIP, Constants("STRIP_BYTES")),
    (
        "DATA_BYTES_8",
        LAYOUT,
        Bytes("2..=4 => Layout", "data_bits"),
    ),
    (
        "DATA_BYTES_6",
        LAYOUT,
        Bytes("5..=8 => Layout", "data_bits"),
    ),
    (
        "DATA_BYTES_2",
        LAYOUT,
        Bytes("9..=11 => Layout", "data_bits"),
    ),
    ("DATA_BYTES_10", LAYOUT, Bytes("_ => Layout", "data_bits")),
    ("MAPPING", BLOCK, Constants("MAPPING")),
    ("ORBIT", BLOCK, Constants("ORBIT")),
    ("MANAM", BLOCK, Constants("MANAM")),
    ("CALIBRATION_1", BLOCK, Constants("CALIBRATION_1")),
    ("CALIBRATION_2", BLOCK, Constants("CALIBRATION_2")),
    ("MAPPING_BYTES", BLOCK, Field("MAPPING => Block", "size")),
    ("ORBIT_BYTES", BLOCK, Field("ORBIT => Block", "size")),
    ("MANAM_BYTES", BLOCK, Field("MANAM => Block", "size")),
    ("CALIBRATION_1_BYTES", BLOCK, Field("CALIBRATION_1 => Block", "size")),
    ("CALIBRATION_2_BYTES", BLOCK, Field("CALIBRATION_2 => Block", "size")),
    ("SEGMENTS", BLOCK, Constants("SEGMENTS")),
    ("CHANNELS", PASS, Field("channels: [ChannelTally", ";")),
    ("REPORT_LINES", REPORT, Constants("MOST_LINES")),
    ("LEAST_SLOTS", DESK, Constants("LEAST_SLOTS")),
    ("MOST_SLOTS", DESK, Constants("MOST_SLOTS")),
    ("FREE", RACK, Field("Use::Free => Self", "used")),
    (
        "FILLING",
        RACK,
        Field("Use::Filling(serial) => Self", "used"),
    ),
    ("HELD", RACK, Field("capture, } => Self", "used")),
    ("PREVIEW", CONSUMERS, Constants("PREVIEW")),
    ("CAPTURE", CONSUMERS, Constants("CAPTURE")),
    ("ALL_MARKS", MARKS, Constants("ALL")),
    ("FIFTEEN_ONES", SCRAMBLE, Constants("FIFTEEN_ONES")),
];

pub fn sizes(tree: &Tree) -> Result<Vec<Named>, String> {
    let mut out = Vec::new();
    for (name, file, from) in &SIZES {
        let text = tokens(tree.text(file)?);
        let found = match from {
            Constants(expression) => of_constants(file, &text, expression),
            Field(after, field) => of_field(file, &text, after, field),
            Bytes(after, field) => {
                of_field(file, &text, after, field).map(|(bits, line)| (bits.div_ceil(8), line))
            }
        };
        let (number, line) = found.map_err(|words| format!("{words}: {name} is not read"))?;
        out.push(Named {
            name: name.to_string(),
            number,
            at: format!("{file}:{line}"),
        });
    }
    Ok(out)
}

/// Where some words end, the first time that they stand there.
fn after(text: &[Token], words: &str) -> Option<usize> {
    let words = tokens(words);
    let found = text.windows(words.len()).position(|window| {
        let mut pairs = window.iter().zip(&words);
        pairs.all(|(there, asked)| there.text == asked.text)
    });
    found.map(|at| at + words.len())
}

/// The plain number of `field: number`, with its line. The sign `;` is the one
/// within an array's type.
fn of_field(file: &str, text: &[Token], words: &str, field: &str) -> Result<(u64, usize), String> {
    let missing = || format!("{file}: there is no `{field}` behind `{words}`");
    let start = after(text, words).ok_or_else(missing)?;
    let place = text[start..].iter().position(|t| t.text == field);
    let place = start + place.ok_or_else(missing)?;
    let colon = text.get(place + 1).is_some_and(|t| t.text == ":");
    let value = text
        .get(place + 1 + usize::from(colon))
        .ok_or_else(missing)?;
    let found = number(&value.text).ok_or_else(missing)?;
    Ok((found, value.line))
}

/// The value of an expression over the constants of a file, with the line of
/// the first one.
pub fn of_constants(file: &str, text: &[Token], words: &str) -> Result<(u64, usize), String> {
    let words = tokens(words);
    let value = value(file, text, &words)?;
    let first = words.first().map_or("", |t| &t.text);
    let line = constant(text, first)
        .and_then(|c| c.first())
        .map_or(1, |t| t.line);
    Ok((value, line))
}

/// The words of a constant's value: `const NAME: TYPE = ..;`
fn constant<'a>(text: &'a [Token], name: &str) -> Option<&'a [Token]> {
    let start = after(text, &format!("const {name}"))?;
    let rest = &text[start..];
    let equals = rest.iter().position(|t| t.text == "=")?;
    let end = rest.iter().position(|t| t.text == ";")?;
    rest.get(equals + 1..end)
}

fn value(file: &str, text: &[Token], words: &[Token]) -> Result<u64, String> {
    let mut cursor = Cursor::new(file, words);
    let found = sum(file, text, &mut cursor)?;
    match cursor.done() {
        true => Ok(found),
        false => Err(cursor.wrong("the end")),
    }
}

fn sum(file: &str, text: &[Token], cursor: &mut Cursor) -> Result<u64, String> {
    let mut out = product(file, text, cursor)?;
    while cursor.take("+") {
        out += product(file, text, cursor)?;
    }
    Ok(out)
}

fn product(file: &str, text: &[Token], cursor: &mut Cursor) -> Result<u64, String> {
    let mut out = one(file, text, cursor)?;
    loop {
        if cursor.take("*") {
            out *= one(file, text, cursor)?;
        } else if cursor.take("/") {
            let by = one(file, text, cursor)?;
            out = out
                .checked_div(by)
                .ok_or_else(|| cursor.wrong("a number that is not 0"))?;
        } else {
            return Ok(out);
        }
    }
}

fn one(file: &str, text: &[Token], cursor: &mut Cursor) -> Result<u64, String> {
    if cursor.take("(") {
        let out = sum(file, text, cursor)?;
        cursor.expect(")")?;
        return Ok(out);
    }
    if let Ok(found) = cursor.number() {
        return Ok(found);
    }
    cursor.take_all(&["Self", "::"]);
    let name = cursor.name()?;
    let words = constant(text, &name).ok_or_else(|| format!("{file}: there is no const {name}"))?;
    value(file, text, words)
}
