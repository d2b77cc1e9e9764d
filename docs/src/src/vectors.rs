//! "Both sides of each edge", worked out by the calls themselves, and the fixed
//! bits of SYNC. `second vectors` prints this.

use crate::bits;
use crate::blocks::ir_place;
use crate::document::LAST_PLACE;
use crate::format::{Format, HIRID, INFORMATION_BITS, LINE_BYTES, S_VISSR, S_VISSR_ONES};
use crate::lines;
use crate::numbers::{read_bcd, read_i, read_r, R};
use crate::pattern;
use crate::reader::{read, State};
use crate::scramble::{after_sync, sync, tail, turn, TAIL_BITS};
use crate::sectors::{accepted, check_word, join, put_data, SECTORS};

fn hex(bytes: &[u8]) -> String {
    let words: Vec<String> = bytes.iter().map(|byte| format!("{byte:02X}")).collect();
    words.join(" ")
}

fn r_text(r: &R) -> String {
    let sign = if r.negative { "minus" } else { "plus" };
    format!(
        "{sign} {} places {} f64 {:?}",
        r.magnitude,
        r.places,
        r.value()
    )
}

/// The check word of a DOC sector of zeros but for the data bits given, which
/// are counted from the end: 0 is the last.
fn doc_check_word(start: u16, set_from_the_end: &[usize]) -> u16 {
    let mut id_and_data = SECTORS[0].id();
    id_and_data.extend(vec![0; SECTORS[0].data_bits()]);
    for place in set_from_the_end {
        let last = id_and_data.len() - 1;
        id_and_data[last - place] = 1;
    }
    check_word(start, &id_and_data)
}

/// What a format says of the DOC sector of a line.
fn judged(format_number: usize, line: &[u8]) -> String {
    match accepted(format_number, line, 1) {
        Ok(()) => "accepted".to_string(),
        Err(number) => format!("refused {number}"),
    }
}

/// A line whose DOC sector of zeros has the check word of format 1 or of 3, as
/// either format has it.
fn zeros_row(written_in: usize) -> String {
    let mut line = vec![0; LINE_BYTES];
    put_data(written_in, &mut line, 1, &vec![0; SECTORS[0].data_bytes()]).expect("served");
    format!(
        "DOC of zeros with {}: format 1 {}, format 3 {}",
        hex(&line[LAST_PLACE..LAST_PLACE + 2]),
        judged(1, &line),
        judged(3, &line)
    )
}

/// The lines of a recording of the tail's first bits and zero bits behind.
fn lines_of(tail_bits: usize, zero_bits: usize) -> usize {
    let mut recording = tail()[..tail_bits].to_vec();
    recording.extend(vec![0; zero_bits]);
    lines::lines(0, &recording).len()
}

fn read_zeros(piece: &[u8], buffer_bytes: usize) -> String {
    let mut buffer = vec![0; buffer_bytes];
    match read(1, 0, &mut State::default(), piece, &mut buffer) {
        Ok(answer) => format!("taken {} complete {}", answer.taken, answer.complete),
        Err(number) => format!("refusal {number}"),
    }
}

/// What is searched of written lines: the dummy of a line and then the SYNC of
/// the next one. Without a dummy it is SYNC, as at the start of a recording.
pub fn dummy_and_sync(format: &Format) -> Vec<u8> {
    let plain = vec![0; INFORMATION_BITS + format.dummy_bits];
    let mut bits = turn(&plain).split_off(INFORMATION_BITS);
    bits.extend(sync(format.sync_bits));
    bits
}

/// The windows before the last one that come nearest to the tail: the number of
/// places in which they differ from it, and where each begins.
pub fn nearest_earlier(bits: &[u8]) -> (usize, Vec<usize>) {
    let apart = |window| bits::differences(window, tail());
    let distances: Vec<usize> = bits.windows(TAIL_BITS).map(apart).collect();
    let (_last, earlier) = distances.split_last().expect("64 bits or more");
    let least = *earlier.iter().min().expect("65 bits or more");
    let places = (0..earlier.len()).filter(|&place| earlier[place] == least);
    (least, places.collect())
}

fn nearest_row(name: &str, bits: &[u8]) -> String {
    let (least, places) = nearest_earlier(bits);
    format!(
        "{name}: earlier windows are {least} or more places from the tail, {least} at {places:?}"
    )
}

/// FNV-1a of 64 bits: from 14695981039346656037, each byte is taken in by
/// exclusive or and a product with 1099511628211 modulo 2^64. It stands for
/// whole lines in print. (A remainder would not do: every accepted sector
/// leaves 0, so all good lines would print the same.)
pub fn fnv_1a(bytes: &[u8]) -> u64 {
    bytes
        .iter()
        .fold(14_695_981_039_346_656_037, |hash, &byte| {
            (hash ^ u64::from(byte)).wrapping_mul(1_099_511_628_211)
        })
}

fn wire_row(format_number: usize, name: &str, line: &[u8]) -> String {
    let wire = pattern::on_the_wire(format_number, line).expect("a whole line");
    format!(
        "format {format_number} {name}: plain {:016X} wire {:016X} bytes {}",
        fnv_1a(line),
        fnv_1a(&wire),
        wire.len()
    )
}

/// The text of `second vectors`, row by row.
pub fn rows() -> Vec<String> {
    let mut rows = Vec::new();
    let mut add = |row: String| rows.push(row);

    add(format!("P1 {}", hex(&bits::to_bytes(&after_sync(32)))));
    add(format!("P2 {}", hex(&bits::to_bytes(&turn(&[0; 32])))));
    let mut line = vec![0; LINE_BYTES];
    put_data(1, &mut line, 1, &vec![0; SECTORS[0].data_bytes()]).expect("served");
    let judged = judged(1, &line);
    add(format!("P3 {:04X} {judged}", doc_check_word(0, &[])));
    add(format!("P4 {:04X}", doc_check_word(0, &[0])));
    add(format!("P5 {:04X}", doc_check_word(0, &[1])));
    add(format!("P6 {}", join(255, 3)));
    add(format!("P7 {}", join(1, 0)));
    let p8 = read_r(&[0x00, 0x00, 0x07, 0xB5], 4, 2).expect("served");
    add(format!("P8 {}", r_text(&p8)));
    let p9 = read_r(&[0x80, 0xC8, 0x10, 0x42], 4, 5).expect("served");
    add(format!("P9 {}", r_text(&p9)));
    add(format!("P10 {}", read_i(&[0x2D, 0x9C], 2).expect("served")));
    add(format!(
        "P11 {} refusal {}",
        read_bcd(&[0x97, 0x65], 2).expect("served"),
        read_bcd(&[0x9A, 0x65], 2).expect_err("a digit over 9"),
    ));
    let p12 = ir_place(1, 1_023);
    add(format!("P12 {}-{}", p12, p12 + 3));

    add(format!(
        "tail bits 63 then the end: lines {}",
        lines_of(63, 0)
    ));
    add(format!(
        "tail bits 64 and 354847: lines {}",
        lines_of(64, INFORMATION_BITS - 1)
    ));
    add(format!(
        "tail bits 64 and 354848: lines {}",
        lines_of(64, INFORMATION_BITS)
    ));
    add(format!("empty piece: {}", read_zeros(&[], LINE_BYTES)));
    add(format!(
        "buffer 44355: {}",
        read_zeros(&[0], LINE_BYTES - 1)
    ));
    add(format!("buffer 44356: {}", read_zeros(&[0], LINE_BYTES)));

    for (number, format) in [(1, S_VISSR), (2, HIRID), (3, S_VISSR_ONES)] {
        let sync = sync(format.sync_bits);
        add(format!(
            "format {number} SYNC {} opens {} ends {} {}",
            format.sync_bits,
            bits::to_text(&sync[..15]),
            bits::to_text(&sync[format.sync_bits - 30..format.sync_bits - 15]),
            bits::to_text(&sync[format.sync_bits - 15..]),
        ));
    }
    add(format!("tail {}", hex(&bits::to_bytes(tail()))));
    add(nearest_row("format 1 SYNC", &sync(S_VISSR.sync_bits)));
    add(nearest_row("format 2 SYNC", &sync(HIRID.sync_bits)));
    add(nearest_row(
        "format 2 dummy and SYNC",
        &dummy_and_sync(&HIRID),
    ));
    add(zeros_row(1));
    add(zeros_row(3));

    for (index, sector) in SECTORS.iter().enumerate() {
        let mut id_and_data = sector.id();
        id_and_data.extend(vec![0; sector.data_bits()]);
        let word = |format: Format| check_word(format.check_start, &id_and_data);
        add(format!(
            "sector {} {} of zeros: check word {:04X}, in format 3 {:04X}",
            index + 1,
            sector.name,
            word(S_VISSR),
            word(S_VISSR_ONES)
        ));
    }
    for number in [1, 2, 3] {
        let zeros = pattern::line_of_zeros(number).expect("served");
        add(wire_row(number, "line of zeros", &zeros));
        for k in [0, 1, 199] {
            let line = pattern::line(number, k, 0).expect("served");
            add(wire_row(number, &format!("pattern line {k}"), &line));
        }
    }
    rows
}
