//! The rows of `second fields`.

use second::fields::Fields;
use second::format::LINE_BYTES;
use second::numbers::R;
use second::pattern;
use second::sectors;

/// All rows of a recording of plain lines.
fn rows(format: usize, lines: impl Iterator<Item = Vec<u8>>) -> Vec<String> {
    let mut fields = Fields::new(format, 0);
    let mut rows = Vec::new();
    for line in lines {
        let wire = pattern::on_the_wire(format, &line).unwrap();
        rows.extend(fields.feed(&wire).unwrap());
    }
    rows.extend(fields.end());
    rows
}

/// All rows of the recording of `second signal N FORMAT`.
fn signal_rows(format: usize, n: u64) -> Vec<String> {
    rows(format, (0..n).map(|k| pattern::line(format, k, 0).unwrap()))
}

/// All rows of the recording of `second signal 200 FORMAT 0 T`. Only the sector
/// DOC is looked at, so the others are not made.
fn tables_rows(format: usize, tables: u64) -> Vec<String> {
    let line = |k| {
        let mut line = vec![0; LINE_BYTES];
        let doc = pattern::doc(format, k, tables);
        sectors::put_data(format, &mut line, 1, &doc).unwrap();
        line
    };
    rows(format, (0..200).map(line))
}

#[test]
fn a_signal_of_format_1_is_whole() {
    let rows = signal_rows(1, 200);
    // Lines, segments, grid points, orbit, albedos, temperatures, total.
    assert_eq!(rows.len(), 200 + 5 + 5 + 1 + 12 + 12 + 1);
    assert_eq!(
        rows[0],
        "line 1 mode full mirror 1-A set 100 reset 2391 count 100 position 0 \
         date 2005-01-01 00:00:00.00 segment 0 repeat 0 blocks 0 0 0 0 0"
    );
    assert_eq!(
        rows[199],
        "line 200 mode unnamed 90 mirror unnamed 165 set 100 reset 2391 count 299 position 199 \
         date 2005-01-01 00:01:59.40 segment 24 repeat 7 blocks 0 0 0 0 0"
    );
    assert!(rows[1].contains(" mode limited mirror 1-B "));
    assert!(rows[2].contains(" mode single mirror 2-A "));
    assert!(rows[3].contains(" mirror 2-B "));
    for row in &rows[..200] {
        assert!(!row.contains("refused"), "{row}");
        assert!(row.ends_with(" blocks 0 0 0 0 0"), "{row}");
    }
    let blocks = [
        "mapping 25/25",
        "orbit 25/25",
        "MANAM 25/25 revision 731",
        "calibration-1 25/25 revision 2101",
        "calibration-2 25/25 revision 2101",
    ];
    assert_eq!(rows[200..205], blocks);

    // Bytes 1-4 of the mapping block, by the pattern: (1 + 97) div 5, ...
    let byte = |b, q| u64::from(pattern::block_byte(b, q, false));
    let (line, pixel) = (256 * byte(1, 1) + byte(1, 2), 256 * byte(1, 3) + byte(1, 4));
    let point = format!(
        "mapping row 0 column 0 line {line} pixel {pixel} latitude 60 north longitude 45 east"
    );
    assert_eq!(rows[205], point);
    assert!(rows[208].starts_with("mapping row 24 column 24 "));
    assert!(rows[208].ends_with(" latitude 60 south longitude 165 east"));
    assert!(rows[209].ends_with(" latitude 0 north longitude 110 east"));

    // A number of the pattern at a place: sign, whole part, point, m digits.
    let number = |b: usize, places: std::ops::RangeInclusive<usize>, m: u32| {
        let bits = 8 * places.clone().count() - 1;
        let word = places.fold(0, |word, q| 256 * word + byte(b, q));
        let (sign, magnitude) = (["", "-"][(word >> bits) as usize], word % (1 << bits));
        let (whole, rest) = (magnitude / 10_u64.pow(m), magnitude % 10_u64.pow(m));
        format!("{sign}{whole}.{rest:0width$}", width = m as usize)
    };
    // The epoch at bytes 157-162 of the orbit block, the eccentricity at 169-174.
    assert!(rows[210].starts_with(&format!("orbit epoch {} axis ", number(2, 157..=162, 8))));
    let eccentricity = format!(" eccentricity {} inclination ", number(2, 169..=174, 10));
    assert!(rows[210].contains(&eccentricity));
    assert!(rows[210].ends_with(&format!(" anomaly {}", number(2, 193..=198, 8))));

    // VIS 1, level 0, at bytes 257-260 of calibration-2; IR 1, level 1,023, at
    // bytes 5373-5376.
    assert_eq!(
        rows[211],
        format!("albedo VIS1 level 0 {}", number(5, 257..=260, 6))
    );
    let temperature = format!("temperature IR1 level 1023 {}", number(5, 5_373..=5_376, 3));
    assert_eq!(rows[225], temperature);
    assert_eq!(rows[235], "total 200");
}

/// All places are written, and the sign of a zero.
#[test]
fn numbers_in_decimal() {
    let text = |negative, magnitude, places| {
        R {
            negative,
            magnitude,
            places,
        }
        .to_string()
    };
    assert_eq!(text(false, 0, 0), "0");
    assert_eq!(text(true, 0, 3), "-0.000");
    assert_eq!(text(false, 7, 3), "0.007");
    assert_eq!(text(false, 1_234, 3), "1.234");
    assert_eq!(text(true, 12_340, 1), "-1234.0");
    assert_eq!(text(false, 1, 15), "0.000000000000001");
}

#[test]
fn format_2_has_no_calibration_2() {
    let rows = signal_rows(2, 200);
    assert_eq!(rows.len(), 200 + 5 + 5 + 1 + 1);
    for row in &rows[..200] {
        assert!(!row.contains("refused"), "{row}");
        assert!(row.ends_with(" blocks 0 0 0 0 4"), "{row}");
    }
    assert_eq!(rows[202], "MANAM 25/25 revision 731");
    assert_eq!(rows[203], "calibration-1 25/25 revision 2101");
    assert_eq!(rows[204], "calibration-2 not in HiRID");
    // The grid begins at 80 east and ends at 160 west.
    assert!(rows[205].ends_with(" latitude 60 north longitude 80 east"));
    assert!(rows[206].ends_with(" latitude 60 north longitude 160 west"));
    assert!(rows[207].ends_with(" latitude 60 south longitude 80 east"));
    assert!(rows[208].ends_with(" latitude 60 south longitude 160 west"));
    assert!(rows[209].ends_with(" latitude 0 north longitude 145 east"));
    assert!(rows[210].starts_with("orbit epoch "));
    assert_eq!(rows[211], "total 200");
}

/// New tables come with line 101: the blocks that go by them stop with the
/// segments of the first 100 lines, and no entry of theirs is shown.
#[test]
fn new_tables_are_foreign_to_the_blocks_of_the_old_ones() {
    for (format, before, after, last) in [
        (
            1,
            "0 0 0 0 0",
            "0 0 14 14 14",
            "calibration-2 13/25 foreign 100",
        ),
        (2, "0 0 0 0 4", "0 0 14 14 4", "calibration-2 not in HiRID"),
    ] {
        let rows = tables_rows(format, 101);
        assert_eq!(rows.len(), 200 + 5 + 5 + 1 + 1);
        for (k, row) in rows[..200].iter().enumerate() {
            let answers = if k < 100 { before } else { after };
            assert!(row.ends_with(&format!(" blocks {answers}")), "{row}");
        }
        let blocks = [
            "mapping 25/25",
            "orbit 25/25",
            "MANAM 13/25 foreign 100",
            "calibration-1 13/25 foreign 100",
            last,
        ];
        assert_eq!(rows[200..205], blocks);
        assert!(rows[205].starts_with("mapping row 0 column 0 line "));
        assert!(rows[210].starts_with("orbit epoch "));
        assert_eq!(rows[211], "total 200");
    }
}

/// New tables that come behind the last segment's first line, or with line 1.
#[test]
fn finished_blocks_say_their_revision() {
    let late = tables_rows(1, 194);
    let blocks = [
        "mapping 25/25",
        "orbit 25/25",
        "MANAM 25/25 revision 731 foreign 7",
        "calibration-1 25/25 revision 2101 foreign 7",
        "calibration-2 25/25 revision 2101 foreign 7",
    ];
    assert_eq!(late[200..205], blocks);
    assert_eq!(late.len(), 200 + 5 + 5 + 1 + 12 + 12 + 1);

    let new = tables_rows(1, 1);
    let blocks = [
        "mapping 25/25",
        "orbit 25/25",
        "MANAM 25/25 revision 732",
        "calibration-1 25/25 revision 2102",
        "calibration-2 25/25 revision 2102",
    ];
    assert_eq!(new[200..205], blocks);
    // Grid points and elements are the same; each albedo and each temperature is
    // that of its own table.
    assert_eq!(new[205..211], late[205..211]);
    for row in 211..235 {
        assert_ne!(new[row], late[row]);
    }
}

/// One line each whose calls are refused, and a negative position.
#[test]
fn refused_groups() {
    // The pattern's DOC sector of line 0 with some bytes changed, by place.
    let changed = |places: &[(usize, u8)]| {
        let mut doc = pattern::doc(1, 0, 0);
        for &(place, byte) in places {
            doc[place - 3] = byte;
        }
        let mut line = pattern::line(1, 0, 0).unwrap();
        sectors::put_data(1, &mut line, 1, &doc).unwrap();
        line
    };
    let mut bad_check = changed(&[]);
    bad_check[2] ^= 1;
    let lines = vec![
        bad_check,
        changed(&[(9, 0x0A)]),
        changed(&[(22, 0x13)]),
        changed(&[(194, 25)]),
        changed(&[(11, 0x00), (12, 0x01)]),
        changed(&[(197, 0xEE)]),
    ];
    let numbers = "set 100 reset 2391 count 100 position 0";
    let date = "date 2005-01-01 00:00:00.00";
    let segment = "segment 0 repeat 0";
    let head = "mode full mirror 1-A";
    let expected = [
        "line 1 mode refused 5 mirror refused 5 set refused 5 date refused 5 \
         segment refused 5 blocks 5 5 5 5 5"
            .to_string(),
        format!("line 2 {head} set refused 7 {date} {segment} blocks 0 0 0 0 0"),
        format!("line 3 {head} {numbers} date refused 7 {segment} blocks 0 0 0 0 0"),
        format!("line 4 {head} {numbers} {date} segment refused 7 blocks 7 7 7 7 7"),
        format!(
            "line 5 {head} set 100 reset 2391 count 1 position -99 {date} {segment} \
             blocks 0 0 0 0 0"
        ),
        format!("line 6 {head} {numbers} {date} {segment} blocks 8 0 0 0 0"),
    ];
    let rows = rows(1, lines.into_iter());
    assert_eq!(rows[..6], expected);
    // Only segment 0 is there, and of an unfinished block no entry is shown.
    let end = [
        "mapping 1/25",
        "orbit 1/25",
        "MANAM 1/25",
        "calibration-1 1/25",
        "calibration-2 1/25",
        "total 6",
    ];
    assert_eq!(rows[6..], end);
}

/// A recording that stops inside a line, and one that stops between lines.
#[test]
fn an_unfinished_line() {
    let wire = pattern::on_the_wire(1, &pattern::line(1, 0, 0).unwrap()).unwrap();
    // SYNC has 10,000 bits, 1,250 bytes.
    for (bytes, bits) in [
        (1_249, None),
        (1_250, Some(0)),
        (1_251, Some(8)),
        (45_605, Some(354_840)),
        (45_606, None),
    ] {
        let mut fields = Fields::new(1, 0);
        fields.feed(&wire[..bytes]).unwrap();
        assert_eq!(fields.unfinished(), bits, "{bytes} bytes");
    }
    assert_eq!(
        second::listing::unfinished(8),
        "an unfinished line, 8 of 354848 bits"
    );
}

/// The rows do not depend on where the recording is cut.
#[test]
fn pieces_change_nothing() {
    let mut recording = Vec::new();
    for k in 0..3 {
        let line = pattern::line(1, k, 0).unwrap();
        recording.extend(pattern::on_the_wire(1, &line).unwrap());
    }
    let mut fields = Fields::new(1, 0);
    let mut pieces = Vec::new();
    for piece in recording.chunks(1_009) {
        pieces.extend(fields.feed(piece).unwrap());
    }
    pieces.extend(fields.end());
    assert_eq!(pieces, signal_rows(1, 3));
}
