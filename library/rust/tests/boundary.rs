//! The calls through the boundary: a line there and back, every refusal, empty
//! slices.

use hansobrik::report::{Channel, Range, Report, Tally};
use hansobrik::*;

/// Bytes of a sector's data.
fn data_bytes(sector: u8) -> usize {
    match sector {
        1..=4 => DATA_BYTES_8,
        5..=8 => DATA_BYTES_6,
        9..=11 => DATA_BYTES_2,
        _ => DATA_BYTES_10,
    }
}

/// A line of zeros with all twelve sectors put.
fn line_of_zeros(format: u8) -> Vec<u8> {
    let mut line = vec![0; LINE_BYTES];
    for sector in 1..=SECTORS {
        put_data(format, &mut line, sector, &vec![0; data_bytes(sector)]).unwrap();
    }
    line
}

/// The same with other bytes in DOC, given from its byte 3 on.
fn line_with(format: u8, doc: &[u8]) -> Vec<u8> {
    let mut line = line_of_zeros(format);
    put_data(format, &mut line, 1, doc).unwrap();
    line
}

/// Calls with a copy of a buffer, and says whether the call was refused with
/// this number and left the buffer as it was.
fn leaves<B: Clone + PartialEq, T>(
    buffer: &[B],
    number: Refusal,
    call: impl FnOnce(&mut [B]) -> Result<T, Refusal>,
) -> bool {
    let mut copy = buffer.to_vec();
    let refused = call(&mut copy).err() == Some(number);
    refused && copy == buffer
}

#[test]
fn a_line_comes_back_byte_by_byte() {
    for format in [S_VISSR, HIRID, S_VISSR_ONES] {
        let sent = line_of_zeros(format);
        let mut wire = vec![0; WIRE_BYTES_2];
        let count = write_line(format, &sent, &mut wire).unwrap();
        assert_eq!(count, hansobrik::format(format).unwrap().bytes);
        let mut line = vec![0xA5; LINE_BYTES];
        let mut state = fresh();
        let mut lines = 0;
        for byte in &wire[..count] {
            let answer = read(format, 0, &mut state, &[*byte], &mut line).unwrap();
            assert_eq!(answer.taken, 1);
            lines += usize::from(answer.complete);
        }
        assert_eq!(lines, 1);
        assert!(line == sent);
        for sector in 1..=SECTORS {
            assert_eq!(accepted(format, &line, sector), Ok(()));
            assert_eq!(filler(format, &line, sector), Ok(0));
        }
    }
}

/// Three lines that differ, and what they are on the wire.
fn recording(format: u8) -> (Vec<Vec<u8>>, Vec<u8>) {
    let sent: Vec<Vec<u8>> = (1..=3)
        .map(|i| line_with(format, &[i; DATA_BYTES_8]))
        .collect();
    let mut wire = Vec::new();
    for line in &sent {
        let mut out = vec![0; WIRE_BYTES_2];
        let count = write_line(format, line, &mut out).unwrap();
        wire.extend_from_slice(&out[..count]);
    }
    (sent, wire)
}

#[test]
fn a_reader_keeps_its_record_in_every_cut() {
    for format in [S_VISSR, HIRID, S_VISSR_ONES] {
        let (sent, wire) = recording(format);
        for length in [1, 7, 4_096, WIRE_BYTES_1 - 1, wire.len()] {
            let mut reader = Reader::fresh(format, 0);
            let mut line = vec![0; LINE_BYTES];
            let mut lines = Vec::new();
            for piece in wire.chunks(length) {
                let each = |line: &[u8]| lines.push(line.to_vec());
                reader.take(piece, &mut line, each).unwrap();
            }
            assert!(lines == sent, "in pieces of {length}");
            assert_eq!(reader.state.in_line, 0);
        }
        // one that stops inside the second line, 1,000 bytes behind its SYNC
        let lengths = hansobrik::format(format).unwrap();
        let mut reader = Reader::fresh(format, 0);
        let end = lengths.bytes + lengths.sync_bits / 8 + 1_000;
        let mut line = vec![0; LINE_BYTES];
        reader.take(&wire[..end], &mut line, |_| ()).unwrap();
        assert_eq!((reader.state.in_line, reader.state.position), (1, 8_000));
    }
}

#[test]
fn a_refused_piece_can_be_taken_again() {
    let (sent, wire) = recording(S_VISSR);
    let mut reader = Reader::fresh(S_VISSR, 0);
    let never = |_: &[u8]| panic!("a refused piece has no line");
    let mut short = vec![0; LINE_BYTES - 1];
    let refused = reader.take(&wire, &mut short, never);
    assert_eq!(refused, Err(Refusal::SHORT_INPUT));
    assert_eq!(reader, Reader::fresh(S_VISSR, 0));
    let mut line = vec![0; LINE_BYTES];
    let mut lines = 0;
    reader.take(&wire, &mut line, |_| lines += 1).unwrap();
    assert_eq!(lines, sent.len());
    for format in [0, S_VISSR_ONES + 1] {
        let refused = Reader::fresh(format, 0).take(&wire, &mut line, never);
        assert_eq!(refused, Err(Refusal::FORMAT));
    }
    let refused = Reader::fresh(S_VISSR, LARGEST_SETTING + 1).take(&[], &mut line, never);
    assert_eq!(refused, Err(Refusal::SETTING));
}

/// The tail, the last 64 bits of SYNC, with so many wrong bits in each line: a
/// reader that bears as many gives every line, one that bears one less none.
#[test]
fn a_reader_bears_as_many_wrong_bits_as_its_setting_says() {
    for format in [S_VISSR, HIRID, S_VISSR_ONES] {
        let lengths = hansobrik::format(format).unwrap();
        let (sent, mut wire) = recording(format);
        for setting in 0..=LARGEST_SETTING {
            for less in 0..=setting.min(1) {
                let mut reader = Reader::fresh(format, setting - less);
                let mut line = vec![0; LINE_BYTES];
                let mut lines = Vec::new();
                for piece in wire.chunks(4_096) {
                    let each = |line: &[u8]| lines.push(line.to_vec());
                    reader.take(piece, &mut line, each).unwrap();
                }
                let expected = if less == 0 { &sent[..] } else { &[] };
                assert!(lines == expected, "{setting} wrong bits, {less} less borne");
            }
            // one wrong bit more, in another byte of the tail
            for line in wire.chunks_mut(lengths.bytes) {
                line[lengths.sync_bits / 8 - 8 + usize::from(setting)] ^= 1;
            }
        }
    }
}

/// What a format says of itself, as the papers have it.
#[test]
fn three_formats() {
    for (number, check_start, sync_bits, dummy_bits, bytes) in [
        (S_VISSR, 0, 10_000, 0, WIRE_BYTES_1),
        (HIRID, 0, 20_000, 21_152, WIRE_BYTES_2),
        (S_VISSR_ONES, 0xFFFF, 10_000, 0, WIRE_BYTES_3),
    ] {
        let expected = Format {
            number,
            check_start,
            sync_bits,
            information_bits: 354_848,
            dummy_bits,
            bytes,
        };
        assert_eq!(hansobrik::format(number), Ok(expected));
        let mut sync = vec![0; WIRE_BYTES_2];
        assert_eq!(put_sync(number, &mut sync), Ok(sync_bits / 8));
    }
    for number in [0, 4, 255] {
        assert_eq!(hansobrik::format(number), Err(Refusal::FORMAT));
    }
}

/// A DOC sector of zeros has the check word 9063 where the check starts from
/// ones, and 0000 elsewhere; each is refused where the other is accepted. So is
/// every sector of a line of the other card.
#[test]
fn a_check_that_starts_from_ones() {
    for (written, word) in [(S_VISSR, 0x0000), (HIRID, 0x0000), (S_VISSR_ONES, 0x9063)] {
        let line = line_of_zeros(written);
        assert_eq!(u16::from_be_bytes([line[2293], line[2294]]), word);
        for asked in [S_VISSR, HIRID, S_VISSR_ONES] {
            let same = (written == S_VISSR_ONES) == (asked == S_VISSR_ONES);
            let one = if same {
                Ok(())
            } else {
                Err(Refusal::REMAINDER)
            };
            assert_eq!(answers(asked, &line), Ok([one; 12]));
            let mut visible = vec![0; STRIP_BYTES];
            assert_eq!(strip(asked, &line, &mut visible), Ok([one; 4]));
            let mut wide = vec![0; IR_PIXELS];
            assert_eq!(joined(asked, &line, 1, &mut wide), one);
            assert_eq!(scan_mode(asked, &line).map(|_| ()), one);
        }
    }
}

/// The crate and the archive are of one version.
#[test]
fn the_archive_is_of_the_crate_s_version() {
    let number = version();
    let text = format!(
        "{}.{}.{}",
        number / 10_000,
        number / 100 % 100,
        number % 100
    );
    assert_eq!(text, env!("CARGO_PKG_VERSION"));
}

#[test]
fn values_come_back() {
    let mut line = line_of_zeros(S_VISSR);
    put_pixels(S_VISSR, &mut line, 2, &[200; IR_PIXELS]).unwrap();
    put_pixels(S_VISSR, &mut line, 9, &[3; IR_PIXELS]).unwrap();
    put_pixels(S_VISSR, &mut line, 5, &[63; VIS_PIXELS]).unwrap();
    put_pixels_wide(S_VISSR, &mut line, 12, &[1023; IR_PIXELS]).unwrap();
    let mut upper = [0; IR_PIXELS];
    pixels(S_VISSR, &line, 2, &mut upper).unwrap();
    assert!(upper == [200; IR_PIXELS]);
    let mut wide = [0; IR_PIXELS];
    pixels_wide(S_VISSR, &line, 12, &mut wide).unwrap();
    assert!(wide == [1023; IR_PIXELS]);
    joined(S_VISSR, &line, 1, &mut wide).unwrap();
    assert!(wide == [803; IR_PIXELS]);
    let mut visible = [9; STRIP_BYTES];
    assert_eq!(strip(S_VISSR, &line, &mut visible), Ok([Ok(()); 4]));
    assert!(visible[..VIS_PIXELS] == [63; VIS_PIXELS]);
    assert!(visible[VIS_PIXELS..] == [0; 3 * VIS_PIXELS]);

    let mut real = [0; 6];
    put_real(true, 1_234_567, 6, 4, &mut real).unwrap();
    let expected = R {
        negative: true,
        magnitude: 1_234_567,
        places: 4,
    };
    assert_eq!(read_real(&real, 6, 4), Ok(expected));
    assert_eq!(read_f64(&real, 6, 4), Ok(-123.4567));
}

#[test]
fn the_documentation_comes_back() {
    let mut doc = [0; DATA_BYTES_8];
    doc[0] = 0x0F;
    doc[4..10].copy_from_slice(&[0x00, 0x03, 0x25, 0x00, 0x00, 0x01]);
    doc[17..25].copy_from_slice(&[0x19, 0x96, 0x12, 0x31, 0x23, 0x59, 0x58, 0x99]);
    doc[64] = 0xF1;
    doc[191] = 24;
    doc[193] = 7;
    let line = line_with(HIRID, &doc);
    assert_eq!(scan_mode(HIRID, &line), Ok(ScanMode::Limited));
    assert_eq!(scanner_select(HIRID, &line), Ok(Mirror::Unnamed(0xF1)));
    let lines = line_numbers(HIRID, &line).unwrap();
    assert_eq!((lines.set_line, lines.reset_line), (3, 2500));
    assert_eq!((lines.scan_count, lines.position), (1, -2));
    let at = date(HIRID, &line).unwrap();
    assert_eq!((at.year, at.month, at.day), (1996, 12, 31));
    assert_eq!((at.hour, at.minute, at.second), (23, 59, 58));
    assert_eq!(at.hundredths, 99);
    let sent = sub_commutation(HIRID, &line).unwrap();
    assert_eq!((sent.segment, sent.repeat), (24, 7));
    assert_eq!(integer_field(HIRID, &line, 67, 1), Ok(0xF1));
    assert_eq!(bcd_field(HIRID, &line, 20, 2), Ok(1996));
    assert_eq!(f64_field(HIRID, &line, 161, 4, 7), Ok(0.0));
    assert_eq!(real_field(HIRID, &line, 161, 4, 7).unwrap().places, 7);
}

/// A line of this segment, whose tables have these numbers: the calibration
/// table ID and the MANAM revision. Every block has the segment in each byte.
fn line_of_tables(segment: u8, calibration: u16, manam: u16) -> Vec<u8> {
    let mut doc = [0; DATA_BYTES_8];
    // The data begin with byte 3.
    doc[25..27].copy_from_slice(&calibration.to_be_bytes());
    doc[27..29].copy_from_slice(&manam.to_be_bytes());
    doc[191] = segment;
    doc[194..2112].fill(segment);
    line_with(S_VISSR, &doc)
}

/// All marks, and these numbers.
fn finished(calibration: u16, manam: u16) -> Assembly {
    Assembly {
        marks: ALL_MARKS,
        calibration,
        manam,
    }
}

#[test]
fn a_block_is_put_together() {
    let mut assembly = fresh_assembly();
    assert_eq!(assembly, Assembly::default());
    let mut block = vec![0; MAPPING_BYTES];
    for segment in 0..SEGMENTS {
        // The numbers change with every line, and mapping goes by neither.
        let number = 0x0102 + 0x0101 * u16::from(segment);
        let line = line_of_tables(segment, number, number + 1);
        for first_copy in [true, false] {
            let added = add_segment(S_VISSR, &mut assembly, &line, MAPPING, &mut block).unwrap();
            assert_eq!(
                added,
                Added {
                    segment,
                    first_copy
                }
            );
        }
    }
    assert_eq!(assembly, finished(0x0102, 0x0103));
    let point = mapping(S_VISSR, assembly, &block, 24, 1).unwrap();
    assert_eq!((point.line, point.pixel), (0x1818, 0x1818));
    assert_eq!((point.latitude, point.longitude), (-60, 50));
    let refused = revision(S_VISSR, assembly, MAPPING, &block);
    assert_eq!(refused, Err(Refusal::NUMBER));
}

/// The columns of the grid: 45 to 165 east, and 80 east to 160 west.
#[test]
fn longitudes_go_by_the_format() {
    let block = vec![0; MAPPING_BYTES];
    let columns = |format| {
        let point = |column| mapping(format, finished(0, 0), &block, 0, column).unwrap();
        Vec::from_iter((0..25).map(|column| point(column).longitude))
    };
    for format in [S_VISSR, S_VISSR_ONES] {
        assert_eq!(columns(format), Vec::from_iter((45..=165).step_by(5)));
    }
    let hirid = columns(HIRID);
    assert_eq!(hirid[..21], Vec::from_iter((80..=180).step_by(5)));
    assert_eq!(hirid[21..], [-175, -170, -165, -160]);
}

/// The tables change in the middle of a recording: from there on every line is
/// refused, until the block is begun anew. No block is half of each.
#[test]
fn a_block_is_of_one_revision() {
    let sizes = [MANAM_BYTES, CALIBRATION_1_BYTES, CALIBRATION_2_BYTES];
    for (number, size) in (MANAM..=CALIBRATION_2).zip(sizes) {
        let mut assembly = fresh_assembly();
        let mut block = vec![0xA5; size];
        for segment in 0..10 {
            let line = line_of_tables(segment, 0x0835, 0x02DB);
            add_segment(S_VISSR, &mut assembly, &line, number, &mut block).unwrap();
        }
        let numbers = |a: Assembly| (a.calibration, a.manam);
        assert_eq!(numbers(assembly), (0x0835, 0x02DB));
        for segment in 0..SEGMENTS {
            // Each number by itself is another, in its low byte or in its high.
            for (calibration, manam) in [
                (0x0836, 0x02DB),
                (0x0935, 0x02DB),
                (0x0835, 0x02DC),
                (0x0835, 0x03DB),
            ] {
                let line = line_of_tables(segment, calibration, manam);
                let (mut after, mut left) = (assembly, block.clone());
                let added = add_segment(S_VISSR, &mut after, &line, number, &mut left);
                let own_is_another = (number == MANAM) == (calibration == 0x0835);
                if own_is_another {
                    assert_eq!(added, Err(Refusal::REVISION));
                    assert!(after == assembly && left == block);
                } else {
                    assert_eq!(added.unwrap().first_copy, segment >= 10);
                    assert_eq!(numbers(after), (0x0835, 0x02DB));
                }
            }
        }

        // Begun anew: the block buffer is as it was left.
        assembly = fresh_assembly();
        for segment in (0..SEGMENTS).rev() {
            let unfinished = revision(S_VISSR, assembly, number, &block);
            assert_eq!(unfinished, Err(Refusal::UNFINISHED));
            let line = line_of_tables(segment, 0x0836, 0x02DC);
            let added = add_segment(S_VISSR, &mut assembly, &line, number, &mut block);
            assert!(added.unwrap().first_copy);
        }
        assert_eq!(assembly, finished(0x0836, 0x02DC));
        let own = if number == MANAM { 0x02DC } else { 0x0836 };
        assert_eq!(revision(S_VISSR, assembly, number, &block), Ok(own));
        if number == CALIBRATION_2 {
            // Segments have 1,024 bytes: bytes 257 on are in segment 0, bytes
            // 17,661 on in segment 17.
            let level = albedo(S_VISSR, assembly, &block, 1, 0).unwrap();
            assert_eq!((level.value.magnitude, level.revision), (0, 0x0836));
            let level = temperature_f64(S_VISSR, assembly, &block, 4, 1023).unwrap();
            assert_eq!((level.value, level.revision), (286331.153, 0x0836));
        }
    }
}

#[test]
fn a_refused_read_leaves_state_and_line() {
    let wire = [0x55; 10];
    let mut kept = fresh();
    read(S_VISSR, 0, &mut kept, &wire, &mut [0; LINE_BYTES]).unwrap();
    let impossible = State {
        in_line: 2,
        ..fresh()
    };
    for (format, setting, state, length, number) in [
        (4, 0, kept, LINE_BYTES, Refusal::FORMAT),
        (0, 7, impossible, 0, Refusal::FORMAT),
        (3, 7, impossible, 0, Refusal::SETTING),
        (1, 7, kept, LINE_BYTES, Refusal::SETTING),
        (1, 255, impossible, 0, Refusal::SETTING),
        (1, 6, impossible, 0, Refusal::STATE),
        (2, 6, kept, LINE_BYTES - 1, Refusal::SHORT_INPUT),
    ] {
        let mut after = state;
        assert!(leaves(&vec![0xA5; length], number, |line| {
            read(format, setting, &mut after, &wire, line)
        }));
        assert_eq!(after, state);
    }
}

#[test]
fn refused_calls_leave_their_buffers() {
    let line = line_of_zeros(S_VISSR);
    let bytes = vec![0xA5; WIRE_BYTES_2];
    let words = vec![0xA5A5u16; IR_PIXELS];
    let mut damaged = line.clone();
    damaged[LINE_BYTES / 24] ^= 1;
    damaged[LINE_BYTES - 2864] ^= 1;
    let no_ids = vec![0; LINE_BYTES];

    assert!(leaves(&bytes, Refusal::FORMAT, |out| put_sync(0, out)));
    assert!(leaves(&bytes[..1249], Refusal::SHORT_OUTPUT, |out| {
        put_sync(1, out)
    }));
    assert!(leaves(&bytes, Refusal::FORMAT, |out| {
        write_line(9, &line, out)
    }));
    assert!(leaves(&bytes, Refusal::SHORT_INPUT, |out| {
        write_line(1, &line[1..], out)
    }));
    assert!(leaves(&bytes[..45_605], Refusal::SHORT_OUTPUT, |out| {
        write_line(1, &line, out)
    }));
    assert!(leaves(&bytes, Refusal::NUMBER, |out| data(
        1, &line, 13, out
    )));
    assert!(leaves(&bytes[..2290], Refusal::SHORT_OUTPUT, |out| {
        data(1, &line, 1, out)
    }));
    assert!(leaves(&bytes, Refusal::REMAINDER, |out| {
        data(1, &damaged, 1, out)
    }));
    assert!(leaves(&bytes, Refusal::ID, |out| data(1, &no_ids, 2, out)));
    assert!(leaves(&bytes, Refusal::NUMBER, |out| {
        pixels(1, &line, 12, out)
    }));
    assert!(leaves(&words, Refusal::NUMBER, |out| {
        pixels_wide(1, &line, 11, out)
    }));
    assert!(leaves(&words, Refusal::REMAINDER, |out| {
        pixels_wide(1, &damaged, 12, out)
    }));
    assert!(leaves(&words, Refusal::ID, |out| joined(
        1, &no_ids, 3, out
    )));
    assert!(leaves(&bytes[..36_655], Refusal::SHORT_OUTPUT, |out| {
        strip(1, &line, out)
    }));
    assert!(leaves(&line, Refusal::SHORT_INPUT, |l| {
        put_data(1, l, 1, &[0; 2290])
    }));
    assert!(leaves(&line, Refusal::RANGE, |l| {
        put_pixels(1, l, 9, &[4; IR_PIXELS])
    }));
    assert!(leaves(&line, Refusal::RANGE, |l| {
        put_pixels_wide(1, l, 12, &[1024; IR_PIXELS])
    }));
    assert!(leaves(&bytes, Refusal::MAGNITUDE, |out| {
        put_real(false, 1 << 31, 4, 0, out)
    }));
    assert!(leaves(&bytes, Refusal::RANGE, |out| {
        put_real(false, 1 << 31, 5, 0, out)
    }));
    assert!(leaves(&bytes[..5], Refusal::SHORT_OUTPUT, |out| {
        put_real(false, 1, 6, 0, out)
    }));

    let mut visible = bytes[..STRIP_BYTES].to_vec();
    assert_eq!(strip(1, &no_ids, &mut visible), Ok([Err(Refusal::ID); 4]));
    let mut twelve = [Err(Refusal::ID); 12];
    twelve[0] = Ok(()); // the ID of DOC is zero
    assert_eq!(answers(1, &no_ids), Ok(twelve));
    assert!(visible == bytes[..STRIP_BYTES]);
    let mut register = 0x8000;
    assert_eq!(step(&mut register), Err(Refusal::STATE));
    assert_eq!(register, 0x8000);
}

#[test]
fn refused_segments_leave_assembly_and_block() {
    let line = line_of_zeros(S_VISSR);
    let mut bad_repeat = [0; DATA_BYTES_8];
    bad_repeat[193] = 8;
    let bad_repeat = line_with(S_VISSR, &bad_repeat);
    let block = vec![0xA5; CALIBRATION_2_BYTES];
    // Segment 0 counts as stored, and the buffer differs from the line's copy.
    // The line's own numbers are 0, so these are foreign.
    for (format, marks, line, number, length, refusal) in [
        (0, 1, &line, 1, 2500, Refusal::FORMAT),
        (1, 1 << 25, &line, 1, 2500, Refusal::STATE),
        (2, 1, &line, 5, 25_600, Refusal::NUMBER),
        (1, 1, &line, 5, 25_599, Refusal::SHORT_INPUT),
        (1, 1, &bad_repeat, 5, 25_600, Refusal::FIELD),
        (1, 1, &line, 3, 10_250, Refusal::REVISION),
        (2, 1, &line, 4, 6_400, Refusal::REVISION),
        (1, 1, &line, 5, 25_600, Refusal::REVISION),
        (1, 1, &line, 1, 2500, Refusal::SEGMENT),
        (1, 1, &line, 2, 3200, Refusal::SEGMENT),
    ] {
        let assembly = Assembly {
            marks,
            calibration: 0x1234,
            manam: 0x5678,
        };
        let mut after = assembly;
        assert!(leaves(&block[..length], refusal, |b| {
            add_segment(format, &mut after, line, number, b)
        }));
        assert_eq!(after, assembly);
    }
    let one = Assembly {
        marks: 1,
        ..fresh_assembly()
    };
    assert_eq!(mapping(1, one, &block, 0, 0), Err(Refusal::UNFINISHED));
    assert_eq!(elements(1, one, &block), Err(Refusal::UNFINISHED));
    assert_eq!(revision(1, one, 5, &block), Err(Refusal::UNFINISHED));
    assert_eq!(revision(2, one, 5, &block), Err(Refusal::NUMBER));
    assert_eq!(revision(3, finished(7, 0), 5, &block), Ok(7));
    let all = finished(1, 2);
    assert_eq!(albedo(1, all, &block, 1, 64), Err(Refusal::RANGE));
    assert_eq!(temperature_f64(2, one, &block, 5, 0), Err(Refusal::NUMBER));
    let short = revision(1, all, 3, &block[..MANAM_BYTES - 1]);
    assert_eq!(short, Err(Refusal::SHORT_INPUT));
}

/// A record of so many lines in which every sector was accepted.
fn all_accepted(lines: u64) -> Report {
    let sector = Tally {
        accepted: lines,
        ..Tally::default()
    };
    Report {
        lines,
        sectors: [sector; 12],
        channels: [Channel::default(); 4],
    }
}

/// A channel of this line: all pixels the same.
fn flat(pixel: u16) -> Channel {
    Channel {
        count: 2_291,
        sum: 2_291 * u64::from(pixel),
        range: Some(Range {
            least: pixel,
            largest: pixel,
        }),
    }
}

/// IR1 has 200 and 3 everywhere, 803, and IR4 1,023; IR2 lower is damaged; VIS1
/// has two set filler bits.
#[test]
fn a_line_goes_into_a_report() {
    for format in [S_VISSR, HIRID, S_VISSR_ONES] {
        let mut line = line_of_zeros(format);
        put_pixels(format, &mut line, 2, &[200; IR_PIXELS]).unwrap();
        put_pixels(format, &mut line, 9, &[3; IR_PIXELS]).unwrap();
        put_pixels_wide(format, &mut line, 12, &[1023; IR_PIXELS]).unwrap();
        // IR2 lower begins with bit 316,534, and VIS1 ends before 138,692.
        line[316_560 / 8] ^= 0x80;
        line[138_680 / 8] |= 3;
        let mut first = all_accepted(1);
        first.sectors[4].filler = 2;
        first.sectors[9].accepted = 0;
        first.sectors[9].remainder = 1;
        first.channels = [flat(803), Channel::default(), flat(0), flat(1023)];
        assert_eq!(
            report::with_line(format, &report::empty(), &line),
            Ok(first)
        );

        let dark = line_of_zeros(format);
        let second = report::with_line(format, &first, &dark).unwrap();
        let mut expected = all_accepted(2);
        expected.sectors[4].filler = 2;
        expected.sectors[9].accepted = 1;
        expected.sectors[9].remainder = 1;
        let channel = |lines: u64, sum, largest| Channel {
            count: 2_291 * lines,
            sum,
            range: Some(Range { least: 0, largest }),
        };
        expected.channels = [
            channel(2, 1_839_673, 803),
            channel(1, 0, 0),
            channel(2, 0, 0),
            channel(2, 2_343_693, 1023),
        ];
        assert_eq!(second, expected);

        // The same as two passes, in either order.
        let alone = report::with_line(format, &report::empty(), &dark).unwrap();
        assert_eq!(report::together(&first, &alone), Ok(expected));
        assert_eq!(report::together(&alone, &first), Ok(expected));

        // A line of zero bytes has no ID but DOC's, and no pixels.
        let bytes = report::with_line(format, &report::empty(), &[0; LINE_BYTES]).unwrap();
        let ones = format == S_VISSR_ONES;
        assert_eq!(bytes.sectors[11].remainder, u64::from(ones));
        assert_eq!(bytes.sectors[11].id, u64::from(!ones));
        assert_eq!(bytes.channels, [Channel::default(); 4]);
        assert_eq!(
            report::together(&bytes, &first).unwrap().channels,
            first.channels
        );
    }
}

/// Refused with 1, 12, 15, 2, in this order; two reports with 12 and 15.
#[test]
fn reports_are_refused_in_their_order() {
    let line = line_of_zeros(S_VISSR);
    let short = &line[1..];
    let mut wrong = all_accepted(REPORT_LINES);
    wrong.sectors[11].id = 1;
    let (full, last) = (all_accepted(REPORT_LINES), all_accepted(REPORT_LINES - 1));
    for (format, report, line, refusal) in [
        (0, &wrong, short, Refusal::FORMAT),
        (S_VISSR, &wrong, short, Refusal::STATE),
        (S_VISSR, &full, short, Refusal::FULL),
        (S_VISSR, &last, short, Refusal::SHORT_INPUT),
        (
            S_VISSR,
            &all_accepted(REPORT_LINES + 1),
            &line,
            Refusal::STATE,
        ),
        (HIRID, &full, &line, Refusal::FULL),
    ] {
        assert_eq!(report::with_line(format, report, line), Err(refusal));
    }
    let after = report::with_line(S_VISSR, &last, &line).unwrap();
    assert_eq!(after.lines, 100_000);
    assert_eq!(report::together(&full, &wrong), Err(Refusal::STATE));
    assert_eq!(report::together(&wrong, &full), Err(Refusal::STATE));
    let one = all_accepted(1);
    assert_eq!(report::together(&full, &one), Err(Refusal::FULL));
    assert_eq!(report::together(&last, &one), Ok(full));
    assert_eq!(report::together(&full, &report::empty()), Ok(full));
}

/// Counts and sums at what the lines allow, and one above.
#[test]
fn impossible_reports() {
    let mut brim = all_accepted(3);
    for sector in &mut brim.sectors {
        sector.filler = 3 * 2_048;
    }
    for channel in &mut brim.channels {
        channel.count = 3 * 2_291;
        channel.sum = 3 * 2_291 * 1_023;
    }
    let none = report::empty();
    assert_eq!(none, Report::default());
    assert_eq!(report::together(&brim, &none), Ok(brim));
    let mut above = [brim; 6];
    above[0].sectors[0].filler += 1;
    above[1].channels[0].count += 1;
    above[2].channels[3].sum += 1;
    above[3].lines += 1;
    above[4].sectors[6].remainder = 1;
    // together 3 where a sum is cut to 64 bits
    above[5].sectors[6].accepted = u64::MAX;
    above[5].sectors[6].id = 4;
    for report in &above {
        assert_eq!(report::together(report, &none), Err(Refusal::STATE));
        assert_eq!(report::together(&none, report), Err(Refusal::STATE));
    }
}

#[test]
fn empty_slices_are_looked_at_by_nobody() {
    let mut state = fresh();
    let nothing = Read {
        taken: 0,
        complete: false,
    };
    let mut line = [0; LINE_BYTES];
    assert_eq!(read(1, 0, &mut state, &[], &mut line), Ok(nothing));
    assert_eq!(state, fresh());
    let refused = read(1, 0, &mut state, &[], &mut []);
    assert_eq!(refused, Err(Refusal::SHORT_INPUT));
    let refused = read(1, 7, &mut state, &[], &mut []);
    assert_eq!(refused, Err(Refusal::SETTING));
    assert_eq!(write_line(1, &[], &mut []), Err(Refusal::SHORT_INPUT));
    assert_eq!(put_sync(2, &mut []), Err(Refusal::SHORT_OUTPUT));
    assert_eq!(accepted(1, &[], 1), Err(Refusal::SHORT_INPUT));
    assert_eq!(answers(1, &[]), Err(Refusal::SHORT_INPUT));
    assert_eq!(filler(1, &[], 1), Err(Refusal::SHORT_INPUT));
    let refused = report::with_line(1, &report::empty(), &[]);
    assert_eq!(refused, Err(Refusal::SHORT_INPUT));
    assert_eq!(
        joined(1, &line_of_zeros(1), 1, &mut []),
        Err(Refusal::SHORT_OUTPUT)
    );
    assert_eq!(
        put_pixels_wide(1, &mut [0; LINE_BYTES], 12, &[]),
        Err(Refusal::SHORT_INPUT)
    );
    assert_eq!(read_integer(&[], 1), Err(Refusal::SHORT_INPUT));
    assert_eq!(read_bcd(&[], 6), Err(Refusal::SHORT_INPUT));
    assert_eq!(
        put_real(false, 0, 4, 0, &mut []),
        Err(Refusal::SHORT_OUTPUT)
    );
    assert_eq!(date(1, &[]), Err(Refusal::SHORT_INPUT));
    assert_eq!(elements(1, finished(0, 0), &[]), Err(Refusal::SHORT_INPUT));
    let refused = revision(1, finished(0, 0), MANAM, &[]);
    assert_eq!(refused, Err(Refusal::SHORT_INPUT));
}

#[test]
fn refusals_speak() {
    let words = Refusal::SEGMENT.to_string();
    assert_eq!(
        words,
        "refused with 8: the segment differs from the stored one"
    );
}
