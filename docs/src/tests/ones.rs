//! Document 02, T-11: "Our new signal card presets its check register with
//! sixteen ones. The format record gains the start value; formats 1 and 2 keep
//! zero, format 3 is format 1 with ones. ... In format 3 the first 16 bits are
//! inverted before the remainder is taken, so a DOC sector of zeros with check
//! word 0000 is refused with 5."

use second::bits;
use second::blocks::{self, Assembly, ALL_MARKS, CALIBRATION_2};
use second::damage::Random;
use second::document;
use second::fields::Fields;
use second::format::{format, INFORMATION_BITS, LINE_BYTES};
use second::listing;
use second::pattern;
use second::scramble::sync;
use second::sectors::{self, SECTORS, STRIP_BYTES};

/// x^16+x^12+x^5+1 as bits, its first term highest.
const DIVISOR: [u8; 17] = [1, 0, 0, 0, 1, 0, 0, 0, 0, 0, 0, 1, 0, 0, 0, 0, 1];

/// Whether the divisor goes into the bits without a rest, by taking it away
/// below each highest bit that is left.
fn divides(mut dividend: Vec<u8>) -> bool {
    for highest in 0..dividend.len() {
        if dividend[highest] == 0 {
            continue;
        }
        if highest + DIVISOR.len() > dividend.len() {
            return false;
        }
        for (i, bit) in DIVISOR.iter().enumerate() {
            dividend[highest + i] ^= bit;
        }
    }
    true
}

/// ID, data and check bits of a sector.
fn covered(line: &[u8], number: usize) -> Vec<u8> {
    let sector = &SECTORS[number - 1];
    bits::part(line, sector.start, sector.filler_start() - sector.start)
}

/// The same with the first so many bits inverted.
fn inverted(mut bits: Vec<u8>, count: usize) -> Vec<u8> {
    for bit in &mut bits[..count] {
        *bit = 1 - *bit;
    }
    bits
}

/// A line of noise with all twelve sectors written in a format.
fn written(format: usize, random: &mut Random) -> Vec<u8> {
    let mut line = vec![0; LINE_BYTES];
    for (index, sector) in SECTORS.iter().enumerate() {
        let data = random.bytes(sector.data_bytes());
        sectors::put_data(format, &mut line, index + 1, &data).unwrap();
    }
    line
}

/// "a DOC sector of zeros": its word, and what each format says of it with the
/// one word and with the other.
#[test]
fn a_doc_sector_of_zeros() {
    for (written_in, word) in [(1, [0x00, 0x00]), (2, [0x00, 0x00]), (3, [0x90, 0x63])] {
        let mut line = vec![0xEE; LINE_BYTES];
        sectors::put_data(written_in, &mut line, 1, &[0; 2_291]).unwrap();
        assert_eq!(line[..2_293], [0; 2_293]);
        assert_eq!(line[2_293..2_295], word);
        for read_in in [1, 2, 3] {
            let same_start = (written_in == 3) == (read_in == 3);
            let expected = if same_start { Ok(()) } else { Err(5) };
            assert_eq!(sectors::accepted(read_in, &line, 1), expected);
        }
    }
}

/// Every check word beside 18,328 zeros of ID and data, one bit away from 9063:
/// none is accepted in format 3.
#[test]
fn no_word_beside_9063_is_accepted() {
    for place in 0..16 {
        let mut line = vec![0; LINE_BYTES];
        let word: u16 = 0x9063 ^ 1 << place;
        line[2_293..2_295].copy_from_slice(&word.to_be_bytes());
        assert_eq!(sectors::accepted(3, &line, 1), Err(5));
    }
}

/// The start values that the papers name.
#[test]
fn the_format_record_has_the_start_value() {
    let start = |number| format(number).unwrap().check_start;
    assert_eq!([start(1), start(2), start(3)], [0, 0, 0xFFFF]);
    for number in [0, 4] {
        assert_eq!(format(number), Err(1));
    }
}

/// "the first 16 bits are inverted before the remainder is taken": no bit fewer
/// and none more, and none in formats 1 and 2.
#[test]
fn the_first_sixteen_bits_are_inverted() {
    let mut random = Random::new(30);
    for format in [1, 2, 3] {
        let line = written(format, &mut random);
        for number in 1..=12 {
            assert_eq!(sectors::accepted(format, &line, number), Ok(()));
            for count in [0, 8, 12, 15, 16, 17, 32] {
                let goes_in = divides(inverted(covered(&line, number), count));
                let own = if format == 3 { 16 } else { 0 };
                assert_eq!(goes_in, count == own, "format {format}, {number}, {count}");
            }
        }
    }
}

/// In a visible sector they are twelve of the ID and four of the data: a sector
/// of format 1 with just these bits inverted leaves the remainder 0 in format 3,
/// and its ID is not its own. An ID of sixteen bits or more has them all.
#[test]
fn of_a_visible_sector_twelve_of_the_id_and_four_of_the_data() {
    let mut random = Random::new(31);
    let sent = written(1, &mut random);
    for number in 1..=12 {
        let sector = &SECTORS[number - 1];
        let of_id = sector.id().len().min(16);
        assert_eq!(of_id, if (5..=8).contains(&number) { 12 } else { 16 });
        let mut line = sent.clone();
        for place in 0..of_id {
            bits::turn_over(&mut line, sector.start + place);
        }
        let expected = if of_id == 16 { Err(6) } else { Err(5) };
        assert_eq!(sectors::accepted(3, &line, number), expected);
        for place in of_id..16 {
            bits::turn_over(&mut line, sector.start + place);
        }
        assert_eq!(sectors::accepted(3, &line, number), Err(6));
        assert_eq!(sectors::accepted(1, &line, number), Err(5));
    }
}

/// No sector is accepted both with 0 and with ones: whatever was written in one
/// format, the other refuses all twelve with 5, and so does every call.
#[test]
fn what_one_card_wrote_the_other_refuses() {
    let mut random = Random::new(32);
    for (written_in, read_in) in [(1, 3), (2, 3), (3, 1), (3, 2)] {
        let noise = written(written_in, &mut random);
        let pattern = pattern::line(written_in, 9, 0).unwrap();
        let zeros = pattern::line_of_zeros(written_in).unwrap();
        for line in [noise, pattern, zeros] {
            assert_eq!(sectors::answers(written_in, &line), Ok([0; 12]));
            assert_eq!(sectors::answers(read_in, &line), Ok([5; 12]));
            let mut bytes = vec![0xEE; STRIP_BYTES];
            let mut wide = vec![0xEEEE; 9_164];
            for number in 1..=12 {
                assert_eq!(sectors::accepted(read_in, &line, number), Err(5));
                let data = sectors::data(read_in, &line, number, &mut bytes);
                assert_eq!(data, Err(5));
                if number > 1 {
                    let pixels = sectors::pixels(read_in, &line, number, &mut wide);
                    assert_eq!(pixels, Err(5));
                }
            }
            for channel in 1..=3 {
                let joined = sectors::joined(read_in, &line, channel, &mut wide);
                assert_eq!(joined, Err(5));
            }
            let strip = sectors::visible(read_in, &line, &mut bytes);
            assert_eq!(strip, Ok([5; 4]));
            assert!(bytes.iter().all(|&byte| byte == 0xEE));
            assert!(wide.iter().all(|&pixel| pixel == 0xEEEE));
            assert_eq!(document::scan_mode(read_in, &line), Err(5));
            assert_eq!(document::date(read_in, &line), Err(5));
            assert_eq!(document::field_i(read_in, &line, 1, 2), Err(5));
            let mut assembly = Assembly::default();
            let mut block = vec![0xEE; 25_600];
            let added = blocks::add_segment(read_in, &line, 1, &mut assembly, &mut block);
            assert_eq!((added, assembly), (Err(5), Assembly::default()));
        }
    }
}

/// Both parts of a joined pixel go by the format: one sector of the other card
/// is enough for 5.
#[test]
fn one_sector_of_the_other_card() {
    let pixels = vec![1; 2_291];
    for (own, other) in [(1, 3), (3, 1)] {
        for number in [2, 9] {
            let mut line = pattern::line(own, 0, 0).unwrap();
            let mut out = vec![0; 2_291];
            assert_eq!(sectors::joined(own, &line, 1, &mut out), Ok(2_291));
            sectors::put_pixels(other, &mut line, number, &pixels).unwrap();
            assert_eq!(sectors::joined(own, &line, 1, &mut out), Err(5));
            let mut expected = [0; 12];
            expected[number - 1] = 5;
            assert_eq!(sectors::answers(own, &line), Ok(expected));
        }
    }
}

/// Formats 1 and 2 are as they were: one line is the same in both, and the words
/// are those of a division that inverts nothing.
#[test]
fn formats_1_and_2_are_unchanged() {
    let mut random = Random::new(33);
    for (index, sector) in SECTORS.iter().enumerate() {
        let data = random.bytes(sector.data_bytes());
        let line = |format| {
            let mut line = vec![0; LINE_BYTES];
            sectors::put_data(format, &mut line, index + 1, &data).unwrap();
            line
        };
        assert!(line(1) == line(2));
        assert!(divides(covered(&line(1), index + 1)));
        // Only the sixteen check bits tell format 3 from them.
        let (zero, ones) = (covered(&line(1), index + 1), covered(&line(3), index + 1));
        let checked = zero.len() - 16;
        assert!(zero[..checked] == ones[..checked]);
        assert!(zero[checked..] != ones[checked..]);
    }
}

/// "format 3 is format 1 with ones": SYNC and lengths are format 1's, and on the
/// wire one plain line is the same in both.
#[test]
fn on_the_wire_format_3_is_format_1() {
    let (one, three) = (format(1).unwrap(), format(3).unwrap());
    assert_eq!(three.sync_bits, 10_000);
    assert_eq!((three.dummy_bits, three.wire_bytes), (0, 45_606));
    assert_eq!(three.sync_bits + INFORMATION_BITS, 8 * three.wire_bytes);
    assert_eq!((one.sync_bits, one.wire_bytes), (10_000, 45_606));
    let line = Random::new(34).bytes(LINE_BYTES);
    let wire = pattern::on_the_wire(3, &line).unwrap();
    assert!(wire == pattern::on_the_wire(1, &line).unwrap());
    assert!(wire[..1_250] == bits::to_bytes(&sync(10_000)));
}

/// The recording of one card listed as the other's: every line is there, and no
/// sector of it is good.
#[test]
fn a_recording_of_the_other_card_lists_good_0() {
    let recording = |format| -> Vec<u8> {
        (0..2)
            .flat_map(|k| pattern::signal(format, k, 0, 0).unwrap())
            .collect()
    };
    let good = "line 1 good 12 filler 0\nline 2 good 12 filler 0\ntotal 2\n";
    let none = "line 1 good 0 filler 0\nline 2 good 0 filler 0\ntotal 2\n";
    for (written_in, read_in, expected) in [
        (1, 1, good),
        (3, 3, good),
        (1, 3, none),
        (3, 1, none),
        (2, 3, none),
        (3, 2, none),
    ] {
        let listed = listing::of_recording(read_in, 0, &recording(written_in));
        assert_eq!(listed.unwrap(), expected);
    }
}

/// Of the other card no field is read, and its lines are counted.
#[test]
fn fields_of_the_other_card_are_refused() {
    let signal = pattern::signal(3, 0, 0, 0).unwrap();
    let mut fields = Fields::new(1, 0);
    let rows = fields.feed(&signal).unwrap();
    let refused = "line 1 mode refused 5 mirror refused 5 set refused 5 date refused 5 \
                   segment refused 5 blocks 5 5 5 5 5";
    assert_eq!(rows, [refused]);
    assert_eq!(fields.end().last().unwrap(), "total 1");
}

/// The rows of `fields` in format 3 are those of format 1, calibration-2 and the
/// grid from 45 east among them; only the check words were others.
#[test]
fn fields_in_format_3_are_format_1s() {
    let rows = |format| {
        let mut fields = Fields::new(format, 0);
        let mut rows = Vec::new();
        for k in 0..200 {
            let mut line = vec![0; LINE_BYTES];
            let doc = pattern::doc(format, k, 0);
            sectors::put_data(format, &mut line, 1, &doc).unwrap();
            let wire = pattern::on_the_wire(format, &line).unwrap();
            rows.extend(fields.feed(&wire).unwrap());
        }
        rows.extend(fields.end());
        rows
    };
    let three = rows(3);
    assert_eq!(three, rows(1));
    assert!(three.contains(&"calibration-2 25/25 revision 2101".to_string()));
    let first = |row: &&String| row.starts_with("mapping row 0 column 0 ");
    assert!(three
        .iter()
        .find(first)
        .unwrap()
        .ends_with(" longitude 45 east"));
    assert!(three
        .iter()
        .any(|row| row.starts_with("albedo VIS4 level 63 ")));
}

/// "calibration-2 is served in format 3", in every call that knows the block.
#[test]
fn calibration_2_is_served_in_format_3() {
    let block = pattern::block(CALIBRATION_2, false);
    let finished = Assembly {
        marks: ALL_MARKS,
        calibration: 2_101,
        manam: 731,
    };
    let revision = |format| blocks::revision(format, finished, CALIBRATION_2, &block);
    let albedo = |format| blocks::albedo(format, finished, &block, 4, 63);
    let temperature = |format| blocks::temperature(format, finished, &block, 4, 1_023);
    assert_eq!(revision(3), Ok(2_101));
    assert_eq!(albedo(3), albedo(1));
    assert_eq!(temperature(3), temperature(1));
    assert!(albedo(3).is_ok() && temperature(3).is_ok());
    assert_eq!(
        (revision(2), albedo(2), temperature(2)),
        (Err(4), Err(4), Err(4))
    );

    for (format, expected) in [(1, None), (2, Some(4)), (3, None)] {
        let line = pattern::line(format, 8, 0).unwrap();
        let mut assembly = Assembly::default();
        let mut buffer = vec![0; 25_600];
        let given = blocks::add_segment(format, &line, CALIBRATION_2, &mut assembly, &mut buffer);
        assert_eq!(given.err(), expected);
    }
}

/// The twelve check words that `second vectors` prints for sectors of zeros, each
/// by a division of its own.
#[test]
fn the_printed_words_of_twelve_sectors_of_zeros() {
    let rows = second::vectors::rows();
    for (index, sector) in SECTORS.iter().enumerate() {
        let name = format!("sector {} ", index + 1);
        let row = rows.iter().find(|row| row.starts_with(&name)).unwrap();
        let (zero, ones) = row.split_once(", in format 3 ").unwrap();
        for (words, count) in [(zero, 0), (ones, 16)] {
            let word = u64::from_str_radix(&words[words.len() - 4..], 16).unwrap();
            let mut covered = sector.id();
            covered.extend(vec![0; sector.data_bits()]);
            covered.extend(bits::of_number(word, 16));
            assert!(divides(inverted(covered, count)), "{row}");
        }
    }
}
