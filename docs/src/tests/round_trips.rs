//! What is written reads back the same, and nothing else changes; the test
//! pattern through every call; the program's output.

mod common;

use common::outcome;
use second::bits;
use second::blocks::{self, Added, Assembly, ALL_MARKS, BLOCKS};
use second::damage::{self, Random};
use second::document::{self, ScanMode, ScannerSelect, SubCommutation};
use second::format::{format, LINE_BYTES};
use second::lines::lines;
use second::listing::{self, Listing};
use second::numbers::{read_r, write_r, POWERS, R};
use second::pattern;
use second::scramble::write_line;
use second::sectors::{self, SECTORS};

#[test]
fn a_written_line_reads_back() {
    let mut random = Random::new(10);
    for number in [1, 2, 3] {
        let sent = random.bytes(LINE_BYTES);
        let mut wire = vec![0; format(number).unwrap().wire_bytes];
        write_line(number, &sent, &mut wire).unwrap();
        for setting in 0..=6 {
            let found = lines(setting, &bits::from_bytes(&wire));
            assert_eq!(found.len(), 1);
            assert!(found[0].bytes == sent);
            let dummy = format(number).unwrap().dummy_bits;
            assert_eq!(found[0].end, 8 * wire.len() - dummy);
        }
    }
}

/// A format with each of the sectors.
fn in_every_sector(format: usize) -> impl Iterator<Item = (usize, usize)> {
    (1..=12).map(move |sector| (format, sector))
}

/// "ID, check word, zero filler; the other sectors keep their bits"
#[test]
fn putting_a_sector_keeps_every_other_bit() {
    let mut random = Random::new(11);
    for (format, number) in [1, 2, 3].into_iter().flat_map(in_every_sector) {
        let sector = &SECTORS[number - 1];
        let before = random.bytes(LINE_BYTES + 1);
        let sent = random.bytes(sector.data_bytes() + 1);
        let mut line = before.clone();
        sectors::put_data(format, &mut line, number, &sent).unwrap();
        assert_eq!(sectors::accepted(format, &line, number), Ok(()));
        assert_eq!(sectors::filler(format, &line, number), Ok(0));

        let (old, new) = (bits::from_bytes(&before), bits::from_bytes(&line));
        let end = sector.start + sector.bits;
        assert!(old[..sector.start] == new[..sector.start]);
        assert!(old[end..] == new[end..]);

        let mut read_back = vec![0; sector.data_bytes()];
        sectors::data(format, &line, number, &mut read_back).unwrap();
        let count = sector.data_bits();
        assert!(bits::part(&read_back, 0, count) == bits::part(&sent, 0, count));
    }
}

#[test]
fn pixels_read_back_and_agree_with_the_data() {
    let mut random = Random::new(12);
    for (format, number) in [2, 3].into_iter().flat_map(in_every_sector) {
        if number == 1 {
            continue;
        }
        let sector = &SECTORS[number - 1];
        let limit = 1 << sector.width;
        let sent: Vec<u16> = (0..sector.count)
            .map(|_| random.under(limit) as u16)
            .collect();
        let mut line = random.bytes(LINE_BYTES);
        sectors::put_pixels(format, &mut line, number, &sent).unwrap();
        let mut read_back = vec![0xEEEE; sector.count + 2];
        sectors::pixels(format, &line, number, &mut read_back).unwrap();
        assert!(read_back[..sector.count] == sent);
        assert_eq!(read_back[sector.count..], [0xEEEE; 2]);

        let mut data = vec![0; sector.data_bytes()];
        sectors::data(format, &line, number, &mut data).unwrap();
        let mut again = random.bytes(LINE_BYTES);
        sectors::put_data(format, &mut again, number, &data).unwrap();
        sectors::pixels(format, &again, number, &mut read_back).unwrap();
        assert!(read_back[..sector.count] == sent);
    }
}

#[test]
fn the_pattern_reads_back_through_every_sector_call() {
    for number in [1, 2, 3] {
        let recording = damage::good(number, 2);
        let found = lines(0, &bits::from_bytes(&recording));
        assert_eq!(found.len(), 2);
        for (k, line) in found.iter().enumerate() {
            let k = k as u64;
            assert!(line.bytes == pattern::line(number, k, 0).unwrap());
            for s in 2..=12 {
                let mut out = vec![0; SECTORS[s - 1].count];
                sectors::pixels(number, &line.bytes, s, &mut out).unwrap();
                assert!(out == pattern::pixels(s, k));
            }
            for channel in 1..=3 {
                let mut out = vec![0; 2_291];
                sectors::joined(number, &line.bytes, channel, &mut out).unwrap();
                for (j, &value) in out.iter().enumerate() {
                    let upper = pattern::pixel(channel + 1, j, k);
                    let lower = pattern::pixel(channel + 8, j, k);
                    assert_eq!(value, 4 * upper + lower);
                }
            }
            let mut doc = vec![0; 2_291];
            sectors::data(number, &line.bytes, 1, &mut doc).unwrap();
            assert!(doc == pattern::doc(number, k, 0));
        }
    }
}

#[test]
fn the_pattern_reads_back_through_every_field_call() {
    let modes = [
        ScanMode::Full,
        ScanMode::Limited,
        ScanMode::Single,
        ScanMode::Unnamed(0x5A),
    ];
    let mirrors = [
        ScannerSelect::Mirror1A,
        ScannerSelect::Mirror1B,
        ScannerSelect::Mirror2A,
        ScannerSelect::Mirror2B,
        ScannerSelect::Unnamed(0xA5),
    ];
    for k in [
        0, 1, 2, 3, 4, 99, 100, 9_899, 9_900, 5_999, 144_000, 143_999,
    ] {
        let line = pattern::line(1, k, 0).unwrap();
        assert_eq!(document::scan_mode(1, &line), Ok(modes[(k % 4) as usize]));
        let mirror = mirrors[(k % 5) as usize];
        assert_eq!(document::scanner_select(1, &line), Ok(mirror));

        let numbers = document::line_numbers(1, &line).unwrap();
        assert_eq!(u64::from(numbers.scan_count), (100 + k) % 10_000);
        assert_eq!((numbers.set_line, numbers.reset_line), (100, 2_391));
        let position = ((100 + k) % 10_000) as i16 - 100;
        assert_eq!(numbers.line_position, position);
        assert_eq!(document::line_position(1, &line), Ok(position));

        let date = document::date(1, &line).unwrap();
        let hundredths = u64::from(date.hundredths)
            + 100 * u64::from(date.second)
            + 6_000 * u64::from(date.minute)
            + 360_000 * u64::from(date.hour)
            + 8_640_000 * u64::from(date.day - 1);
        assert_eq!(hundredths, 60 * k);
        assert_eq!((date.year, date.month), (2005, 1));

        let expected = SubCommutation {
            segment: (k / 8 % 25) as usize,
            repeat: (k % 8) as usize,
        };
        assert_eq!(document::sub_commutation(1, &line), Ok(expected));
    }
}

#[test]
fn every_mode_and_mirror_byte_keeps_its_number() {
    for byte in 0..=255 {
        assert_eq!(ScanMode::of(byte).number(), byte);
        assert_eq!(ScannerSelect::of(byte).number(), byte);
        let unnamed = matches!(ScanMode::of(byte), ScanMode::Unnamed(_));
        assert_eq!(unnamed, ![0x00, 0x0F, 0xFF].contains(&byte));
        let unnamed = matches!(ScannerSelect::of(byte), ScannerSelect::Unnamed(_));
        assert_eq!(unnamed, ![0xFF, 0xF0, 0x00, 0x0F].contains(&byte));
    }
}

#[test]
fn line_positions_at_both_ends() {
    for (set, count, position) in [(0, 9_999, 9_999), (9_999, 0, -9_999), (5, 5, 0)] {
        let mut doc = vec![0; 2_291];
        doc[4..6].copy_from_slice(&pattern::bcd(set, 2));
        doc[8..10].copy_from_slice(&pattern::bcd(count, 2));
        let mut line = vec![0; LINE_BYTES];
        sectors::put_data(1, &mut line, 1, &doc).unwrap();
        assert_eq!(document::line_position(1, &line), Ok(position));
    }
}

#[test]
fn fields_by_place_agree_with_the_named_ones() {
    let line = pattern::line(1, 77, 0).unwrap();
    assert_eq!(document::field_bcd(1, &line, 11, 2), Ok(177));
    assert_eq!(document::field_bcd(1, &line, 20, 2), Ok(2005));
    assert_eq!(document::field_i(1, &line, 193, 4), Ok(9 << 16 | 5));
    let bytes = &line[36..42];
    assert_eq!(document::field_r(1, &line, 37, 6, 8), read_r(bytes, 6, 8));
}

#[test]
fn r_numbers_read_back() {
    let mut random = Random::new(13);
    for (n, magnitude_bits) in [(4, 31), (6, 47)] {
        for m in 0..=15 {
            for negative in [false, true] {
                let highest = (1 << magnitude_bits) - 1;
                let drawn = bits::number(&random.bits(magnitude_bits));
                for magnitude in [0, 1, drawn, highest] {
                    let mut out = vec![0xEE; n + 1];
                    assert_eq!(write_r(n, m, negative, magnitude, &mut out), Ok(n));
                    assert_eq!(out[n], 0xEE);
                    let expected = R {
                        negative,
                        magnitude,
                        places: m,
                    };
                    assert_eq!(read_r(&out, n, m), Ok(expected));
                    let value = expected.value();
                    assert_eq!(value.is_sign_negative(), negative);
                    // The nearest f64 to the decimal number, which is what
                    // reading it as text gives.
                    let text = format!("{magnitude}e-{m}");
                    assert_eq!(value.abs(), text.parse::<f64>().unwrap());
                }
            }
        }
    }
}

#[test]
fn the_powers_are_powers_of_ten() {
    for (m, &power) in POWERS.iter().enumerate() {
        assert_eq!(power as u64, 10u64.pow(m as u32));
        assert_eq!(power as u64 as f64, power);
    }
}

/// The record of a block that is finished with the pattern's old tables.
const FINISHED: Assembly = Assembly {
    marks: ALL_MARKS,
    calibration: 2_101,
    manam: 731,
};

/// 200 lines of the pattern, into all the blocks.
#[test]
fn blocks_come_together_from_200_lines() {
    for number in [1, 2, 3] {
        let last = if number == 2 { 4 } else { 5 };
        let mut assemblies = [Assembly::default(); 5];
        let mut buffers: Vec<Vec<u8>> = BLOCKS
            .iter()
            .map(|block| vec![0xEE; block.size + 1])
            .collect();
        for k in 0..200 {
            // Only the sector DOC is looked at.
            let mut line = vec![0xEE; LINE_BYTES];
            sectors::put_data(number, &mut line, 1, &pattern::doc(number, k, 0)).unwrap();
            for b in 1..=last {
                let (assembly, buffer) = (&mut assemblies[b - 1], &mut buffers[b - 1]);
                let before = (*assembly, buffer.clone());
                let added = blocks::add_segment(number, &line, b, assembly, buffer);
                let expected = Added {
                    segment: (k / 8) as usize,
                    first_copy: k % 8 == 0,
                };
                assert_eq!(added, Ok(expected));
                if !expected.first_copy {
                    assert!(before == (*assembly, buffer.clone()));
                }
            }
        }
        for b in 1..=last {
            assert_eq!(assemblies[b - 1], FINISHED);
            let mut expected = pattern::block(b, false);
            expected.push(0xEE);
            assert!(buffers[b - 1] == expected);
        }
    }
}

#[test]
fn entries_stand_where_the_paper_places_them() {
    let block = pattern::block(1, false);
    for row in 0..25 {
        for column in 0..25 {
            let point = blocks::mapping(1, FINISHED, &block, row, column).unwrap();
            let at = 100 * row + 4 * column;
            let two = |i: usize| 256 * u32::from(block[i]) + u32::from(block[i + 1]);
            assert_eq!((point.line, point.pixel), (two(at), two(at + 2)));
            assert_eq!(point.latitude, 60 - 5 * row as i32);
        }
    }

    let block = pattern::block(5, false);
    for number in 1..=4 {
        for level in 0..64 {
            let at = 256 + 256 * (number - 1) + 4 * level;
            let given = blocks::albedo(1, FINISHED, &block, number, level);
            let value = read_r(&block[at..], 4, 6).unwrap();
            assert_eq!(given.map(|level| level.value), Ok(value));
            assert_eq!(given.map(|level| level.revision), Ok(2_101));
        }
        for level in 0..1_024 {
            let at = 1_280 + 4_096 * (number - 1) + 4 * level;
            let given = blocks::temperature(1, FINISHED, &block, number, level);
            let value = read_r(&block[at..], 4, 3).unwrap();
            assert_eq!(given.map(|level| level.value), Ok(value));
            assert_eq!(given.map(|level| level.revision), Ok(2_101));
        }
    }
}

#[test]
fn orbital_elements_come_from_their_bytes() {
    let sent = [
        (false, 5_338_300_000_000, 8),
        (false, 4_216_612_345_678, 8),
        (false, 2_345_678, 10),
        (false, 123_456_789, 8),
        (true, 8_912_345_678, 8),
        (false, 35_999_999_999, 8),
        (true, 0, 8),
    ];
    let mut block = vec![0xEE; 3_200];
    for (i, &(negative, magnitude, m)) in sent.iter().enumerate() {
        write_r(6, m, negative, magnitude, &mut block[156 + 6 * i..]).unwrap();
    }
    let elements = blocks::orbital_elements(2, FINISHED, &block).unwrap();
    assert_eq!(elements.epoch, 53_383.0);
    assert_eq!(elements.semi_major_axis, 42_166.12345678);
    assert_eq!(elements.eccentricity, 0.0002345678);
    assert_eq!(elements.inclination, 1.23456789);
    assert_eq!(elements.ascending_node, -89.12345678);
    assert_eq!(elements.argument_of_perigee, 359.99999999);
    assert_eq!(elements.mean_anomaly.to_bits(), (-0.0f64).to_bits());
}

#[test]
fn the_listing_of_a_line_of_zeros() {
    for number in [1, 2, 3] {
        let line = pattern::line_of_zeros(number).unwrap();
        let wire = pattern::on_the_wire(number, &line).unwrap();
        let expected = "line 1 good 12 filler 0\ntotal 1\n";
        assert_eq!(listing::of_recording(number, 0, &wire).unwrap(), expected);
        assert_eq!(listing::of_recording(number, 0, &[]).unwrap(), "total 0\n");
    }
}

#[test]
fn the_listing_counts_good_sectors_and_set_filler_bits() {
    let mut line = pattern::line(1, 0, 0).unwrap();
    // One data bit of IR1 upper, three filler bits of VIS1 and one of IR4.
    let turned = 1 - bits::bit(&line, 20_408 + 16);
    bits::set_bit(&mut line, 20_408 + 16, turned);
    for place in [0, 1, 2_047] {
        bits::set_bit(&mut line, SECTORS[4].filler_start() + place, 1);
    }
    bits::set_bit(&mut line, 354_847, 1);
    let row = listing::row(1, 7, &line).unwrap();
    assert_eq!(row, "line 7 good 11 filler 4");
}

#[test]
fn the_listing_in_pieces_is_that_of_the_plain_definition() {
    let mut random = Random::new(14);
    for number in [1, 2, 3] {
        for kind in 0..damage::KINDS {
            let (name, recording) = damage::make(kind, number, &mut random);
            let setting = random.under(7);
            let mut listing = Listing::new(number, setting);
            let mut text = String::new();
            for piece in damage::cut(&recording, 65_536, &mut random) {
                for row in listing.feed(piece).unwrap() {
                    text += &(row + "\n");
                }
            }
            text += &(listing.total() + "\n");
            let expected = listing::of_recording(number, setting, &recording).unwrap();
            assert_eq!(text, expected, "{name}");
        }
    }
}

/// Runs the program with some words and an input.
fn run(words: &[&str], input: Vec<u8>) -> Vec<u8> {
    let output = outcome(words, input);
    assert!(output.status.success());
    output.stdout
}

#[test]
fn the_program() {
    let zeros = run(&["zeros"], Vec::new());
    assert_eq!(zeros.len(), 45_606);
    let listing = run(&["listing"], zeros);
    assert_eq!(listing, b"line 1 good 12 filler 0\ntotal 1\n");

    for format in ["1", "2", "3"] {
        let signal = run(&["signal", "3", format], Vec::new());
        assert!(signal == damage::good(format.parse().unwrap(), 3));
        let listing = run(&["listing", format], signal);
        let expected = "line 1 good 12 filler 0\nline 2 good 12 filler 0\n\
                        line 3 good 12 filler 0\ntotal 3\n";
        assert_eq!(String::from_utf8(listing).unwrap(), expected);
    }
    let vectors = String::from_utf8(run(&["vectors"], Vec::new())).unwrap();
    assert_eq!(vectors, second::vectors::rows().join("\n") + "\n");
}

/// `signal` with wrong bits, found at their number and not below it.
#[test]
fn the_program_at_a_setting() {
    for format in ["1", "2", "3"] {
        let good = run(&["signal", "3", format, "0"], Vec::new());
        assert!(good == damage::good(format.parse().unwrap(), 3));
        let iced = run(&["signal", "3", format, "4"], Vec::new());
        for verb in ["listing", "fields"] {
            let as_sent = run(&[verb, format], good.clone());
            assert!(run(&[verb, format, "4"], iced.clone()) == as_sent);
            let none = run(&[verb, format, "3"], iced.clone());
            assert!(none.ends_with(b"total 0\n"));
            assert!(run(&[verb, format], iced.clone()) == none);
        }
    }
    for (words, said) in [
        (&["listing", "1", "7"], "refusal 13\n"),
        (&["fields", "2", "7"], "refusal 13\n"),
        (&["listing", "3", "7"], "refusal 13\n"),
        (&["listing", "4", "7"], "refusal 1\n"),
        (&["fields", "0", "7"], "refusal 1\n"),
    ] {
        let output = outcome(words, Vec::new());
        assert_eq!(output.status.code(), Some(2));
        assert_eq!((output.stdout, output.stderr), (vec![], said.into()));
    }
    assert!(outcome(&["signal", "1", "1", "64"], vec![])
        .status
        .success());
    let output = outcome(&["signal", "1", "1", "65"], vec![]);
    let said = "not a number of wrong bits, 0 to 64: 65\n";
    assert_eq!((output.stdout, output.stderr), (vec![], said.into()));
}

/// `signal` with new tables from line T on, 0 as where it is left out.
#[test]
fn the_program_with_new_tables() {
    for format in ["1", "2", "3"] {
        let number = format.parse().unwrap();
        let good = damage::good(number, 9);
        for none in ["0", "10", "1000000"] {
            assert!(run(&["signal", "9", format, "0", none], Vec::new()) == good);
        }
        let across = run(&["signal", "9", format, "0", "9"], Vec::new());
        let first_eight = 8 * good.len() / 9;
        assert!(across[..first_eight] == good[..first_eight]);
        assert!(across[first_eight..] == pattern::signal(number, 8, 0, 9).unwrap());
        assert!(across != good);

        // Line 9 is the first of segment 1.
        let rows = String::from_utf8(run(&["fields", format], across.clone())).unwrap();
        let last = if number == 2 { "4" } else { "14" };
        assert!(rows.contains(&format!(" segment 1 repeat 0 blocks 0 0 14 14 {last}\n")));
        assert!(rows.contains("\nmapping 2/25\norbit 2/25\nMANAM 1/25 foreign 1\n"));
        // Sectors and filler are as good as before.
        let listing = run(&["listing", format], across);
        assert!(listing == run(&["listing", format], good));

        // With wrong bits in the tails, too.
        let both = run(&["signal", "2", format, "3", "2"], Vec::new());
        let mut expected = pattern::signal(number, 0, 3, 0).unwrap();
        expected.extend(pattern::signal(number, 1, 3, 1).unwrap());
        assert!(both == expected);
    }
    for (words, said) in [
        (
            ["signal", "1", "1", "0", "1000001"],
            "not the line of new tables, 0 to 1000000: 1000001\n",
        ),
        (
            ["signal", "1", "1", "65", "1000001"],
            "not a number of wrong bits, 0 to 64: 65\n",
        ),
        (["signal", "1", "4", "65", "1000001"], "refusal 1\n"),
        (["signal", "1", "0", "65", "1000001"], "refusal 1\n"),
    ] {
        let output = outcome(&words, Vec::new());
        assert_eq!(output.status.code(), Some(2));
        assert_eq!((output.stdout, output.stderr), (vec![], said.into()));
    }
}
