//! Document 02, T-05: one record over all the lines of a pass. Figures are worked
//! out from the paper's own numbers: 2,048 filler bits in a sector, 2,291 pixels
//! in a line of a channel, four times the upper pixel plus the lower one.
//!
//! Where 15 stands among the other refusals is tested with them, in
//! `refusals.rs`.

mod common;

use common::outcome;
use second::bits;
use second::damage::{self, has_wrong_check, has_wrong_id, Random};
use second::format::LINE_BYTES;
use second::pattern;
use second::report::{self, impossible, together, with_line};
use second::report::{Channel, Pass, Range, Report, Tally};
use second::sectors::{self, SECTORS};

/// The record of no line.
fn empty() -> Report {
    Report::default()
}

fn tally(accepted: u64, remainder: u64, id: u64, filler: u64) -> Tally {
    Tally {
        accepted,
        remainder,
        id,
        filler,
    }
}

fn channel(count: u64, sum: u64, least: u16, largest: u16) -> Channel {
    Channel {
        count,
        sum,
        range: Some(Range { least, largest }),
    }
}

const NO_PIXELS: Channel = Channel {
    count: 0,
    sum: 0,
    range: None,
};

/// The record of some lines.
fn of(format: usize, lines: &[Vec<u8>]) -> Report {
    lines.iter().fold(empty(), |report, line| {
        with_line(format, &report, line).unwrap()
    })
}

#[test]
fn of_no_line() {
    let none = Report {
        lines: 0,
        sectors: [tally(0, 0, 0, 0); 12],
        channels: [NO_PIXELS; 4],
    };
    assert_eq!(empty(), none);
    assert!(!impossible(&none));
    assert_eq!(together(&none, &none), Ok(none));
}

#[test]
fn of_a_line_of_zeros() {
    for format in [1, 2, 3] {
        let line = pattern::line_of_zeros(format).unwrap();
        let expected = Report {
            lines: 1,
            sectors: [tally(1, 0, 0, 0); 12],
            channels: [channel(2_291, 0, 0, 0); 4],
        };
        assert_eq!(of(format, &[line]), expected);
    }
}

/// IR1 has 200 and 3 everywhere, 803; IR2 is 0 but for 4 x 255 and for 3; IR3 is
/// 4 x 1 but for one 0; IR4 is 1,023.
fn line_of_known_pixels(format: usize) -> Vec<u8> {
    let mut line = pattern::line_of_zeros(format).unwrap();
    let mut put = |sector: usize, pixels: Vec<u16>| {
        sectors::put_pixels(format, &mut line, sector, &pixels).unwrap();
    };
    let one = |all: u16, place: usize, other: u16| {
        let mut pixels = vec![all; 2_291];
        pixels[place] = other;
        pixels
    };
    put(2, vec![200; 2_291]);
    put(9, vec![3; 2_291]);
    put(3, one(0, 7, 255));
    put(10, one(0, 2_290, 3));
    put(4, one(1, 0, 0));
    put(12, vec![1_023; 2_291]);
    line
}

const KNOWN: [Channel; 4] = [
    Channel {
        count: 2_291,
        sum: 1_839_673, // 803 x 2,291
        range: Some(Range {
            least: 803,
            largest: 803,
        }),
    },
    Channel {
        count: 2_291,
        sum: 1_023, // 1,020 + 3
        range: Some(Range {
            least: 0,
            largest: 1_020,
        }),
    },
    Channel {
        count: 2_291,
        sum: 9_160, // 4 x 2,290
        range: Some(Range {
            least: 0,
            largest: 4,
        }),
    },
    Channel {
        count: 2_291,
        sum: 2_343_693, // 1,023 x 2,291, the most that a line has
        range: Some(Range {
            least: 1_023,
            largest: 1_023,
        }),
    },
];

#[test]
fn of_known_pixels() {
    for format in [1, 2, 3] {
        let report = of(format, &[line_of_known_pixels(format)]);
        assert_eq!(report.sectors, [tally(1, 0, 0, 0); 12]);
        assert_eq!(report.channels, KNOWN);
        // The most that one line allows is served on.
        assert!(!impossible(&report));
    }
}

/// Every sector damaged, and every filler bit set: "refused sectors counted too".
#[test]
fn of_a_line_that_is_all_damaged() {
    for format in [1, 2, 3] {
        let mut line = line_of_known_pixels(format);
        for (index, sector) in SECTORS.iter().enumerate() {
            damage::wrong_check(&mut line, index + 1);
            for place in 0..2_048 {
                bits::set_bit(&mut line, sector.filler_start() + place, 1);
            }
        }
        let report = of(format, &[line]);
        assert_eq!(report.lines, 1);
        assert_eq!(report.sectors, [tally(0, 1, 0, 2_048); 12]);
        assert_eq!(report.channels, [NO_PIXELS; 4]);
        assert!(!impossible(&report));
    }
}

/// Zeros without IDs: the remainder is 0 where the check starts from 0, and DOC's
/// ID is zero. "In format 3 ... a DOC sector of zeros with check word 0000 is
/// refused with 5", and so are the others.
#[test]
fn of_zeros_without_ids() {
    for format in [1, 2] {
        let report = of(format, &[vec![0; LINE_BYTES]]);
        assert_eq!(report.sectors[0], tally(1, 0, 0, 0));
        assert_eq!(report.sectors[1..], [tally(0, 0, 1, 0); 11]);
        assert_eq!(report.channels, [NO_PIXELS; 4]);
    }
    let report = of(3, &[vec![0; LINE_BYTES]]);
    assert_eq!(report.sectors, [tally(0, 1, 0, 0); 12]);
}

/// Set filler bits belong to their own sector: s of them in sector s.
#[test]
fn filler_is_counted_sector_by_sector() {
    let mut line = pattern::line_of_zeros(2).unwrap();
    for (index, sector) in SECTORS.iter().enumerate() {
        for place in 0..=index {
            bits::set_bit(&mut line, sector.filler_start() + 170 * place, 1);
        }
    }
    let report = of(2, &[line.clone(), line]);
    for (number, sector) in (1..).zip(report.sectors) {
        assert_eq!(sector, tally(2, 0, 0, 2 * number));
    }
}

/// "over accepted pairs": one of the two alone gives no pixel, and counts in its
/// own sector.
#[test]
fn a_pair_is_two_accepted_sectors() {
    for format in [1, 2, 3] {
        for c in 1..=3 {
            for refused in [c + 1, c + 8] {
                let mut renamed = line_of_known_pixels(format);
                let mut damaged = renamed.clone();
                damage::wrong_id(format, &mut renamed, refused).unwrap();
                damage::wrong_check(&mut damaged, refused);
                let report = of(format, &[renamed, damaged]);
                for (number, sector) in (1..).zip(report.sectors) {
                    let expected = match number == refused {
                        true => tally(0, 1, 1, 0),
                        false => tally(2, 0, 0, 0),
                    };
                    assert_eq!(sector, expected);
                }
                for (number, ir) in (1..).zip(report.channels) {
                    match number == c {
                        true => assert_eq!(ir, NO_PIXELS),
                        false => assert_eq!(ir.count, 2 * 2_291),
                    }
                }
            }
        }
        let mut line = line_of_known_pixels(format);
        damage::wrong_check(&mut line, 12);
        let report = of(format, &[line]);
        assert_eq!(report.channels[..3], KNOWN[..3]);
        assert_eq!(report.channels[3], NO_PIXELS);
    }
}

/// The other sectors have no part in the pixels.
#[test]
fn doc_and_the_visible_sectors_give_no_pixels() {
    let mut line = line_of_known_pixels(1);
    for sector in [1, 5, 6, 7, 8] {
        damage::wrong_check(&mut line, sector);
    }
    assert_eq!(of(1, &[line]).channels, KNOWN);
}

/// "The record for two passes one after the other is the two records added, with
/// the lesser least and the greater largest".
#[test]
fn two_passes_one_after_the_other() {
    let mut random = Random::new(30);
    for format in [1, 2, 3] {
        let mut lines: Vec<Vec<u8>> = (0..6)
            .map(|k| damage::damaged_line(format, k).unwrap())
            .collect();
        lines.push(line_of_known_pixels(format));
        lines.push(random.bytes(LINE_BYTES));
        let whole = of(format, &lines);
        for cut in 0..=lines.len() {
            let (first, second) = (of(format, &lines[..cut]), of(format, &lines[cut..]));
            assert_eq!(together(&first, &second), Ok(whole));
            assert_eq!(together(&second, &first), Ok(whole));
        }
    }

    let zeros = of(1, &[pattern::line_of_zeros(1).unwrap()]);
    let known = of(1, &[line_of_known_pixels(1)]);
    let both = together(&zeros, &known).unwrap();
    assert_eq!(both.lines, 2);
    assert_eq!(both.sectors, [tally(2, 0, 0, 0); 12]);
    let expected = [
        channel(4_582, 1_839_673, 0, 803),
        channel(4_582, 1_023, 0, 1_020),
        channel(4_582, 9_160, 0, 4),
        channel(4_582, 2_343_693, 0, 1_023),
    ];
    assert_eq!(both.channels, expected);
}

/// "those of no pixels are marked absent": a pass without pixels changes neither.
#[test]
fn an_absent_one_gives_way() {
    let known = of(1, &[line_of_known_pixels(1)]);
    let mut damaged = pattern::line_of_zeros(1).unwrap();
    for sector in 1..=12 {
        damage::wrong_check(&mut damaged, sector);
    }
    let none = of(1, &[damaged.clone()]);
    assert_eq!(together(&none, &none).unwrap().channels, [NO_PIXELS; 4]);
    for both in [
        together(&known, &none).unwrap(),
        together(&none, &known).unwrap(),
        with_line(1, &known, &damaged).unwrap(),
        with_line(1, &none, &line_of_known_pixels(1)).unwrap(),
    ] {
        assert_eq!(both.channels, KNOWN);
        assert_eq!(both.sectors, [tally(1, 1, 0, 0); 12]);
    }
}

/// A record of so many lines in which every sector was accepted.
fn all_accepted(lines: u64) -> Report {
    Report {
        lines,
        sectors: [tally(lines, 0, 0, 0); 12],
        channels: [NO_PIXELS; 4],
    }
}

/// "The report takes at most 100,000 lines." 15 "for one line more".
#[test]
fn a_report_is_full_at_100_000_lines() {
    let line = line_of_known_pixels(1);
    let last = with_line(1, &all_accepted(99_999), &line).unwrap();
    assert_eq!((last.lines, last.sectors[4].accepted), (100_000, 100_000));
    assert_eq!(last.channels, KNOWN);
    assert_eq!(with_line(1, &last, &line), Err(15));
    assert_eq!(with_line(1, &all_accepted(100_000), &line), Err(15));
    // Over the limit the record itself is refused.
    assert_eq!(with_line(1, &all_accepted(100_001), &line), Err(12));
    assert_eq!(with_line(1, &all_accepted(u64::MAX), &line), Err(12));
}

/// 15 for "two records together over the limit"; as many as the limit are served.
#[test]
fn two_reports_together_up_to_the_limit() {
    for (first, second, number) in [
        (0, 100_000, 0),
        (1, 99_999, 0),
        (50_000, 50_000, 0),
        (1, 100_000, 15),
        (50_000, 50_001, 15),
        (100_000, 100_000, 15),
        (0, 100_001, 12),
        (100_000, 100_001, 12),
    ] {
        let (a, b) = (all_accepted(first), all_accepted(second));
        for given in [together(&a, &b), together(&b, &a)] {
            match number {
                0 => assert_eq!(given, Ok(all_accepted(100_000))),
                number => assert_eq!(given, Err(number)),
            }
        }
    }
}

/// A possible record of three lines, with no room left: all filler bits set, all
/// pixels 1,023.
fn brim() -> Report {
    Report {
        lines: 3,
        sectors: [tally(1, 1, 1, 6_144); 12],
        channels: [channel(6_873, 7_031_079, 1_023, 1_023); 4],
    }
}

/// Each clause of 12 on both sides of its edge, in every sector and channel.
#[test]
fn every_edge_of_an_impossible_record() {
    assert!(!impossible(&brim()));
    let mut others: Vec<Report> = Vec::new();
    let mut other = |change: &dyn Fn(&mut Report)| {
        let mut report = brim();
        change(&mut report);
        others.push(report);
    };
    // The counts of every sector are for three lines.
    for lines in [0, 2, 4, 100_000, 100_001, u64::MAX] {
        other(&|report| report.lines = lines);
    }
    for sector in 0..12 {
        other(&|report| report.sectors[sector].accepted = 0);
        other(&|report| report.sectors[sector].accepted = 2);
        other(&|report| report.sectors[sector].remainder = 0);
        other(&|report| report.sectors[sector].remainder = 2);
        other(&|report| report.sectors[sector].id = 0);
        other(&|report| report.sectors[sector].id = 2);
        // They add up to 3 where a sum is cut to 64 bits.
        other(&|report| report.sectors[sector] = tally(u64::MAX, 3, 1, 0));
        other(&|report| report.sectors[sector] = tally(1 << 63, 3, 1 << 63, 0));
        other(&|report| report.sectors[sector] = tally(2, u64::MAX, 2, 0));
        other(&|report| report.sectors[sector].filler = 6_145);
        other(&|report| report.sectors[sector].filler = u64::MAX);
    }
    for ir in 0..4 {
        other(&|report| report.channels[ir].count = 6_874);
        other(&|report| report.channels[ir].count = u64::MAX);
        other(&|report| report.channels[ir].sum = 7_031_080);
        other(&|report| report.channels[ir].sum = u64::MAX);
    }
    for report in others {
        assert!(impossible(&report), "{report:?}");
        let line = vec![0; LINE_BYTES];
        assert_eq!(with_line(1, &report, &line), Err(12));
        assert_eq!(together(&report, &brim()), Err(12));
        assert_eq!(together(&brim(), &report), Err(12));
    }

    // At the limit itself: 2,048 x 100,000, 2,291 x 100,000, 2,343,693 x 100,000.
    let most = Report {
        lines: 100_000,
        sectors: [tally(100_000, 0, 0, 204_800_000); 12],
        channels: [channel(229_100_000, 234_369_300_000, 0, 1_023); 4],
    };
    assert_eq!(together(&most, &empty()), Ok(most));
    let mut above = [most; 3];
    above[0].sectors[0].filler += 1;
    above[1].channels[0].count += 1;
    above[2].channels[3].sum += 1;
    for report in above {
        assert_eq!(together(&report, &empty()), Err(12));
    }
}

/// 12 is for no more than its list: what no lines lead to is served, by the mark
/// alone.
#[test]
fn made_up_records_are_served() {
    let line = line_of_known_pixels(1);
    let mut made_up = all_accepted(5);
    // pixels that are marked absent
    made_up.channels[0] = Channel {
        count: 7,
        sum: 11,
        range: None,
    };
    // none, but a least and a largest
    made_up.channels[1] = channel(0, 0, 5, 9);
    // a least over the largest
    made_up.channels[2] = channel(1, 9, 600, 2);
    // both over ten bits
    made_up.channels[3] = channel(0, 1, 65_535, 65_535);
    assert_eq!(together(&made_up, &empty()), Ok(made_up));
    assert_eq!(together(&empty(), &made_up), Ok(made_up));
    let after = with_line(1, &made_up, &line).unwrap();
    let expected = [
        channel(2_298, 1_839_684, 803, 803),
        channel(2_291, 1_023, 0, 1_020),
        channel(2_292, 9_169, 0, 4),
        channel(2_291, 2_343_694, 1_023, 65_535),
    ];
    assert_eq!(after.channels, expected);
    let twice = together(&made_up, &made_up).unwrap();
    let ranges = twice.channels.map(|ir| ir.range);
    assert_eq!(ranges, made_up.channels.map(|ir| ir.range));
}

/// Bytes behind the line have no part in it.
#[test]
fn a_buffer_that_is_longer_than_a_line() {
    let mut line = line_of_known_pixels(1);
    line.extend([0xFF; 9]);
    assert_eq!(of(1, &[line]), of(1, &[line_of_known_pixels(1)]));
}

/// The sectors of three damaged lines; which are damaged how was worked out by
/// hand from the words in `damage.rs`.
const DAMAGED: &str = "lines 3
sector 1 accepted 3 remainder 0 id 0 filler 6
sector 2 accepted 3 remainder 0 id 0 filler 5
sector 3 accepted 2 remainder 1 id 0 filler 4
sector 4 accepted 0 remainder 3 id 0 filler 3
sector 5 accepted 1 remainder 1 id 1 filler 6
sector 6 accepted 2 remainder 0 id 1 filler 5
sector 7 accepted 2 remainder 0 id 1 filler 4
sector 8 accepted 2 remainder 1 id 0 filler 3
sector 9 accepted 2 remainder 1 id 0 filler 6
sector 10 accepted 2 remainder 1 id 0 filler 5
sector 11 accepted 2 remainder 1 id 0 filler 4
sector 12 accepted 2 remainder 0 id 1 filler 3
";

/// The row of a channel whose pixels are these.
fn row(name: &str, pixels: &[u16]) -> String {
    let sum: u64 = pixels.iter().map(|&pixel| u64::from(pixel)).sum();
    let (least, largest) = (pixels.iter().min().unwrap(), pixels.iter().max().unwrap());
    let count = pixels.len();
    format!("{name} pixels {count} sum {sum} least {least} largest {largest}\n")
}

/// The pattern's pixels: IR1 in lines 1 and 3, IR2 in line 2, IR4 in lines 1 and
/// 2. IR3 has none.
fn damaged_rows() -> String {
    let joined = |c: usize, k: u64| {
        let pixel = move |j| 4 * pattern::pixel(c + 1, j, k) + pattern::pixel(c + 8, j, k);
        (0..2_291).map(pixel)
    };
    let ir1 = Vec::from_iter(joined(1, 0).chain(joined(1, 2)));
    let ir2 = Vec::from_iter(joined(2, 1));
    let ir4 = [pattern::pixels(12, 0), pattern::pixels(12, 1)].concat();
    let none = "IR3 pixels 0 sum 0 least none largest none\n";
    DAMAGED.to_string() + &row("IR1", &ir1) + &row("IR2", &ir2) + none + &row("IR4", &ir4)
}

/// The text of a program that ends well without a word of trouble.
fn run(words: &[&str], input: Vec<u8>) -> Vec<u8> {
    let output = outcome(words, input);
    assert!(output.status.success());
    assert_eq!(output.stderr, b"");
    output.stdout
}

#[test]
fn the_program() {
    for format in ["1", "2", "3"] {
        let recording = run(&["damaged", "3", format], vec![]);
        let text = String::from_utf8(run(&["report", format], recording.clone())).unwrap();
        assert_eq!(text, damaged_rows());
        // A recording of the other card has no good sector, and the same filler.
        let other = if format == "3" { "1" } else { "3" };
        let text = String::from_utf8(run(&["report", other], recording)).unwrap();
        assert!(text.contains("\nsector 5 accepted 0 remainder 3 id 0 filler 6\n"));
        assert_eq!(text.matches(" accepted 0 remainder 3 id 0 ").count(), 12);
        assert_eq!(
            text.matches(" pixels 0 sum 0 least none largest none\n")
                .count(),
            4
        );
    }
    let text = String::from_utf8(run(&["report"], run(&["zeros"], vec![]))).unwrap();
    let mut expected = "lines 1\n".to_string();
    for sector in 1..=12 {
        expected += &format!("sector {sector} accepted 1 remainder 0 id 0 filler 0\n");
    }
    for ir in 1..=4 {
        expected += &format!("IR{ir} pixels 2291 sum 0 least 0 largest 0\n");
    }
    assert_eq!(text, expected);
    let text = String::from_utf8(run(&["report", "2"], vec![])).unwrap();
    assert!(text.starts_with("lines 0\nsector 1 accepted 0 remainder 0 id 0 filler 0\n"));
    assert!(text.ends_with("\nIR4 pixels 0 sum 0 least none largest none\n"));
}

#[test]
fn the_program_at_a_setting_and_at_an_end() {
    let iced = run(&["signal", "2", "1", "4"], vec![]);
    assert!(run(&["report", "1", "4"], iced.clone()).starts_with(b"lines 2\n"));
    assert!(run(&["report", "1", "3"], iced.clone()).starts_with(b"lines 0\n"));

    // 1,250 bytes of SYNC, and 1,000 of the second line behind its own.
    let cut = iced[..45_606 + 1_250 + 1_000].to_vec();
    let output = outcome(&["report", "1", "4"], cut);
    assert!(output.status.success());
    assert!(output.stdout.starts_with(b"lines 1\n"));
    let said = "an unfinished line, 8000 of 354848 bits\n";
    assert_eq!(String::from_utf8(output.stderr).unwrap(), said);

    for (words, said) in [
        (&["report", "4", "7"], "refusal 1\n"),
        (&["report", "3", "7"], "refusal 13\n"),
        (&["damaged", "1", "0"], "refusal 1\n"),
    ] {
        let output = outcome(words, vec![]);
        assert_eq!(output.status.code(), Some(2));
        assert_eq!((output.stdout, output.stderr), (vec![], said.into()));
    }
}

/// A recording of over 100,000 lines, from its last ones on.
#[test]
fn a_pass_with_too_many_lines() {
    let two = damage::good(1, 2);
    let mut pass = Pass::new(1, 0);
    pass.report = all_accepted(99_999);
    assert_eq!(pass.feed(&two[..60_000]), Ok(()));
    let full = pass.report;
    assert_eq!(full.lines, 100_000);
    assert_eq!(pass.feed(&two[60_000..]), Err(15));
    assert_eq!(pass.report, full);

    // The same within one piece.
    let mut pass = Pass::new(1, 0);
    pass.report = all_accepted(99_999);
    assert_eq!(pass.feed(&damage::good(1, 3)), Err(15));
    assert_eq!(pass.report, full);
}

/// What `damaged` says of itself: answers 5 and 6, filler set in accepted and in
/// refused sectors, each half of a pair accepted alone, IR4 refused, IR3 without
/// a pair.
#[test]
fn the_damage_is_of_every_kind() {
    for format in [1, 2, 3] {
        let mut seen = [false; 6];
        for k in 0..8 {
            let line = damage::damaged_line(format, k).unwrap();
            let answers = sectors::answers(format, &line).unwrap();
            for (s, answer) in (1..).zip(answers) {
                let expected = match (has_wrong_check(k, s), has_wrong_id(k, s)) {
                    (true, _) => 5,
                    (false, true) => 6,
                    (false, false) => 0,
                };
                assert_eq!(answer, expected);
                let filler = sectors::filler(format, &line, s).unwrap();
                assert_eq!(filler, damage::filler_set(k, s));
                seen[0] |= filler > 0 && answer == 0;
                seen[1] |= filler > 0 && answer == 5;
                seen[2] |= filler > 0 && answer == 6;
            }
            for c in 1..=2 {
                seen[3] |= answers[c] == 0 && answers[c + 7] != 0;
                seen[4] |= answers[c] != 0 && answers[c + 7] == 0;
            }
            seen[5] |= answers[11] != 0;
            assert!(answers[3] != 0 || answers[10] != 0);
        }
        assert_eq!(seen, [true; 6]);
    }
}

/// The rows of a report are those of its fields, each in its place.
#[test]
fn rows_name_every_field() {
    let mut report = brim();
    report.sectors[11] = tally(0, 1, 2, 3);
    report.channels[1] = channel(4, 5, 6, 7);
    report.channels[2].range = None;
    let rows = report::rows(&report);
    assert_eq!(rows.len(), 1 + 12 + 4);
    assert_eq!(rows[0], "lines 3");
    assert_eq!(rows[1], "sector 1 accepted 1 remainder 1 id 1 filler 6144");
    assert_eq!(rows[12], "sector 12 accepted 0 remainder 1 id 2 filler 3");
    assert_eq!(rows[14], "IR2 pixels 4 sum 5 least 6 largest 7");
    assert_eq!(
        rows[15],
        "IR3 pixels 6873 sum 7031079 least none largest none"
    );
}
