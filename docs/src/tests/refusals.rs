//! Every refusal of every call. "Tested from the top; the first that applies
//! is given. ... Every refusal returns its number and 0 elsewhere and leaves
//! state and buffers as at entry."
//!
//! For each call the faults it can have are listed, and the call is made with
//! every set of them at once: it has to give the one that stands highest in
//! the table, whatever else is wrong, and to change nothing.

use std::sync::OnceLock;

use second::blocks::{self, Assembly, ALL_MARKS, BLOCKS, MANAM};
use second::damage::{wrong_check, wrong_id};
use second::desk::{self, Desk, CAPTURE, LAST_SERIAL};
use second::document;
use second::format::{format, LINE_BYTES};
use second::numbers::{read_bcd, read_i, read_r, write_r};
use second::pattern;
use second::reader::{impossible, read, State};
use second::report::{self, Channel, Report, Tally};
use second::scramble::write_line;
use second::sectors::{self, SECTORS, STRIP_BYTES};

/// The refusal numbers as the table lists them. 13 to 19 are document 02's: "tested
/// after 1", "tested before 8", "tested after 12", and of a desk 19 "tested first,
/// then 12 .. and 2"; 18 and 16 for a take, 17 else.
const TABLE: [u8; 19] = [
    1, 13, 19, 12, 15, 4, 10, 11, 2, 18, 16, 17, 3, 5, 6, 7, 14, 8, 9,
];

/// The faults of one call.
struct Faults(Vec<u8>);

impl Faults {
    fn has(&self, number: u8) -> bool {
        self.0.contains(&number)
    }

    fn highest(&self) -> Option<u8> {
        TABLE.into_iter().find(|&number| self.has(number))
    }

    /// One of two values: the wrong one with the fault, else the right one.
    fn pick<T>(&self, number: u8, wrong: T, right: T) -> T {
        if self.has(number) {
            wrong
        } else {
            right
        }
    }
}

/// Makes a call with every set of the faults it can have.
fn every_set(can_have: &[u8], mut call: impl FnMut(&Faults) -> Result<(), u8>) {
    for set in 0..1 << can_have.len() {
        let chosen = (0..can_have.len()).filter(|i| set >> i & 1 == 1);
        let faults = Faults(chosen.map(|i| can_have[i]).collect());
        let expected = faults.highest().map_or(Ok(()), Err);
        assert_eq!(call(&faults), expected, "faults {:?}", faults.0);
    }
}

/// The formats that are served; 0 and 4 stand beside them.
const FORMATS: [usize; 3] = [1, 2, 3];

/// Line 9 of the pattern: segment 1, repeat 1. It is made once for each format
/// and copied.
fn good_line(format: usize) -> Vec<u8> {
    static LINES: OnceLock<[Vec<u8>; 3]> = OnceLock::new();
    let made = || FORMATS.map(|format| pattern::line(format, 9, 0).unwrap());
    LINES.get_or_init(made)[format - 1].clone()
}

/// The good line of a format with the faults 6, 5 and 2 in a sector.
fn line_with(format: usize, faults: &Faults, sector: usize) -> Vec<u8> {
    let mut line = good_line(format);
    spoil(format, &mut line, faults, sector);
    line
}

fn spoil(format: usize, line: &mut Vec<u8>, faults: &Faults, sector: usize) {
    if faults.has(6) {
        wrong_id(format, line, sector).unwrap();
    }
    if faults.has(5) {
        wrong_check(line, sector);
    }
    if faults.has(2) {
        line.pop();
    }
}

/// Writes bytes at a place of the sector DOC and makes it accepted again, in a
/// format.
fn doc_with(format: usize, line: &mut [u8], place: usize, bytes: &[u8]) {
    let mut doc = line[2..2_293].to_vec();
    doc[place - 3..place - 3 + bytes.len()].copy_from_slice(bytes);
    sectors::put_data(format, line, 1, &doc).unwrap();
}

#[test]
fn reading() {
    every_set(&[1, 13, 12, 2], |faults| {
        let before = State {
            search: 1,
            search_count: 2,
            register: faults.pick(12, 0x8000, 0),
            ..State::default()
        };
        let mut state = before;
        let mut buffer = vec![0xEE; faults.pick(2, LINE_BYTES - 1, LINE_BYTES)];
        let (format, setting) = (faults.pick(1, 4, 3), faults.pick(13, 7, 6));
        let given = read(format, setting, &mut state, &[0, 0], &mut buffer);
        if given.is_err() {
            assert_eq!(state, before);
        }
        assert!(buffer.iter().all(|&byte| byte == 0xEE));
        given.map(|_| ())
    });
}

/// A record of so many lines, all of them accepted; with the fault 12 one sector
/// has a line more or less.
fn record(lines: u64, faults: &Faults) -> Report {
    let accepted = Tally {
        accepted: lines,
        ..Tally::default()
    };
    let mut record = Report {
        lines,
        sectors: [accepted; 12],
        channels: [Channel::default(); 4],
    };
    if faults.has(12) {
        record.sectors[11].accepted ^= 1;
    }
    record
}

#[test]
fn one_line_more_in_a_report() {
    every_set(&[1, 12, 15, 2], |faults| {
        let before = record(faults.pick(15, 100_000, 99_999), faults);
        let mut line = good_line(3);
        line.truncate(faults.pick(2, LINE_BYTES - 1, LINE_BYTES));
        report::with_line(faults.pick(1, 4, 3), &before, &line).map(|_| ())
    });
}

/// 12 of either record; 15 is for both together.
#[test]
fn two_reports_together() {
    for first_is_wrong in [true, false] {
        every_set(&[12, 15], |faults| {
            let wrong = record(faults.pick(15, 60_001, 60_000), faults);
            let right = record(40_000, &Faults(vec![]));
            match first_is_wrong {
                true => report::together(&wrong, &right).map(|_| ()),
                false => report::together(&right, &wrong).map(|_| ()),
            }
        });
    }
}

/// A desk of two slots: slot 0 is being filled under serial 3, or with the fault 12
/// under 0; slot 1 has line 5, which capture holds. With the fault 16 that is all,
/// else slot 1 is free.
fn desk_with(faults: &Faults) -> Desk {
    let lines = faults.pick(16, vec![(1, 5)], vec![]);
    Desk {
        count: faults.pick(19, 9, 2),
        last: faults.pick(18, LAST_SERIAL, 5),
        filling: [(0, faults.pick(12, 0, 3))].into(),
        holds: lines.iter().map(|line| (CAPTURE, *line)).collect(),
        lines: lines.into_iter().collect(),
    }
}

#[test]
fn taking_a_slot() {
    every_set(&[19, 12, 2, 18, 16], |faults| {
        let before = desk_with(faults);
        let mut desk = before.clone();
        // short for both counts, or enough for both
        let area = faults.pick(2, 2, 9) * LINE_BYTES - 1;
        let given = desk::take(&mut desk, area);
        assert_eq!(given.is_err(), desk == before);
        given.map(|_| ())
    });
}

/// 17 by another slot, another serial or another consumer, one at a time.
#[test]
fn publishing_and_releasing() {
    for count_is_wrong in [true, false] {
        every_set(&[19, 12, 2, 17], |faults| {
            let held = Faults(vec![16]);
            let mut before = desk_with(&held);
            if faults.has(12) {
                before.filling = [(0, 6)].into();
            }
            let right = *before.filling.first().unwrap();
            let slot = match (faults.has(19), count_is_wrong) {
                (true, true) => {
                    before.count = 1;
                    Some(0)
                }
                (true, false) => Some(2),
                (false, _) => None,
            };
            let area = faults.pick(2, 2 * LINE_BYTES - 1, 2 * LINE_BYTES);
            let mut given = vec![];
            let wrong = [(1, right.1), (0, right.1 + 1), (1, 5), (0, 5)];
            let places = faults.pick(17, wrong.to_vec(), vec![right]);
            for (at, serial) in places {
                let mut desk = before.clone();
                let answer = desk::publish(&mut desk, area, (slot.unwrap_or(at), serial));
                assert_eq!(answer.is_err(), desk == before);
                given.push(answer);
            }
            let wrong = [(2, 0, 5), (2, 1, 4), (1, 1, 5), (0, 1, 5), (3, 1, 5)];
            let holds = faults.pick(17, wrong.to_vec(), vec![(2, 1, 5)]);
            for (consumer, at, serial) in holds {
                let mut desk = before.clone();
                let place = (slot.unwrap_or(at), serial);
                given.push(desk::seen(&desk, area, consumer, place).map(|_| ()));
                let answer = desk::release(&mut desk, area, consumer, place);
                assert_eq!(answer.is_err(), desk == before);
                given.push(answer);
            }
            assert!(given.iter().all(|answer| *answer == given[0]), "{given:?}");
            given[0]
        });
    }
}

/// "13 for a setting above 6": 6 is served and 7 is refused, with an empty
/// piece too.
#[test]
fn settings() {
    let mut buffer = vec![0xEE; LINE_BYTES];
    for piece in [&[][..], &[0; 10]] {
        for setting in 0..=6 {
            let given = read(1, setting, &mut State::default(), piece, &mut buffer);
            assert_eq!(given.map(|answer| answer.taken), Ok(piece.len()));
        }
        for setting in [7, 8, 64, 128, 255, 256, 262, usize::MAX] {
            let mut state = State {
                search: 5,
                search_count: 60,
                ..State::default()
            };
            let before = state;
            let given = read(2, setting, &mut state, piece, &mut buffer);
            assert_eq!((given, state), (Err(13), before), "{setting}");
        }
    }
    assert!(buffer.iter().all(|&byte| byte == 0xEE));
}

#[test]
fn writing_a_line() {
    for number in FORMATS {
        let bytes = format(number).unwrap().wire_bytes;
        every_set(&[1, 2, 3], |faults| {
            let line = vec![0; faults.pick(2, LINE_BYTES - 1, LINE_BYTES + 1)];
            let mut out = vec![0xEE; faults.pick(3, bytes - 1, bytes + 2)];
            let given = write_line(faults.pick(1, 0, number), &line, &mut out);
            match given {
                Ok(written) => {
                    assert_eq!(written, bytes);
                    assert_eq!(out[bytes..], [0xEE; 2]);
                }
                Err(_) => assert!(out.iter().all(|&byte| byte == 0xEE)),
            }
            given.map(|_| ())
        });
    }
}

#[test]
fn checking_a_sector() {
    for format in FORMATS {
        for sector in [1, 4, 5, 8, 9, 12] {
            every_set(&[1, 4, 2, 5, 6], |faults| {
                let line = line_with(format, faults, sector);
                let sector = faults.pick(4, 13, sector);
                sectors::accepted(faults.pick(1, 4, format), &line, sector)
            });
        }
    }
}

#[test]
fn counting_filler_refuses_neither_5_nor_6() {
    every_set(&[1, 4, 2], |faults| {
        let mut line = line_with(2, faults, 7);
        wrong_id(2, &mut line, 7).unwrap();
        wrong_check(&mut line, 7);
        let given = sectors::filler(faults.pick(1, 4, 2), &line, faults.pick(4, 0, 7));
        given.map(|filler| assert_eq!(filler, 0))
    });
}

#[test]
fn reading_sector_data() {
    for (format, sector) in [(1, 1), (2, 4), (3, 5), (1, 8), (2, 9), (3, 12), (3, 1)] {
        let bytes = SECTORS[sector - 1].data_bytes();
        every_set(&[1, 4, 2, 3, 5, 6], |faults| {
            let line = line_with(format, faults, sector);
            let mut out = vec![0xEE; faults.pick(3, bytes - 1, bytes)];
            let format = faults.pick(1, 4, format);
            let given = sectors::data(format, &line, faults.pick(4, 0, sector), &mut out);
            if given.is_err() {
                assert!(out.iter().all(|&byte| byte == 0xEE));
            }
            given.map(|count| assert_eq!(count, bytes))
        });
    }
}

#[test]
fn reading_pixels() {
    for (format, sector) in [(2, 2), (3, 6), (1, 11), (3, 12)] {
        let count = SECTORS[sector - 1].count;
        every_set(&[1, 4, 2, 3, 5, 6], |faults| {
            let line = line_with(format, faults, sector);
            let mut out = vec![0xEEEE; faults.pick(3, count - 1, count)];
            let format = faults.pick(1, 0, format);
            let given = sectors::pixels(format, &line, faults.pick(4, 1, sector), &mut out);
            if given.is_err() {
                assert!(out.iter().all(|&pixel| pixel == 0xEEEE));
            }
            given.map(|pixels| assert_eq!(pixels, count))
        });
    }
}

#[test]
fn joining_pixels() {
    for (format, channel) in [(1, 1), (2, 2), (3, 3), (3, 1)] {
        for sector in [channel + 1, channel + 8] {
            every_set(&[1, 4, 2, 3, 5, 6], |faults| {
                let line = line_with(format, faults, sector);
                let mut out = vec![0xEEEE; faults.pick(3, 2_290, 2_291)];
                let format = faults.pick(1, 4, format);
                let given = sectors::joined(format, &line, faults.pick(4, 4, channel), &mut out);
                if given.is_err() {
                    assert!(out.iter().all(|&pixel| pixel == 0xEEEE));
                }
                given.map(|pixels| assert_eq!(pixels, 2_291))
            });
        }
    }
}

/// "Joined pixels test the upper sector for 5 and 6, then the lower."
#[test]
fn the_upper_sector_is_tested_before_the_lower() {
    for format in FORMATS {
        let mut line = good_line(format);
        wrong_id(format, &mut line, 2).unwrap();
        wrong_check(&mut line, 9);
        let mut out = vec![0xEEEE; 2_291];
        assert_eq!(sectors::joined(format, &line, 1, &mut out), Err(6));

        let mut line = good_line(format);
        wrong_check(&mut line, 2);
        wrong_id(format, &mut line, 9).unwrap();
        assert_eq!(sectors::joined(format, &line, 1, &mut out), Err(5));
        assert_eq!(out, vec![0xEEEE; 2_291]);
    }
}

#[test]
fn asking_of_all_twelve_sectors() {
    for format in FORMATS {
        every_set(&[1, 2], |faults| {
            let line = line_with(format, faults, 1);
            let given = sectors::answers(faults.pick(1, 4, format), &line);
            given.map(|answers| assert_eq!(answers, [0; 12]))
        });
    }
}

/// Each of the twelve answers is that of `accepted`.
#[test]
fn each_of_the_twelve_answers_is_its_sectors_own() {
    let pairs = [(1, 2), (2, 9), (5, 12), (8, 7), (9, 11), (12, 1)];
    for ((damaged, renamed), format) in pairs.into_iter().zip([1, 2, 3, 1, 2, 3]) {
        let mut line = good_line(format);
        wrong_check(&mut line, damaged);
        wrong_id(format, &mut line, renamed).unwrap();
        let mut expected = [0; 12];
        expected[damaged - 1] = 5;
        expected[renamed - 1] = 6;
        assert_eq!(sectors::answers(format, &line), Ok(expected));
        for sector in 1..=12 {
            let own = sectors::accepted(format, &line, sector).err().unwrap_or(0);
            assert_eq!(own, expected[sector - 1]);
        }
    }
}

#[test]
fn filling_the_visible_strip() {
    for format in FORMATS {
        every_set(&[1, 2, 3], |faults| {
            let line = line_with(format, faults, 5);
            let mut strip = vec![0xEE; faults.pick(3, STRIP_BYTES - 1, STRIP_BYTES)];
            let given = sectors::visible(faults.pick(1, 4, format), &line, &mut strip);
            if given.is_err() {
                assert!(strip.iter().all(|&byte| byte == 0xEE));
            }
            given.map(|answers| assert_eq!(answers, [0; 4]))
        });
    }
}

/// "the part of a sector that is not accepted stays as it was, and four
/// answers say which".
#[test]
fn the_parts_of_bad_visible_sectors_stay() {
    for bad in 0..16 {
        let format = 1 + bad % 3;
        let mut line = good_line(format);
        let mut expected = [0; 4];
        for (v, answer) in expected.iter_mut().enumerate() {
            if bad >> v & 1 == 0 {
                continue;
            }
            if v % 2 == 0 {
                wrong_check(&mut line, 5 + v);
                *answer = 5;
            } else {
                wrong_id(format, &mut line, 5 + v).unwrap();
                *answer = 6;
            }
        }
        let mut strip = vec![0xEE; STRIP_BYTES + 1];
        assert_eq!(sectors::visible(format, &line, &mut strip), Ok(expected));
        for v in 0..4 {
            let part = &strip[9_164 * v..9_164 * (v + 1)];
            let sent: Vec<u8> = pattern::pixels(5 + v, 9).iter().map(|&p| p as u8).collect();
            let unchanged = vec![0xEE; 9_164];
            assert!(part == if expected[v] == 0 { sent } else { unchanged });
        }
        assert_eq!(strip[STRIP_BYTES], 0xEE);
    }
}

#[test]
fn writing_sector_data() {
    for sector in [1, 5, 12] {
        let bytes = SECTORS[sector - 1].data_bytes();
        for short_line in [false, true] {
            every_set(&[1, 4, 2], |faults| {
                let too_few = faults.has(2);
                let mut line = vec![0xEE; LINE_BYTES - usize::from(too_few && short_line)];
                let data = vec![1; bytes - usize::from(too_few && !short_line)];
                let number = faults.pick(4, 13, sector);
                let given = sectors::put_data(faults.pick(1, 4, 3), &mut line, number, &data);
                if given.is_err() {
                    assert!(line.iter().all(|&byte| byte == 0xEE));
                }
                given
            });
        }
    }
}

#[test]
fn writing_pixels() {
    for sector in [2, 5, 9, 12] {
        let (count, width) = (SECTORS[sector - 1].count, SECTORS[sector - 1].width);
        for short_line in [false, true] {
            every_set(&[1, 4, 10, 2], |faults| {
                let too_few = faults.has(2);
                let mut line = vec![0xEE; LINE_BYTES - usize::from(too_few && short_line)];
                let highest = (1 << width) - 1;
                let mut pixels = vec![highest; count - usize::from(too_few && !short_line)];
                *pixels.last_mut().unwrap() += faults.pick(10, 1, 0);
                let number = faults.pick(4, 1, sector);
                let given = sectors::put_pixels(faults.pick(1, 4, 3), &mut line, number, &pixels);
                if given.is_err() {
                    assert!(line.iter().all(|&byte| byte == 0xEE));
                }
                given
            });
        }
    }
}

/// "a pixel over its width among those the sector takes"
#[test]
fn pixels_that_the_sector_does_not_take_are_not_looked_at() {
    let mut line = vec![0; LINE_BYTES];
    let mut pixels = vec![63; 9_165];
    pixels[9_164] = 64;
    assert_eq!(sectors::put_pixels(1, &mut line, 5, &pixels), Ok(()));
    pixels[9_163] = 64;
    assert_eq!(sectors::put_pixels(1, &mut line, 5, &pixels), Err(10));
    // 10 stands above 2, so too few pixels with one too wide give 10.
    assert_eq!(sectors::put_pixels(1, &mut line, 5, &[0, 64]), Err(10));
    assert_eq!(sectors::put_pixels(1, &mut line, 5, &[0, 63]), Err(2));
}

#[test]
fn formats_sectors_and_channels_on_both_sides() {
    for number in FORMATS {
        let line = pattern::line(number, 0, 0).unwrap();
        assert_eq!(sectors::accepted(number, &line, 1), Ok(()));
    }
    let line = pattern::line(1, 0, 0).unwrap();
    for number in [0, 4, 5, 255, 256, 257, 259, usize::MAX] {
        assert_eq!(format(number), Err(1));
        assert_eq!(sectors::accepted(number, &line, 1), Err(1));
    }
    for number in 0..20 {
        let served = |first: usize| if (first..=12).contains(&number) { 0 } else { 4 };
        let refusal = |given: Result<(), u8>| given.err().unwrap_or(0);
        let mut bytes = vec![0; 10_000];
        let mut wide = vec![0; 10_000];
        let data = sectors::data(1, &line, number, &mut bytes).map(|_| ());
        let pixels = sectors::pixels(1, &line, number, &mut wide).map(|_| ());
        let filler = sectors::filler(1, &line, number).map(|_| ());
        assert_eq!(refusal(sectors::accepted(1, &line, number)), served(1));
        assert_eq!(refusal(filler), served(1));
        assert_eq!(refusal(data), served(1));
        assert_eq!(refusal(pixels), served(2));
        let mut other = line.clone();
        let zeros = [0; 10_000];
        assert_eq!(
            refusal(sectors::put_data(1, &mut other, number, &zeros)),
            served(1)
        );
        let zeros = [0; 10_000];
        assert_eq!(
            refusal(sectors::put_pixels(1, &mut other, number, &zeros)),
            served(2)
        );
        let joined = sectors::joined(1, &line, number, &mut wide).map(|_| ());
        let channel = if (1..=3).contains(&number) { 0 } else { 4 };
        assert_eq!(refusal(joined), channel);
    }
}

#[test]
fn numbers_refuse_in_the_order_of_the_table() {
    every_set(&[10, 2], |faults| {
        let n = faults.pick(10, 5, 4);
        read_i(&vec![0xFF; faults.pick(2, 3, 4)], n).map(|_| ())
    });
    every_set(&[10, 2, 7], |faults| {
        let mut bytes = vec![0x99; faults.pick(2, 5, 6)];
        bytes[0] = faults.pick(7, 0xA9, 0x99);
        read_bcd(&bytes, faults.pick(10, 7, 6)).map(|_| ())
    });
    every_set(&[10, 2], |faults| {
        let bytes = vec![0; faults.pick(2, 5, 6)];
        read_r(&bytes, 6, faults.pick(10, 16, 15)).map(|_| ())
    });
    for (n, limit) in [(4, 1 << 31), (6, 1 << 47)] {
        every_set(&[10, 11, 3], |faults| {
            let mut out = vec![0xEE; faults.pick(3, n - 1, n + 1)];
            let magnitude = faults.pick(11, limit, limit - 1);
            let m = faults.pick(10, 16, 15);
            let given = write_r(n, m, true, magnitude, &mut out);
            match given {
                Ok(_) => assert_eq!(out[..n], vec![0xFF; n]),
                Err(_) => assert!(out.iter().all(|&byte| byte == 0xEE)),
            }
            assert_eq!(out.last(), Some(&0xEE));
            given.map(|written| assert_eq!(written, n))
        });
    }
}

#[test]
fn number_forms_on_both_sides() {
    for n in 0..9 {
        let bytes = [0; 8];
        let mut out = [0; 8];
        let outside = |served: bool| if served { 0 } else { 10 };
        let i = read_i(&bytes, n).err().unwrap_or(0);
        let bcd = read_bcd(&bytes, n).err().unwrap_or(0);
        let r = read_r(&bytes, n, 0).err().unwrap_or(0);
        let w = write_r(n, 0, false, 0, &mut out).err().unwrap_or(0);
        assert_eq!(i, outside((1..=4).contains(&n)));
        assert_eq!(bcd, outside((1..=6).contains(&n)));
        assert_eq!(r, outside(n == 4 || n == 6));
        assert_eq!(w, r);
    }
    for m in 0..20 {
        let expected = if m <= 15 { 0 } else { 10 };
        assert_eq!(read_r(&[0; 4], 4, m).err().unwrap_or(0), expected);
        let given = write_r(6, m, false, 0, &mut [0; 6]);
        assert_eq!(given.err().unwrap_or(0), expected);
    }
    assert_eq!(write_r(4, 0, false, u64::MAX, &mut [0; 4]), Err(11));
    assert_eq!(write_r(5, 0, false, u64::MAX, &mut []), Err(10));
}

/// Every digit of every byte is looked at, but no byte past the n of the form.
#[test]
fn a_digit_over_9_is_refused_wherever_it_stands() {
    for n in 1..=6 {
        for place in 0..2 * n {
            let mut bytes = vec![0x99; n];
            bytes[place / 2] = if place % 2 == 0 { 0xA0 } else { 0x0F };
            assert_eq!(read_bcd(&bytes, n), Err(7));
        }
        let mut bytes = vec![0x99; n];
        bytes.push(0xFF);
        assert_eq!(read_bcd(&bytes, n), Ok(10u64.pow(2 * n as u32) - 1));
    }
}

/// The refusals of a documentation call: `bad` is where a wrong byte stands
/// that gives 7, if it can give 7 at all.
fn document_call<T>(bad: Option<(usize, u8)>, call: impl Fn(usize, &[u8]) -> Result<T, u8>) {
    let mut can_have = vec![1, 2, 5, 6];
    can_have.extend(bad.map(|_| 7));
    for format in [1, 3] {
        every_set(&can_have, |faults| {
            let mut line = good_line(format);
            if let (true, Some((place, byte))) = (faults.has(7), bad) {
                doc_with(format, &mut line, place, &[byte]);
            }
            spoil(format, &mut line, faults, 1);
            call(faults.pick(1, 4, format), &line).map(|_| ())
        });
    }
}

#[test]
fn documentation_fields() {
    document_call(None, document::scan_mode);
    document_call(None, document::scanner_select);
    document_call(Some((7, 0xA0)), document::set_line);
    document_call(Some((10, 0x0A)), document::reset_line);
    document_call(Some((12, 0x0A)), document::scan_count);
    document_call(Some((8, 0x0A)), document::line_position);
    document_call(Some((11, 0x0A)), document::line_position);
    for place in 7..=12 {
        document_call(Some((place, 0xA0)), document::line_numbers);
    }
    for (place, byte) in [
        (20, 0xA0),
        (21, 0x0A),
        (22, 0x00),
        (22, 0x13),
        (23, 0x00),
        (23, 0x32),
        (24, 0x24),
        (25, 0x60),
        (26, 0x60),
        (27, 0xA0),
        (22, 0x0A),
        (27, 0x0F),
    ] {
        document_call(Some((place, byte)), document::date);
    }
    for (place, byte) in [(193, 1), (194, 25), (195, 1), (196, 8)] {
        document_call(Some((place, byte)), document::sub_commutation);
    }
}

/// "Line numbers and date are separate calls; 7 looks at a call's own bytes
/// only."
#[test]
fn a_call_does_not_look_at_the_bytes_of_another() {
    let bad_at = |place: usize| {
        let mut line = good_line(1);
        doc_with(1, &mut line, place, &[0xFF]);
        line
    };
    for place in 3..=200 {
        let line = bad_at(place);
        let seven = |own: bool| if own { 7 } else { 0 };
        let set = document::set_line(1, &line).err().unwrap_or(0);
        let reset = document::reset_line(1, &line).err().unwrap_or(0);
        let count = document::scan_count(1, &line).err().unwrap_or(0);
        let position = document::line_position(1, &line).err().unwrap_or(0);
        let numbers = document::line_numbers(1, &line).err().unwrap_or(0);
        let date = document::date(1, &line).err().unwrap_or(0);
        let sub = document::sub_commutation(1, &line).err().unwrap_or(0);
        assert_eq!(set, seven((7..=8).contains(&place)));
        assert_eq!(reset, seven((9..=10).contains(&place)));
        assert_eq!(count, seven((11..=12).contains(&place)));
        assert_eq!(position, seven([7, 8, 11, 12].contains(&place)));
        assert_eq!(numbers, seven((7..=12).contains(&place)));
        assert_eq!(date, seven((20..=27).contains(&place)));
        assert_eq!(sub, seven((193..=196).contains(&place)));
    }
}

#[test]
fn date_parts_on_both_sides() {
    for (place, low, high) in [
        (22, 1, 12),
        (23, 1, 31),
        (24, 0, 23),
        (25, 0, 59),
        (26, 0, 59),
        (27, 0, 99),
    ] {
        for value in 0..100 {
            let mut line = good_line(1);
            doc_with(1, &mut line, place, &pattern::bcd(value, 1));
            let served = (low..=high).contains(&value);
            let given = document::date(1, &line);
            assert_eq!(given.err(), if served { None } else { Some(7) });
        }
    }
}

#[test]
fn sub_commutation_on_both_sides() {
    for (place, highest) in [(193, 0), (194, 24), (195, 0), (196, 7)] {
        for byte in 0..=255 {
            let mut line = good_line(1);
            doc_with(1, &mut line, place, &[byte]);
            let given = document::sub_commutation(1, &line);
            assert_eq!(given.err(), if byte <= highest { None } else { Some(7) });
        }
    }
}

#[test]
fn fields_by_place() {
    for place_is_wrong in [false, true] {
        // 2 is either a short line or a place whose bytes run out.
        let place_of = |faults: &Faults, n: usize| match faults.has(2) && place_is_wrong {
            true => 2_293 - n + 2,
            false => 2_293 - n + 1,
        };
        let line_of = |faults: &Faults| {
            let mut line = good_line(3);
            if faults.has(7) {
                doc_with(3, &mut line, 2_293, &[0x0A]);
            }
            let left: Vec<u8> = faults.0.clone();
            let left = left.into_iter().filter(|&f| f != 2 || !place_is_wrong);
            spoil(3, &mut line, &Faults(left.collect()), 1);
            line
        };
        every_set(&[1, 10, 2, 5, 6], |faults| {
            let (line, place) = (line_of(faults), place_of(faults, 4));
            let n = faults.pick(10, 5, 4);
            document::field_i(faults.pick(1, 0, 3), &line, place, n).map(|_| ())
        });
        every_set(&[1, 10, 2, 5, 6, 7], |faults| {
            let (line, place) = (line_of(faults), place_of(faults, 6));
            let n = faults.pick(10, 0, 6);
            document::field_bcd(faults.pick(1, 0, 3), &line, place, n).map(|_| ())
        });
        every_set(&[1, 10, 2, 5, 6], |faults| {
            let (line, place) = (line_of(faults), place_of(faults, 6));
            let m = faults.pick(10, 16, 0);
            document::field_r(faults.pick(1, 0, 3), &line, place, 6, m).map(|_| ())
        });
    }
}

#[test]
fn there_is_no_place_0_and_none_after_2293() {
    let line = pattern::line(1, 0, 0).unwrap();
    assert_eq!(document::field_i(1, &line, 0, 1), Err(2));
    assert_eq!(document::field_i(1, &line, 1, 2), Ok(0));
    assert!(document::field_i(1, &line, 2_293, 1).is_ok());
    assert_eq!(document::field_i(1, &line, 2_293, 2), Err(2));
    assert_eq!(document::field_i(1, &line, 2_294, 1), Err(2));
    assert_eq!(document::field_i(1, &line, usize::MAX, 4), Err(2));
}

/// The good line's numbers are 2101 and 731. A number by which the block does
/// not go is always another one, and no fault.
#[test]
fn adding_a_segment() {
    for number in 1..=5 {
        let size = BLOCKS[number - 1].size;
        let mut can_have = vec![1, 12, 4, 2, 5, 6, 7, 14, 8];
        if number < MANAM {
            can_have.retain(|&fault| fault != 14);
        }
        for (short_line, format) in [(false, 1), (true, 3)] {
            every_set(&can_have, |faults| {
                let mut line = good_line(format);
                if faults.has(7) {
                    doc_with(format, &mut line, 195, &[1]);
                }
                let left = faults.0.iter().copied();
                let left = left.filter(|&fault| fault != 2 || short_line);
                spoil(format, &mut line, &Faults(left.collect()), 1);

                let short_block = faults.has(2) && !short_line;
                let mut whole = pattern::block(number, false);
                whole.truncate(size - usize::from(short_block));
                // Line 9 sends segment 1, which is stored already; with the
                // fault 8 its last byte differs.
                let last = 2 * BLOCKS[number - 1].segment_bytes() - 1;
                whole[last] ^= faults.pick(8, 1, 0);

                let remembered = |own: bool, right: u16| match own {
                    true => faults.pick(14, right + 1, right),
                    false => 9_999,
                };
                let before = Assembly {
                    marks: faults.pick(12, 1 << 25, 0) | 2,
                    calibration: remembered(number > MANAM, 2_101),
                    manam: remembered(number == MANAM, 731),
                };
                let mut assembly = before;
                let mut buffer = whole.clone();
                let block = faults.pick(4, 6, number);
                let format = faults.pick(1, 4, format);
                let given = blocks::add_segment(format, &line, block, &mut assembly, &mut buffer);
                assert_eq!(assembly, before);
                assert!(buffer == whole);
                given.map(|added| {
                    assert_eq!((added.segment, added.first_copy), (1, false));
                })
            });
        }
    }
}

#[test]
fn a_refused_first_copy_is_not_stored() {
    let mut line = good_line(1);
    wrong_check(&mut line, 1);
    let mut assembly = Assembly::default();
    let mut buffer = vec![0xEE; 2_500];
    assert_eq!(
        blocks::add_segment(1, &line, 1, &mut assembly, &mut buffer),
        Err(5)
    );
    assert_eq!(assembly, Assembly::default());
    assert_eq!(buffer, vec![0xEE; 2_500]);
}

#[test]
fn block_numbers_on_both_sides() {
    for (format, last) in [(1, 5), (2, 4), (3, 5)] {
        let line = pattern::line(format, 0, 0).unwrap();
        for number in 0..8 {
            let mut buffer = vec![0; 25_600];
            let mut assembly = Assembly::default();
            let given = blocks::add_segment(format, &line, number, &mut assembly, &mut buffer);
            let served = (1..=last).contains(&number);
            assert_eq!(given.err(), if served { None } else { Some(4) });
        }
    }
}

/// A block with the fault 2.
fn full(number: usize, faults: &Faults) -> Vec<u8> {
    let mut buffer = pattern::block(number, false);
    buffer.truncate(buffer.len() - faults.pick(2, 1, 0));
    buffer
}

/// A record with these marks. No entry's refusals look at its numbers.
fn marked(marks: u32) -> Assembly {
    Assembly {
        marks,
        calibration: 2_101,
        manam: 731,
    }
}

/// The record of a finished block with the faults 9 and 12.
fn assembly(faults: &Faults) -> Assembly {
    let all = faults.pick(9, ALL_MARKS ^ 1 << 24, ALL_MARKS);
    marked(all | faults.pick(12, 1 << 31, 0))
}

#[test]
fn entries() {
    every_set(&[1, 12, 10, 2, 9], |faults| {
        let format = faults.pick(1, 4, 2);
        let row = faults.pick(10, 25, 24);
        blocks::mapping(format, assembly(faults), &full(1, faults), row, 24).map(|_| ())
    });
    every_set(&[1, 12, 10, 2, 9], |faults| {
        let format = faults.pick(1, 4, 3);
        let column = faults.pick(10, 25, 24);
        blocks::mapping(format, assembly(faults), &full(1, faults), 24, column).map(|_| ())
    });
    every_set(&[1, 12, 2, 9], |faults| {
        let format = faults.pick(1, 4, 3);
        blocks::orbital_elements(format, assembly(faults), &full(2, faults)).map(|_| ())
    });
    // 4 is either a number that is not served or calibration-2 in format 2.
    for (by_format, right) in [(false, 1), (false, 3), (true, 1), (true, 3)] {
        every_set(&[1, 12, 4, 10, 2, 9], |faults| {
            let wrong_format = faults.has(4) && by_format;
            let format = faults.pick(1, 4, if wrong_format { 2 } else { right });
            let number = if faults.has(4) && (!by_format || faults.has(1)) {
                5
            } else {
                4
            };
            let (assembly, block) = (assembly(faults), full(5, faults));
            let level = faults.pick(10, 64, 63);
            let vis = blocks::albedo(format, assembly, &block, number, level);
            let level = faults.pick(10, 1_024, 1_023);
            let ir = blocks::temperature(format, assembly, &block, number, level);
            assert_eq!(vis.err(), ir.err());
            ir.map(|_| ())
        });
    }
}

/// The revision of a finished block: 4 for every number but 3, 4 and 5, so for
/// mapping and orbit too, and for calibration-2 in format 2.
#[test]
fn asking_for_a_revision() {
    for format in FORMATS {
        for number in 3..=4 + usize::from(format != 2) {
            for not_served in [0, 1, 2, 6, 255, 256, 259, usize::MAX, 5] {
                if format != 2 && not_served == 5 {
                    continue;
                }
                every_set(&[1, 12, 4, 2, 9], |faults| {
                    let block = full(number, faults);
                    let asked = faults.pick(4, not_served, number);
                    let given = blocks::revision(
                        faults.pick(1, 4, format),
                        assembly(faults),
                        asked,
                        &block,
                    );
                    given.map(|held| assert_eq!(held, if number == MANAM { 731 } else { 2_101 }))
                });
            }
        }
    }
}

#[test]
fn an_entry_needs_all_25_segments() {
    let block = pattern::block(5, false);
    for segment in 0..25 {
        let assembly = marked(ALL_MARKS ^ 1 << segment);
        assert_eq!(blocks::albedo(1, assembly, &block, 1, 0), Err(9));
        assert_eq!(blocks::temperature(1, assembly, &block, 1, 0), Err(9));
        assert_eq!(blocks::mapping(1, assembly, &block, 0, 0), Err(9));
        assert_eq!(blocks::orbital_elements(1, assembly, &block), Err(9));
        for number in 3..=5 {
            assert_eq!(blocks::revision(1, assembly, number, &block), Err(9));
        }
    }
    for segment in 25..32 {
        let assembly = marked(ALL_MARKS | 1 << segment);
        assert_eq!(blocks::albedo(1, assembly, &block, 1, 0), Err(12));
        assert_eq!(blocks::revision(1, assembly, 5, &block), Err(12));
    }
    let assembly = marked(ALL_MARKS);
    for number in [0, 5] {
        assert_eq!(blocks::albedo(1, assembly, &block, number, 0), Err(4));
        assert_eq!(blocks::temperature(1, assembly, &block, number, 0), Err(4));
    }
}

/// Both sides of every clause of "state record impossible", and nothing else.
#[test]
fn impossible_records() {
    let between = State::default();
    let inside = State {
        in_line: true,
        position: 5,
        waiting_count: 5,
        ..State::default()
    };
    let possible = [
        between,
        inside,
        State {
            in_line: true,
            position: 354_847,
            register: 0x7FFF,
            waiting: 0x7F,
            waiting_count: 7,
            ..between
        },
        State {
            position: 354_847,
            ..between
        },
        State {
            search: u64::MAX >> 1,
            search_count: 63,
            unread: 0x7F,
            unread_count: 7,
            register: 0x7FFF,
            ..between
        },
        State {
            search: 1,
            search_count: 1,
            ..inside
        },
        State {
            register: 0,
            ..inside
        },
        State {
            waiting: 0x1F,
            ..inside
        },
    ];
    for state in possible {
        assert!(!impossible(&state), "{state:?}");
    }

    let not_possible = [
        State {
            position: 354_848,
            ..between
        },
        State {
            in_line: true,
            position: 354_848,
            ..between
        },
        State {
            search_count: 64,
            ..between
        },
        State {
            search_count: 64,
            ..inside
        },
        State {
            register: 0x8000,
            ..between
        },
        State {
            register: 0x8000,
            ..inside
        },
        State {
            search: 1,
            ..between
        },
        State {
            search: 1 << 62,
            search_count: 62,
            ..between
        },
        State {
            search: 2,
            search_count: 1,
            ..inside
        },
        State {
            unread: 8,
            unread_count: 3,
            ..between
        },
        State {
            unread: 1,
            ..inside
        },
        State {
            waiting: 1,
            ..between
        },
        State {
            waiting: 0x20,
            ..inside
        },
        State {
            unread_count: 8,
            ..between
        },
        State {
            waiting_count: 4,
            ..inside
        },
        State {
            waiting_count: 6,
            ..inside
        },
        State {
            waiting_count: 13,
            ..inside
        },
        State {
            waiting_count: 1,
            ..between
        },
        State {
            position: 1,
            waiting_count: 1,
            ..between
        },
        State {
            unread_count: 1,
            ..inside
        },
        State {
            search_count: 255,
            ..between
        },
        State {
            unread_count: 255,
            ..between
        },
        State {
            waiting_count: 255,
            ..inside
        },
    ];
    for state in not_possible {
        assert!(impossible(&state), "{state:?}");
        let mut now = state;
        let mut buffer = vec![0xEE; LINE_BYTES];
        assert_eq!(read(1, 0, &mut now, &[1; 50], &mut buffer), Err(12));
        assert_eq!(read(1, 6, &mut now, &[], &mut buffer), Err(12));
        assert_eq!(read(1, 7, &mut now, &[], &mut buffer), Err(13));
        assert_eq!(read(4, 7, &mut now, &[], &mut buffer), Err(1));
        assert_eq!(read(2, 0, &mut now, &[], &mut []), Err(12));
        assert_eq!(now, state);
        assert_eq!(buffer, vec![0xEE; LINE_BYTES]);
    }
}
