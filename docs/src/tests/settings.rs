//! Document 02, T-01: "The reader takes a setting 0 to 6: a place counts as the
//! tail when at most that many of the 64 bits differ. The first such place
//! wins; scrambling still goes on from fifteen ones."

use second::bits;
use second::damage::{self, Random};
use second::format::{INFORMATION_BITS, LINE_BYTES};
use second::ice::Received;
use second::lines::{after_first_tail, lines, Line};
use second::pattern::{self, wrong_places};
use second::reader::{read, Recording, State};
use second::scramble::{tail, turn};

/// The tail with the bits at these places turned over.
fn wrong(places: &[usize]) -> Vec<u8> {
    let mut window = tail().to_vec();
    for &place in places {
        window[place] ^= 1;
    }
    window
}

/// A line of zeros as it goes out, and zeros up to whole bytes and beyond.
fn line_behind(mut before: Vec<u8>) -> Vec<u8> {
    before.extend(turn(&vec![0; INFORMATION_BITS]));
    let filling = 16 - before.len() % 8;
    before.extend(vec![0; filling]);
    before
}

/// The lines at a setting, by the definition, and the same ones by the reader
/// in whole and in single bytes.
fn found(setting: usize, all: &[u8]) -> Vec<Line> {
    let defined = lines(setting, all);
    let bytes = bits::to_bytes(all);
    for longest in [1, bytes.len()] {
        let mut found = Vec::new();
        let mut recording = Recording::new(1, setting);
        for piece in bytes.chunks(longest) {
            let each = |line: &[u8], end| {
                found.push(Line {
                    bytes: line.to_vec(),
                    end,
                })
            };
            recording.feed(piece, each).unwrap();
        }
        assert!(found == defined, "setting {setting}");
    }
    defined
}

/// Where the wrong bits of a tail may stand: all in front, all behind (in the
/// fifteen ones, too), or anywhere.
fn some_places(count: usize, random: &mut Random) -> [Vec<usize>; 3] {
    let step = 1 + 2 * random.under(32);
    let first = random.under(64);
    [
        (0..count).collect(),
        (64 - count..64).collect(),
        (0..count).map(|j| (first + step * j) % 64).collect(),
    ]
}

/// Found at the number of its wrong bits and not one below it, and the line is
/// made plain from fifteen ones, whatever the last fifteen bits were.
#[test]
fn a_tail_counts_up_to_the_setting() {
    let mut random = Random::new(20);
    for setting in 0..=6 {
        for places in some_places(setting, &mut random) {
            let recording = line_behind(wrong(&places));
            let lines = found(setting, &recording);
            assert_eq!(lines.len(), 1, "{places:?}");
            assert_eq!(lines[0].end, 64 + INFORMATION_BITS);
            assert!(lines[0].bytes == vec![0; LINE_BYTES]);
        }
        for places in some_places(setting + 1, &mut random) {
            let recording = line_behind(wrong(&places));
            assert!(found(setting, &recording).is_empty(), "{places:?}");
        }
    }
}

/// Each of the 64 bits counts, alone and beside six others.
#[test]
fn every_bit_of_the_tail_counts() {
    for place in 0..64 {
        let window = wrong(&[place]);
        assert_eq!(after_first_tail(0, &window, 0), None);
        assert_eq!(after_first_tail(1, &window, 0), Some(64));
        let places: Vec<usize> = (0..7).map(|j| (place + 9 * j) % 64).collect();
        assert_eq!(after_first_tail(6, &wrong(&places), 0), None);
        assert_eq!(after_first_tail(6, &wrong(&places[1..]), 0), Some(64));
    }
}

/// "The first such place wins", not the nearest.
#[test]
fn a_later_exact_place_loses() {
    for setting in 1..=6 {
        let places: Vec<usize> = (0..setting).map(|j| 10 * j + 3).collect();
        let mut recording = vec![0; 5];
        recording.extend(wrong(&places));
        recording.extend(vec![0; 100]);
        recording.extend(tail());
        let exact = recording.len();
        let recording = line_behind(recording);
        let end = |setting| found(setting, &recording)[0].end;
        assert_eq!(end(setting), 5 + 64 + INFORMATION_BITS);
        assert_eq!(end(setting - 1), exact + INFORMATION_BITS);
        assert_eq!(end(0), exact + INFORMATION_BITS);
    }
}

/// "64 bits, all since that start": where up to six of them are missing, the
/// others do not count as the tail, at the start of a recording and behind a
/// line. The tail begins with 0, as what was never received might.
#[test]
fn fewer_than_64_bits_are_no_tail() {
    assert_eq!(tail()[0], 0);
    for missing in 1..=6 {
        let recording = line_behind(tail()[missing..].to_vec());
        assert!(found(6, &recording).is_empty());

        let mut recording = tail().to_vec();
        recording.extend(turn(&vec![0; INFORMATION_BITS]));
        recording.extend(&tail()[missing..]);
        assert_eq!(found(6, &line_behind(recording)).len(), 1);
    }
}

#[test]
fn the_register_after_a_wrong_tail_is_fifteen_ones() {
    for places in [vec![63], vec![49, 63], (58..64).collect()] {
        let mut state = State::default();
        let mut buffer = vec![0xEE; LINE_BYTES];
        let piece = bits::to_bytes(&wrong(&places));
        read(1, places.len(), &mut state, &piece, &mut buffer).unwrap();
        let expected = State {
            in_line: true,
            register: 0x7FFF,
            ..State::default()
        };
        assert_eq!(state, expected);
    }
}

/// "Setting 0 is document 01 as it was": 64 bits that equal the tail.
#[test]
fn setting_0_asks_for_the_tail_itself() {
    let mut random = Random::new(21);
    for kind in 0..damage::KINDS {
        let (name, recording) = damage::make(kind, 1, &mut random);
        let bits = bits::from_bytes(&recording);
        let equal = bits.windows(64).position(|window| window == tail());
        let after = equal.map(|place| place + 64);
        assert_eq!(after_first_tail(0, &bits, 0), after, "{name}");
    }
}

/// "the same one in all calls on a recording" is the caller's part. The record
/// does not hold it: what was remembered is searched at the setting of the call
/// in which a window ends.
#[test]
fn a_call_with_another_setting_is_served() {
    let bytes = bits::to_bytes(&wrong(&[5, 40]));
    for (first, last, in_line) in [(0, 2, true), (6, 1, false), (1, 1, false)] {
        let mut state = State::default();
        let mut buffer = vec![0; LINE_BYTES];
        read(1, first, &mut state, &bytes[..7], &mut buffer).unwrap();
        assert_eq!(state.search_count, 56);
        read(1, last, &mut state, &bytes[7..], &mut buffer).unwrap();
        assert_eq!(state.in_line, in_line, "{first} then {last}");
    }
    // a place that did not count is not looked at again
    let mut state = State::default();
    let mut buffer = vec![0; LINE_BYTES];
    read(1, 1, &mut state, &bytes, &mut buffer).unwrap();
    read(1, 2, &mut state, &[0], &mut buffer).unwrap();
    assert!(!state.in_line);
}

/// Up to four wrong bits in any 64 neighbours of SYNC and dummy: an earlier
/// window was 9 places from the tail and is still at least 5, so the lines are
/// those that were sent.
#[test]
fn an_evenly_iced_recording_gives_the_lines_that_were_sent() {
    let mut random = Random::new(22);
    for format in [1, 2, 3] {
        for setting in 0..=4 {
            let mut received = Received::new(format, 3);
            received.wrong_in_every_64(setting, &mut random);
            let lines = lines(setting, &bits::from_bytes(&received.recording));
            assert_eq!(lines.len(), 3, "format {format}, {setting}");
            for (k, line) in (0..).zip(&lines) {
                assert!(line.bytes == pattern::line(format, k, 0).unwrap());
            }
        }
    }
}

/// An earlier place that is near enough wins, and the line begins there.
#[test]
fn an_earlier_place_of_a_written_line_may_win() {
    let mut random = Random::new(23);
    for format in [1, 2, 3] {
        for setting in 0..=6 {
            let mut received = Received::new(format, 1);
            let place = received.earlier(0, setting, &mut random);
            let own = received.between()[0].end;
            let bits = bits::from_bytes(&received.recording);
            assert_eq!(after_first_tail(setting, &bits, 0), Some(place + 64));
            if setting > 0 {
                assert_eq!(after_first_tail(setting - 1, &bits, 0), Some(own));
            }
        }
    }
}

/// The places of the wrong bits of `second signal N FORMAT W`, and nothing else
/// is wrong.
#[test]
fn the_wrong_bits_of_the_signal() {
    assert_eq!(wrong_places(0, 4), [0, 23, 46, 5]);
    assert_eq!(wrong_places(1, 3), [7, 30, 53]);
    assert_eq!(wrong_places(9, 2), [63, 22]);
    let mut all = wrong_places(5, 64);
    all.sort();
    assert!(all.into_iter().eq(0..64));
    for (format, sync) in [(1, 10_000), (2, 20_000), (3, 10_000)] {
        for (k, w) in [(0, 0), (0, 1), (3, 7), (9, 64)] {
            let line = pattern::line(format, k, 0).unwrap();
            let mut sent = pattern::on_the_wire(format, &line).unwrap();
            for place in wrong_places(k, w) {
                bits::turn_over(&mut sent, sync - 64 + place);
            }
            assert!(pattern::signal(format, k, w, 0).unwrap() == sent);
        }
    }
}
