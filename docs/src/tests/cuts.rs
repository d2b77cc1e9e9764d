//! The reader against the plain definition of the lines: any cut of any
//! recording at any setting, and any state record that the table does not call
//! impossible.

use second::bits;
use second::damage::{self, Random};
use second::format::{INFORMATION_BITS, LINE_BYTES};
use second::ice::Received;
use second::lines::{after_first_tail, lines, Line};
use second::reader::{impossible, read, Answer, Recording, State};
use second::scramble::{after_sync, complement, tail, turn};

fn read_in_pieces(format: usize, setting: usize, pieces: &[&[u8]]) -> Vec<Line> {
    let mut found = Vec::new();
    let mut recording = Recording::new(format, setting);
    for piece in pieces {
        recording
            .feed(piece, |line, end| {
                found.push(Line {
                    bytes: line.to_vec(),
                    end,
                })
            })
            .unwrap();
    }
    found
}

/// Cuts a recording in many ways: its lines are the same in all of them.
fn every_cut(format: usize, setting: usize, recording: &[u8], random: &mut Random, name: &str) {
    let expected = lines(setting, &bits::from_bytes(recording));
    for longest in [3, 200, 30_000, 120_000, recording.len()] {
        let pieces = damage::cut(recording, longest, random);
        let found = read_in_pieces(format, setting, &pieces);
        assert!(found == expected, "{name}, {setting}, up to {longest}");
    }
    let found = read_in_pieces(format, setting, &[recording]);
    assert!(found == expected, "{name}, {setting}");
}

#[test]
fn every_cut_gives_the_lines_of_the_uncut_recording() {
    let mut random = Random::new(2);
    for format in [1, 2, 3] {
        for kind in 0..damage::KINDS {
            let (name, recording) = damage::make(kind, format, &mut random);
            // half of them at setting 0
            let setting = random.under(2) * (1 + random.under(6));
            every_cut(format, setting, &recording, &mut random, name);
        }
    }
}

/// The tails have from none to nine wrong bits, and now and then a place before
/// the true one is near to the tail, too.
#[test]
fn every_cut_of_an_iced_recording_gives_its_lines() {
    let mut random = Random::new(9);
    for format in [1, 2, 3] {
        for setting in 0..=6 {
            let mut received = Received::new(format, 2);
            for k in 0..2 {
                received.wrong_in_tail(k, random.under(10), &mut random);
            }
            if random.under(2) == 0 {
                received.earlier(1, random.under(10), &mut random);
            }
            received.wrong_anywhere(20, &mut random);
            every_cut(format, setting, &received.recording, &mut random, "iced");
        }
    }
}

#[test]
fn the_kinds_of_recording_hold_what_they_say() {
    let count = |recording: &[u8]| lines(0, &bits::from_bytes(recording)).len();
    let mut random = Random::new(3);
    for format in [1, 2, 3] {
        assert_eq!(count(&damage::good(format, 3)), 3);
        // Cut inside the last line's information; a cut in HiRID's dummy
        // alone would leave the line whole.
        let mut cut = damage::good(format, 2);
        cut.truncate(cut.len() - 21_152 / 8 - 1);
        assert_eq!(count(&cut), 1);
        assert_eq!(count(&damage::noise_between(format, 2, &mut random)), 2);
        assert_eq!(count(&damage::tail_in_noise(format, &mut random)), 2);
        assert_eq!(count(&damage::tail_in_line(format, &mut random)), 3);
        let noise = random.bytes(20_000);
        assert_eq!(count(&noise), 0);
    }
    for by in 0..8 {
        let shifted = damage::shifted(&damage::good(1, 2), by, &mut random);
        let found = lines(0, &bits::from_bytes(&shifted));
        assert_eq!(found.len(), 2);
        assert_eq!(found[0].end, by + 8 * 45_606);
        assert_eq!(found[1].end, by + 16 * 45_606);
    }
}

#[test]
fn single_bytes_give_the_same_lines() {
    let mut random = Random::new(4);
    let recording = damage::shifted(&damage::good(1, 2), 5, &mut random);
    let pieces: Vec<&[u8]> = recording.chunks(1).collect();
    let found = read_in_pieces(1, 0, &pieces);
    assert_eq!(found.len(), 2);
    assert!(found == lines(0, &bits::from_bytes(&recording)));
}

/// "Nothing else is sought inside a line": a tail sent as line bits, right
/// after the true one and at the very end of the line.
#[test]
fn a_tail_inside_a_line_is_line_bits() {
    for place in [0, 1, 777, INFORMATION_BITS - 64] {
        let mut recording = tail().to_vec();
        recording.extend(vec![0; INFORMATION_BITS]);
        recording[64 + place..128 + place].copy_from_slice(tail());
        recording.extend(vec![0; 8 * 40_000]);
        for setting in [0, 6] {
            let found = lines(setting, &recording);
            assert_eq!(found.len(), 1);
            assert_eq!(found[0].end, 64 + INFORMATION_BITS);
            let bytes = bits::to_bytes(&recording);
            assert!(read_in_pieces(1, setting, &[&bytes]) == found);
        }
    }
}

/// "64 bits, all since that start": the last bits of a line and the first
/// behind it do not make a tail, also where the setting lets as many differ as
/// lie in the line.
#[test]
fn a_tail_across_the_end_of_a_line_is_not_one() {
    for inside in [1, 6, 30, 63] {
        let mut recording = tail().to_vec();
        recording.extend(vec![0; INFORMATION_BITS - inside]);
        recording.extend(tail());
        recording.extend(vec![0; INFORMATION_BITS + 8]);
        let filling = (8 - recording.len() % 8) % 8;
        recording.extend(vec![0; filling]);
        for setting in [0, 6] {
            let found = lines(setting, &recording);
            assert_eq!(found.len(), 1);
            for longest in [1, 8, 50_000, 200_000] {
                let bytes = bits::to_bytes(&recording);
                let pieces: Vec<&[u8]> = bytes.chunks(longest).collect();
                assert!(read_in_pieces(1, setting, &pieces) == found);
            }
        }
    }
}

/// What a call has to give, said over whole lists of bits.
fn expected(
    setting: usize,
    state: &State,
    piece: &[u8],
    buffer: &[u8],
) -> (Answer, State, Vec<u8>) {
    let unchanged = Answer {
        taken: 0,
        complete: false,
    };
    if piece.is_empty() {
        return (unchanged, *state, buffer.to_vec());
    }
    let mut all = Vec::new();
    let piece_starts;
    let line_starts;
    let mut position = 0;
    let mut scrambling = vec![1; 15];
    let mut plain = Vec::new();
    if state.in_line {
        piece_starts = 0;
        line_starts = Some(0);
        position = state.position;
        scrambling = bits::of_number(state.register.into(), 15);
        plain = bits::of_number(state.waiting.into(), state.waiting_count.into());
        all.extend(bits::from_bytes(piece));
    } else {
        all.extend(bits::of_number(state.search, state.search_count.into()));
        all.extend(bits::of_number(
            state.unread.into(),
            state.unread_count.into(),
        ));
        piece_starts = all.len();
        all.extend(bits::from_bytes(piece));
        line_starts = after_first_tail(setting, &all, 0);
    }

    let Some(line_starts) = line_starts else {
        let remembered = &all[all.len() - all.len().min(63)..];
        let after = State {
            search: bits::number(remembered),
            search_count: remembered.len() as u8,
            ..State::default()
        };
        let answer = Answer {
            taken: piece.len(),
            complete: false,
        };
        return (answer, after, buffer.to_vec());
    };

    let line_bits = (all.len() - line_starts).min(INFORMATION_BITS - position);
    let first_byte = position / 8;
    for i in 0..line_bits {
        let next = scrambling[i] ^ scrambling[i + 1];
        scrambling.push(next);
        plain.push(all[line_starts + i] ^ next ^ complement(position + i));
    }
    let whole_bytes = plain.len() / 8;
    let mut buffer = buffer.to_vec();
    buffer[first_byte..first_byte + whole_bytes]
        .copy_from_slice(&bits::to_bytes(&plain[..8 * whole_bytes]));

    if position + line_bits < INFORMATION_BITS {
        let waiting = &plain[8 * whole_bytes..];
        let after = State {
            in_line: true,
            position: position + line_bits,
            register: bits::number(&scrambling[scrambling.len() - 15..]) as u16,
            waiting: bits::number(waiting) as u8,
            waiting_count: waiting.len() as u8,
            ..State::default()
        };
        let answer = Answer {
            taken: piece.len(),
            complete: false,
        };
        return (answer, after, buffer);
    }
    let end = line_starts + line_bits;
    let taken = (end - piece_starts).div_ceil(8);
    let rest = &all[end..piece_starts + 8 * taken];
    let after = State {
        unread: bits::number(rest) as u8,
        unread_count: rest.len() as u8,
        ..State::default()
    };
    let answer = Answer {
        taken,
        complete: true,
    };
    (answer, after, buffer)
}

fn check(setting: usize, state: State, piece: &[u8]) -> (Answer, State) {
    assert!(!impossible(&state));
    let before = vec![0xEE; LINE_BYTES + 2];
    let (answer, after, bytes) = expected(setting, &state, piece, &before);
    let mut now = state;
    let mut buffer = before;
    let given = read(1, setting, &mut now, piece, &mut buffer).unwrap();
    assert_eq!((given, now), (answer, after), "{state:?}");
    assert!(buffer == bytes, "{state:?}");
    assert!(piece.is_empty() || given.taken > 0);
    assert!(!impossible(&now));
    (given, now)
}

/// A record with a search field of `count` bits and all other fields within
/// their bounds, whether they mean anything or not.
fn between(random: &mut Random) -> State {
    let search_count = random.under(64);
    let unread_count = random.under(8);
    State {
        in_line: false,
        position: random.under(INFORMATION_BITS),
        search: bits::number(&random.bits(search_count)),
        search_count: search_count as u8,
        register: random.under(0x8000) as u16,
        unread: bits::number(&random.bits(unread_count)) as u8,
        unread_count: unread_count as u8,
        waiting: 0,
        waiting_count: 0,
    }
}

fn inside(position: usize, random: &mut Random) -> State {
    let search_count = random.under(64);
    let waiting_count = position % 8;
    State {
        in_line: true,
        position,
        search: bits::number(&random.bits(search_count)),
        search_count: search_count as u8,
        register: random.under(0x8000) as u16,
        unread: 0,
        unread_count: 0,
        waiting: bits::number(&random.bits(waiting_count)) as u8,
        waiting_count: waiting_count as u8,
    }
}

#[test]
fn made_up_records_between_lines_are_served() {
    let mut random = Random::new(5);
    for _ in 0..300 {
        let state = between(&mut random);
        let length = random.under(40);
        check(random.under(7), state, &random.bytes(length));
    }
}

#[test]
fn made_up_records_inside_a_line_are_served() {
    let mut random = Random::new(6);
    for _ in 0..300 {
        let position = match random.under(2) {
            0 => random.under(INFORMATION_BITS),
            _ => INFORMATION_BITS - 1 - random.under(200),
        };
        let state = inside(position, &mut random);
        let length = random.under(40);
        check(random.under(7), state, &random.bytes(length));
    }
    for missing in 1..=20 {
        let state = inside(INFORMATION_BITS - missing, &mut random);
        let (answer, after) = check(0, state, &random.bytes(3));
        assert!(answer.complete);
        assert_eq!(answer.taken, missing.div_ceil(8));
        assert_eq!(usize::from(after.unread_count), 8 * answer.taken - missing);
    }
}

/// The tail split over remembered bits, unread bits and piece, at every place,
/// with as many wrong bits as the setting lets pass.
#[test]
fn a_tail_may_end_anywhere_between_memory_and_piece() {
    let mut random = Random::new(7);
    for remembered in 0..=63 {
        for unread in 0..=7 {
            let setting = (remembered + unread) % 7;
            let mut tail = tail().to_vec();
            for i in 0..setting {
                tail[(7 * remembered + 23 * i) % 64] ^= 1;
            }
            let search = &tail[..remembered];
            let mut behind = tail[remembered..].to_vec();
            behind.extend(random.bits(8 * 20 + unread - behind.len()));
            let state = State {
                search: bits::number(search),
                search_count: remembered as u8,
                unread: bits::number(&behind[..unread]) as u8,
                unread_count: unread as u8,
                ..State::default()
            };
            let (answer, after) = check(setting, state, &bits::to_bytes(&behind[unread..]));
            assert_eq!((answer.taken, answer.complete), (20, false));
            assert!(after.in_line);
            assert_eq!(after.position, remembered + unread + 8 * 20 - 64);
        }
    }
}

/// A whole line from a record that remembers 63 tail bits and holds seven
/// unread bits: the line starts inside the unread bits.
#[test]
fn a_line_may_start_inside_the_unread_bits() {
    let mut random = Random::new(8);
    let plain = random.bits(INFORMATION_BITS);
    let mut wire = vec![1];
    wire.extend(turn(&plain));
    let unread = wire[..7].to_vec();
    let mut rest = wire.split_off(7);
    rest.extend(random.bits(8 * 3 - rest.len() % 8));
    let state = State {
        search: bits::number(&tail()[..63]),
        search_count: 63,
        unread: bits::number(&unread) as u8,
        unread_count: 7,
        ..State::default()
    };
    let piece = bits::to_bytes(&rest);
    let (answer, after) = check(0, state, &piece);
    assert!(answer.complete);
    assert_eq!(answer.taken, (INFORMATION_BITS - 6).div_ceil(8));
    assert_eq!(after.unread_count, 6);
}

/// The register of a reading is always that many bits after SYNC.
#[test]
fn the_register_holds_the_last_fifteen_scrambling_bits() {
    let mut scrambling = vec![1; 15];
    scrambling.extend(after_sync(4_000));
    let recording = damage::good(1, 1);
    for length in [1_250, 1_251, 1_252, 1_300, 1_700] {
        let mut state = State::default();
        let mut buffer = vec![0; LINE_BYTES];
        read(1, 0, &mut state, &recording[..length], &mut buffer).unwrap();
        assert_eq!(state.position, 8 * (length - 1_250));
        let last_fifteen = &scrambling[state.position..state.position + 15];
        assert_eq!(u64::from(state.register), bits::number(last_fifteen));
    }
}
