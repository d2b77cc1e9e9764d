//! The reader: whole bytes of a line at once, and bit by bit what is between
//! them.

use super::mix::by_words;
use super::register::step;
use super::tail::{seek, Sought};
use second::format::{format, INFORMATION_BITS, LINE_BYTES};
use second::reader::{impossible, served, Answer, State};
use second::refusal::{self, refuse_if, Refusal};

/// One call of the reader. Refusals 1, 13, 12, 2.
#[inline(never)]
pub fn read(
    number: u8,
    setting: u8,
    state: &mut State,
    piece: &[u8],
    line: &mut [u8],
) -> Result<Answer, Refusal> {
    format(number.into())?;
    served(setting.into())?;
    refuse_if(impossible(state), refusal::STATE)?;
    refuse_if(line.len() < LINE_BYTES, refusal::SHORT_INPUT)?;
    let (now, answer) = if piece.is_empty() {
        (*state, more(0))
    } else if state.in_line {
        Inside::of(state).read_on(piece, line)
    } else {
        search(setting, state, piece, line)
    };
    *state = now;
    Ok(answer)
}

/// A line is not complete yet.
fn more(taken: usize) -> Answer {
    Answer {
        taken,
        complete: false,
    }
}

fn search(setting: u8, state: &State, piece: &[u8], line: &mut [u8]) -> (State, Answer) {
    let remembered = (state.search_count, state.search);
    let unread = (state.unread_count.into(), state.unread);
    match seek(setting, piece, remembered, unread) {
        Sought::Found { taken, left, byte } => {
            Inside::behind_tail(taken, left, byte).read_on(piece, line)
        }
        Sought::Nothing { count, search } => {
            let state = State {
                search,
                search_count: count,
                ..State::default()
            };
            (state, more(piece.len()))
        }
    }
}

/// A reading that is inside a line.
struct Inside {
    position: usize,
    register: u16,
    waiting: u8,
    /// Bytes of the piece that were taken, ...
    taken: usize,
    /// ... and how many low bits of this one, the last, are unread.
    left: u32,
    byte: u8,
}

impl Inside {
    fn of(state: &State) -> Inside {
        Inside {
            position: state.position,
            register: state.register,
            waiting: state.waiting,
            taken: 0,
            left: 0,
            byte: 0,
        }
    }

    fn behind_tail(taken: usize, left: u32, byte: u8) -> Inside {
        Inside {
            position: 0,
            register: 0x7fff,
            waiting: 0,
            taken,
            left,
            byte,
        }
    }

    fn read_on(mut self, piece: &[u8], line: &mut [u8]) -> (State, Answer) {
        while self.position < INFORMATION_BITS {
            if self.position.is_multiple_of(8) {
                self.whole_bytes(piece, line);
            }
            if !self.one_byte(piece, line) {
                let state = State {
                    in_line: true,
                    position: self.position,
                    register: self.register,
                    waiting: self.waiting,
                    waiting_count: (self.position % 8) as u8,
                    ..State::default()
                };
                return (state, more(piece.len()));
            }
        }
        let unread = u16::from(self.byte) & ((1 << self.left) - 1);
        let state = State {
            unread: unread as u8,
            unread_count: self.left as u8,
            ..State::default()
        };
        let answer = Answer {
            taken: self.taken,
            complete: true,
        };
        (state, answer)
    }

    /// As many whole bytes of the line as the piece has, but for the line's last:
    /// each stands across two bytes of the piece.
    fn whole_bytes(&mut self, piece: &[u8], line: &mut [u8]) {
        let first = self.position / 8;
        let rest = &piece[self.taken..];
        let count = rest.len().min(LINE_BYTES - 1 - first);
        let Some(&last) = rest[..count].last() else {
            return;
        };
        let to = &mut line[first..first + count];
        to[0] = across(self.byte, rest[0], self.left);
        for (byte, two) in to[1..].iter_mut().zip(rest.windows(2)) {
            *byte = across(two[0], two[1], self.left);
        }
        self.register = by_words(line, self.position, 8 * count, self.position, self.register);
        self.position += 8 * count;
        self.taken += count;
        self.byte = last;
    }

    /// Bit by bit up to the end of a byte of the line; false where the piece ends
    /// before.
    fn one_byte(&mut self, piece: &[u8], line: &mut [u8]) -> bool {
        loop {
            if self.left == 0 {
                let Some(&next) = piece.get(self.taken) else {
                    return false;
                };
                (self.left, self.byte) = (8, next);
                self.taken += 1;
            }
            self.left -= 1;
            let (key, register) = step(self.register, 1);
            let complement = (self.position / 8 % 2) as u8;
            let bit = (self.byte >> self.left & 1) ^ key as u8 ^ complement;
            self.register = register;
            self.waiting = self.waiting << 1 | bit;
            self.position += 1;
            if self.position.is_multiple_of(8) {
                line[self.position / 8 - 1] = self.waiting;
                self.waiting = 0;
                return true;
            }
        }
    }
}

/// The low bits of a byte, so many of at most seven, and behind them the first of
/// the next. In numbers of eight bits the loop over it takes most bytes at once.
fn across(byte: u8, next: u8, left: u32) -> u8 {
    byte << (7 - left) << 1 | next >> left
}

#[cfg(test)]
mod tests {
    use super::*;
    use second::damage::{cut, good, make, shifted, Random, KINDS};
    use second::ice::Received;
    use second::reader as theirs;

    /// Reads pieces as the second decoder does: the same answers, records and
    /// bytes of the line after every call. Gives the number of lines.
    fn lines_of(format: u8, setting: u8, pieces: &[&[u8]]) -> usize {
        let (mut state, mut other) = (State::default(), State::default());
        let (mut line, mut beside) = ([0x5a; LINE_BYTES], [0x5a; LINE_BYTES]);
        let mut lines = 0;
        for piece in pieces {
            let mut rest = *piece;
            loop {
                let answer = read(format, setting, &mut state, rest, &mut line);
                let (number, setting) = (format.into(), setting.into());
                let expected = theirs::read(number, setting, &mut other, rest, &mut beside);
                assert_eq!((answer, state), (expected, other));
                assert!(line == beside);
                let answer = answer.expect("it is served");
                lines += usize::from(answer.complete);
                rest = &rest[answer.taken..];
                if rest.is_empty() {
                    break;
                }
            }
        }
        lines
    }

    /// Every offset of the lines against the bytes; one piece, pieces of the
    /// issue's size and any.
    #[test]
    fn at_every_offset() {
        let mut random = Random::new(1);
        for format in [1, 2, 3] {
            let two = good(format.into(), 2);
            for by in 0..8 {
                let recording = shifted(&two, by, &mut random);
                assert_eq!(lines_of(format, 0, &[&recording]), 2);
                let pieces: Vec<&[u8]> = recording.chunks(4096).collect();
                assert_eq!(lines_of(format, 0, &pieces), 2);
                let pieces = cut(&recording, 300, &mut random);
                assert_eq!(lines_of(format, 0, &pieces), 2);
            }
        }
    }

    #[test]
    fn in_pieces_of_one_byte_and_a_few() {
        let mut random = Random::new(2);
        let one = good(1, 1);
        for by in 0..8 {
            let recording = shifted(&one, by, &mut random);
            let pieces: Vec<&[u8]> = recording.chunks(1).collect();
            assert_eq!(lines_of(1, 0, &pieces), 1);
            let pieces = cut(&recording, 20, &mut random);
            assert_eq!(lines_of(1, 0, &pieces), 1);
        }
    }

    /// As many wrong bits in each tail as the setting lets pass, and one more.
    #[test]
    fn at_every_setting() {
        let mut random = Random::new(3);
        for format in [1, 2, 3] {
            for setting in 0..=6_u8 {
                for more in [0, 1] {
                    let mut received = Received::new(format.into(), 2);
                    for k in 0..2 {
                        received.wrong_in_tail(k, usize::from(setting) + more, &mut random);
                    }
                    let by = random.under(8);
                    let recording = shifted(&received.recording, by, &mut random);
                    let pieces = cut(&recording, 10_000, &mut random);
                    let lines = lines_of(format, setting, &pieces);
                    assert_eq!(lines, if more == 0 { 2 } else { 0 });
                }
            }
        }
    }

    /// Damaged recordings of every kind, at any setting.
    #[test]
    fn whatever_comes() {
        let mut random = Random::new(4);
        for format in [1, 2, 3] {
            for kind in 0..KINDS {
                let (_, recording) = make(kind, format.into(), &mut random);
                let setting = random.under(7) as u8;
                lines_of(format, setting, &cut(&recording, 5_000, &mut random));
            }
        }
    }

    /// Records that may be made up: one of them has the tail end in its unread
    /// bits, so that the line begins there.
    #[test]
    fn a_line_that_begins_in_unread_bits() {
        let mut random = Random::new(5);
        for unread in 1..=7 {
            for used in 1..=unread {
                let state = State {
                    search: super::super::tail::TAIL >> used,
                    search_count: 63,
                    unread: (0x7f >> (7 - unread)) as u8,
                    unread_count: unread,
                    ..State::default()
                };
                let (mut ours, mut other) = (state, state);
                let (mut line, mut beside) = ([0x5a; LINE_BYTES], [0x5a; LINE_BYTES]);
                let piece = random.bytes(LINE_BYTES + 40);
                let answer = read(1, 0, &mut ours, &piece, &mut line);
                let expected = theirs::read(1, 0, &mut other, &piece, &mut beside);
                assert_eq!((answer, ours), (expected, other));
                assert!(line == beside);
            }
        }
    }

    /// Format, setting, record, line; nothing changes. An empty piece is served.
    #[test]
    fn refusals() {
        let wrong = State {
            register: 0x8000,
            ..State::default()
        };
        let mut line = [7; LINE_BYTES];
        let mut said = |format, setting, mut state: State, length, piece: &[u8]| {
            let before = state;
            let answer = read(format, setting, &mut state, piece, &mut line[..length]);
            assert_eq!(state, before);
            answer.map(|answer| answer.taken)
        };
        assert_eq!(said(0, 7, wrong, 0, &[1]), Err(1));
        assert_eq!(said(4, 7, wrong, 0, &[1]), Err(1));
        assert_eq!(said(1, 7, wrong, 0, &[1]), Err(13));
        assert_eq!(said(1, 6, wrong, 0, &[1]), Err(12));
        let state = State::default();
        assert_eq!(said(1, 6, state, LINE_BYTES - 1, &[1]), Err(2));
        assert_eq!(said(1, 6, state, LINE_BYTES, &[]), Ok(0));
    }
}
