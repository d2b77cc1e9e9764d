//! "One call reads until a line is complete or the piece is used up. It says
//! how many bytes it took and whether a line is complete. Up to seven unread
//! bits of the last byte stay in the state, only between lines. Inside a line
//! a buffer byte changes only once its eight bits are in; up to seven line
//! bits wait in the state. An empty piece that is not refused changes nothing.
//! A non-empty piece that is not refused gives up at least one byte."
//!
//! Why at least one byte: a line needs at least one more bit when the call
//! begins. Inside a line there are no unread bits, so that bit comes from the
//! piece. Between lines there are at most seven unread bits; a made-up record
//! may let the tail end inside them, so that the line starts there, but it
//! then has at most six of its 354,848 bits. So a line is never complete
//! before a bit of the piece is read.

use crate::bits;
use crate::format::{format, INFORMATION_BITS, LINE_BYTES};
use crate::lines::{counts_as_tail, LARGEST_SETTING};
use crate::refusal::{self, refuse_if, Refusal};
use crate::scramble::{complement, step, AFTER_SYNC, TAIL_BITS};

/// What one call leaves for the next. The caller keeps it and may make it up.
///
/// Bit fields are numbers, first bit highest. The default, all zero, is the
/// state at the recording's first bit.
#[derive(Clone, Copy, Debug, Default, PartialEq, Eq)]
pub struct State {
    /// Inside a line, or between lines.
    pub in_line: bool,
    /// How many bits of the line are in.
    pub position: usize,
    /// The last bits since the start of the search, at most 63.
    pub search: u64,
    pub search_count: u8,
    /// The last fifteen scrambling bits, first bit highest.
    pub register: u16,
    /// Bits of the last byte taken that are still to read.
    pub unread: u8,
    pub unread_count: u8,
    /// Plain line bits that do not yet fill a byte of the buffer.
    pub waiting: u8,
    pub waiting_count: u8,
}

/// The answer of a call that is not refused.
#[derive(Clone, Copy, Debug, PartialEq, Eq)]
pub struct Answer {
    /// Bytes of the piece that were taken.
    pub taken: usize,
    /// Whether a line now stands in the buffer, complete.
    pub complete: bool,
}

/// "a bit field too large for its count"
fn too_large(field: u64, count: u8) -> bool {
    count < 64 && field >> count != 0
}

/// "state record impossible": the table's list and nothing else. Any other
/// record is served, also one that no reading leads to.
pub fn impossible(state: &State) -> bool {
    let line_position_above_354847 = state.position > 354_847;
    let more_than_63_remembered_search_bits = state.search_count > 63;
    let scrambling_register_over_15_bits = state.register > 0x7FFF;
    let bit_field_too_large_for_its_count = too_large(state.search, state.search_count)
        || too_large(u64::from(state.unread), state.unread_count)
        || too_large(u64::from(state.waiting), state.waiting_count);
    let more_than_seven_unread_bits = state.unread_count > 7;
    let waiting_bits_wrong = if state.in_line {
        usize::from(state.waiting_count) != state.position % 8
    } else {
        state.waiting_count != 0
    };
    let unread_bits_inside_a_line = state.in_line && state.unread_count != 0;

    line_position_above_354847
        || more_than_63_remembered_search_bits
        || scrambling_register_over_15_bits
        || bit_field_too_large_for_its_count
        || more_than_seven_unread_bits
        || waiting_bits_wrong
        || unread_bits_inside_a_line
}

/// Where the reading stands, as lists of bits. Only the fields that mean
/// something there are kept; the others become 0 in the record.
enum Place {
    Between {
        /// The last bits since the start of the search, at most 63.
        since_start: Vec<u8>,
    },
    Inside {
        position: usize,
        register: u16,
        waiting: Vec<u8>,
    },
}

impl Place {
    fn of(state: &State) -> Place {
        if state.in_line {
            Place::Inside {
                position: state.position,
                register: state.register,
                waiting: bits::of_number(u64::from(state.waiting), state.waiting_count.into()),
            }
        } else {
            Place::Between {
                since_start: bits::of_number(state.search, state.search_count.into()),
            }
        }
    }

    fn record(&self, unread: &[u8]) -> State {
        match self {
            Place::Between { since_start } => State {
                search: bits::number(since_start),
                search_count: since_start.len() as u8,
                unread: bits::number(unread) as u8,
                unread_count: unread.len() as u8,
                ..State::default()
            },
            Place::Inside {
                position,
                register,
                waiting,
            } => State {
                in_line: true,
                position: *position,
                register: *register,
                waiting: bits::number(waiting) as u8,
                waiting_count: waiting.len() as u8,
                ..State::default()
            },
        }
    }

    /// Reads one bit and gives the place after it. `buffer` gets a byte when
    /// its eighth bit comes in.
    fn after(self, setting: usize, bit: u8, buffer: &mut [u8]) -> Place {
        match self {
            Place::Between { since_start } => after_search_bit(setting, since_start, bit),
            Place::Inside {
                position,
                register,
                waiting,
            } => after_line_bit(position, register, waiting, bit, buffer),
        }
    }

    fn is_complete(&self) -> bool {
        matches!(self, Place::Inside { position, .. } if *position == INFORMATION_BITS)
    }
}

/// "the first place where 64 bits, all since that start," count as the tail;
/// "scrambling still goes on from fifteen ones", whatever bits came.
fn after_search_bit(setting: usize, mut since_start: Vec<u8>, bit: u8) -> Place {
    since_start.push(bit);
    if since_start.len() < TAIL_BITS {
        return Place::Between { since_start };
    }
    if counts_as_tail(setting, &since_start) {
        return Place::Inside {
            position: 0,
            register: AFTER_SYNC,
            waiting: Vec::new(),
        };
    }
    since_start.remove(0);
    Place::Between { since_start }
}

/// A line bit, made plain: scrambling first, complementing after it.
fn after_line_bit(
    position: usize,
    mut register: u16,
    mut waiting: Vec<u8>,
    bit: u8,
    buffer: &mut [u8],
) -> Place {
    let scrambling = step(&mut register).expect("the register has fifteen bits");
    waiting.push(bit ^ scrambling ^ complement(position));
    if waiting.len() == 8 {
        buffer[position / 8] = bits::number(&waiting) as u8;
        waiting.clear();
    }
    Place::Inside {
        position: position + 1,
        register,
        waiting,
    }
}

/// Refusal 13 "for a setting above 6".
pub fn served(setting: usize) -> Result<(), Refusal> {
    refuse_if(setting > LARGEST_SETTING, refusal::SETTING)
}

/// One call of the reader. Refusals 1, 13, 12, 2.
///
/// The record does not hold the setting: the caller hands in "the same one in
/// all calls on a recording". A call with another one is served.
pub fn read(
    number: usize,
    setting: usize,
    state: &mut State,
    piece: &[u8],
    buffer: &mut [u8],
) -> Result<Answer, Refusal> {
    format(number)?;
    served(setting)?;
    refuse_if(impossible(state), refusal::STATE)?;
    refuse_if(buffer.len() < LINE_BYTES, refusal::SHORT_INPUT)?;

    // "An empty piece that is not refused changes nothing": unread bits are
    // not searched, and the record stays as it was handed in.
    if piece.is_empty() {
        return Ok(Answer {
            taken: 0,
            complete: false,
        });
    }

    // The unread bits come first, then those of the piece.
    let unread = bits::of_number(u64::from(state.unread), state.unread_count.into());
    let incoming = unread.len() + 8 * piece.len();
    let bit_of = |i: usize| match unread.get(i) {
        Some(&bit) => bit,
        None => bits::bit(piece, i - unread.len()),
    };

    let mut place = Place::of(state);
    let mut used = 0;
    while used < incoming && !place.is_complete() {
        place = place.after(setting, bit_of(used), buffer);
        used += 1;
    }

    if !place.is_complete() {
        *state = place.record(&[]);
        return Ok(Answer {
            taken: piece.len(),
            complete: false,
        });
    }

    // The byte that holds the line's last bit is taken; its rest is unread.
    // The search starts again with the first bit after the line.
    let taken = (used - unread.len()).div_ceil(8);
    let rest: Vec<u8> = (used..unread.len() + 8 * taken).map(bit_of).collect();
    let between = Place::Between {
        since_start: Vec::new(),
    };
    *state = between.record(&rest);
    Ok(Answer {
        taken,
        complete: true,
    })
}

/// A recording that comes in pieces, read from its first bit at one setting.
///
/// Not a call of the paper: it is how a caller is meant to drive [`read`].
pub struct Recording {
    format: usize,
    setting: usize,
    state: State,
    buffer: Vec<u8>,
    bytes_taken: usize,
}

impl Recording {
    pub fn new(format: usize, setting: usize) -> Recording {
        Recording {
            format,
            setting,
            state: State::default(),
            buffer: vec![0; LINE_BYTES],
            bytes_taken: 0,
        }
    }

    /// Reads a whole piece, and hands each line it completes to `each`,
    /// together with the place of the first bit after the line.
    pub fn feed(
        &mut self,
        mut piece: &[u8],
        mut each: impl FnMut(&[u8], usize),
    ) -> Result<(), Refusal> {
        while !piece.is_empty() {
            let (state, buffer) = (&mut self.state, &mut self.buffer);
            let answer = read(self.format, self.setting, state, piece, buffer)?;
            piece = &piece[answer.taken..];
            self.bytes_taken += answer.taken;
            if answer.complete {
                let end = 8 * self.bytes_taken - usize::from(self.state.unread_count);
                each(&self.buffer, end);
            }
        }
        Ok(())
    }

    /// How many bits of a line are in, where the recording so far stops inside
    /// one.
    pub fn unfinished(&self) -> Option<usize> {
        self.state.in_line.then_some(self.state.position)
    }
}
