//! The reader and the writer.

use second::format::format;
use second::reader::{self, State};
use second::refusal::{self, refuse_if};
use second::scramble;

use super::{two, Answer};
use crate::call::Lent;

/// The record in the header's order.
fn fields(state: &State) -> Vec<u64> {
    vec![
        state.position as u64,
        state.search,
        state.register.into(),
        state.in_line.into(),
        state.search_count.into(),
        state.unread.into(),
        state.unread_count.into(),
        state.waiting.into(),
        state.waiting_count.into(),
    ]
}

fn state(n: &[u64]) -> State {
    State {
        position: n[0] as usize,
        search: n[1],
        register: n[2] as u16,
        in_line: n[3] == 1,
        search_count: n[4] as u8,
        unread: n[5] as u8,
        unread_count: n[6] as u8,
        waiting: n[7] as u8,
        waiting_count: n[8] as u8,
    }
}

pub fn fresh() -> Vec<u64> {
    fields(&State::default())
}

pub fn read(n: &[u64], lent: &mut [Lent]) -> Answer {
    // The second decoder's flag is a bool; a flag that is neither 0 nor 1
    // makes the record impossible, and 1 and 13 are tested before that.
    let (number, setting) = (n[0] as usize, n[1] as usize);
    format(number)?;
    reader::served(setting)?;
    refuse_if(n[5] > 1, refusal::STATE)?;
    let mut state = state(&n[2..]);
    let (piece, line) = two(lent);
    let (piece, line) = (piece.bytes(), line.bytes_mut());
    let answer = reader::read(number, setting, &mut state, piece, line)?;
    let mut all = vec![answer.complete.into(), answer.taken as u64];
    all.extend(fields(&state));
    Ok(all)
}

pub fn write_line(n: &[u64], lent: &mut [Lent]) -> Answer {
    let (line, out) = two(lent);
    let count = scramble::write_line(n[0] as usize, line.bytes(), out.bytes_mut())?;
    Ok(vec![count as u64])
}
