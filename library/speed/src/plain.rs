//! Reader and writer bit by bit in a loop, without lists: what one writes first.
//! `descrambling.rs` has their times. Refused as the library's are, and not
//! inlined.

use crate::quick::{before_sync, counts};
use second::format::{format, Format, INFORMATION_BITS, LINE_BYTES};
use second::reader::{impossible, served, Answer, State};
use second::refusal::{self, refuse_if, Refusal};

/// The next scrambling bit.
fn next(register: &mut u16) -> u8 {
    let bit = (*register >> 14 ^ *register >> 13) & 1;
    *register = (*register << 1 | bit) & 0x7fff;
    bit as u8
}

/// One call of the reader. Refusals 1, 13, 12, 2.
#[inline(never)]
pub fn read(
    number: u8,
    setting: u8,
    state: &mut State,
    piece: &[u8],
    line: &mut [u8],
) -> Result<Answer, Refusal> {
    format(number.into())?;
    served(setting.into())?;
    refuse_if(impossible(state), refusal::STATE)?;
    refuse_if(line.len() < LINE_BYTES, refusal::SHORT_INPUT)?;
    let mut now = *state;
    let (mut left, mut byte) = (now.unread_count, now.unread);
    let mut taken = 0;
    let complete = loop {
        if left == 0 {
            let Some(&next) = piece.get(taken) else {
                break false;
            };
            (left, byte) = (8, next);
            taken += 1;
        }
        left -= 1;
        let bit = byte >> left & 1;
        match now.in_line {
            false => after_search_bit(setting, &mut now, bit),
            true => after_line_bit(&mut now, bit, line),
        }
        if now.position == INFORMATION_BITS {
            break true;
        }
    };
    if !piece.is_empty() {
        *state = match complete {
            true => State::default(),
            false => now,
        };
        state.unread_count = left;
        state.unread = (u16::from(byte) & ((1 << left) - 1)) as u8;
    }
    Ok(Answer { taken, complete })
}

fn after_search_bit(setting: u8, now: &mut State, bit: u8) {
    let window = now.search << 1 | u64::from(bit);
    if now.search_count < 63 {
        now.search_count += 1;
        now.search = window;
    } else if counts(setting, window) {
        *now = State {
            in_line: true,
            register: 0x7fff,
            ..State::default()
        };
    } else {
        now.search = window & (u64::MAX >> 1);
    }
}

fn after_line_bit(now: &mut State, bit: u8, line: &mut [u8]) {
    let complement = (now.position / 8 % 2) as u8;
    now.waiting = now.waiting << 1 | (bit ^ next(&mut now.register) ^ complement);
    now.waiting_count += 1;
    now.position += 1;
    if now.waiting_count == 8 {
        line[now.position / 8 - 1] = now.waiting;
        (now.waiting, now.waiting_count) = (0, 0);
    }
}

fn sync(format: &Format, out: &mut [u8]) {
    let mut register = before_sync(format);
    for byte in out {
        *byte = (0..8).fold(0, |byte, _| byte << 1 | next(&mut register));
    }
}

/// Refusals 1, 3.
#[inline(never)]
pub fn put_sync(number: u8, out: &mut [u8]) -> Result<usize, Refusal> {
    let format = format(number.into())?;
    let bytes = format.sync_bits / 8;
    refuse_if(out.len() < bytes, refusal::SHORT_OUTPUT)?;
    sync(&format, &mut out[..bytes]);
    Ok(bytes)
}

/// Refusals 1, 2, 3.
#[inline(never)]
pub fn write_line(number: u8, line: &[u8], out: &mut [u8]) -> Result<usize, Refusal> {
    let format = format(number.into())?;
    refuse_if(line.len() < LINE_BYTES, refusal::SHORT_INPUT)?;
    refuse_if(out.len() < format.wire_bytes, refusal::SHORT_OUTPUT)?;
    let (before, behind) = out[..format.wire_bytes].split_at_mut(format.sync_bits / 8);
    sync(&format, before);
    let mut register = 0x7fff;
    for (i, byte) in behind.iter_mut().enumerate() {
        let plain = if i < LINE_BYTES { line[i] } else { 0 };
        *byte = (0..8).rev().fold(0, |byte, left| {
            let bit = plain >> left & 1;
            byte << 1 | (bit ^ next(&mut register) ^ (i % 2) as u8)
        });
    }
    Ok(format.wire_bytes)
}
