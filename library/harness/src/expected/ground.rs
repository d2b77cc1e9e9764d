//! The version; formats, the scrambling register, SYNC.

use second::bits;
use second::format::{format as format_of, INFORMATION_BITS};
use second::refusal::{self, refuse_if};
use second::scramble;

use super::Answer;
use crate::call::Lent;

const HEADER: &str = include_str!("../../../hansobrik.h");

/// The header's version: the second decoder has none.
pub fn version() -> Vec<u64> {
    let parts = ["MAJOR", "MINOR", "PATCH"].map(|part| {
        let define = format!("#define HANSOBRIK_VERSION_{part} ");
        let (_, rest) = HEADER.split_once(&define).expect("the header has it");
        let number = rest.lines().next().expect("a line");
        number.trim().parse::<u64>().expect("a number")
    });
    vec![parts[0] * 10_000 + parts[1] * 100 + parts[2]]
}

pub fn format(n: &[u64]) -> Answer {
    let format = format_of(n[0] as usize)?;
    Ok(vec![
        n[0],
        format.check_start.into(),
        format.sync_bits as u64,
        INFORMATION_BITS as u64,
        format.dummy_bits as u64,
        format.wire_bytes as u64,
    ])
}

fn stepped_in_place(register: &mut u16) -> Answer {
    let bit = scramble::step(register)?;
    Ok(vec![bit.into(), (*register).into()])
}

pub fn stepped(n: &[u64]) -> Answer {
    stepped_in_place(&mut (n[0] as u16))
}

pub fn step(lent: &mut [Lent]) -> Answer {
    stepped_in_place(&mut lent[0].words_mut()[0])
}

/// The second decoder has SYNC but no call that puts it alone.
pub fn put_sync(n: &[u64], lent: &mut [Lent]) -> Answer {
    let format = format_of(n[0] as usize)?;
    let out = lent[0].bytes_mut();
    let bytes = format.sync_bits / 8;
    refuse_if(out.len() < bytes, refusal::SHORT_OUTPUT)?;
    out[..bytes].copy_from_slice(&bits::to_bytes(&scramble::sync(format.sync_bits)));
    Ok(vec![bytes as u64])
}
