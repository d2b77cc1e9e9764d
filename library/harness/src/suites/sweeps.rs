//! Good calls with one number or one buffer's length taken through its edges;
//! a byte through all its values.

use crate::bench::{Bench, Difference};
use crate::call::{Call, Lent};
use crate::faults::Faults;
use crate::make::Maker;
use crate::rows::{Name, ROWS};

const OF_16_BITS: [u64; 20] = [
    0, 1, 2, 23, 24, 25, 26, 62, 63, 64, 65, 1_022, 1_023, 1_024, 1_025, 0x7FFE, 0x7FFF, 0x8000,
    0x8001, 0xFFFF,
];

/// How many good calls of a name are taken as they are.
fn bases(name: Name) -> usize {
    match name {
        Name::Read => 6, // records between lines, at a tail and in a line
        _ => 1,
    }
}

/// Of a report and a desk, which have many numbers, the powers of two that are
/// tried.
const FEW_POWERS: [u32; 8] = [0, 1, 3, 8, 16, 17, 32, 63];

fn powers(name: Name, bits: u32) -> Vec<u32> {
    match name {
        Name::WithLine
        | Name::Together
        | Name::Take
        | Name::Publish
        | Name::Release
        | Name::Seen => FEW_POWERS.into_iter().filter(|p| *p < bits).collect(),
        _ => (0..bits).collect(),
    }
}

/// What is tried for a number of so many bits.
fn values(name: Name, bits: u32) -> Vec<u64> {
    match bits {
        8 => (0..256).collect(),
        16 => OF_16_BITS.to_vec(),
        1 => vec![0, 1],
        // around the powers of two, the places of a line and the lines of a report
        bits => {
            let powers = powers(name, bits).into_iter().map(|power| 1u64 << power);
            let edges = powers.chain([2_290, 2_293, 100_000, 354_847, 0]);
            let limit = u64::MAX >> (64 - bits);
            let around = |edge: u64| (0..5).map(move |d| edge.wrapping_add(d).wrapping_sub(2));
            edges.flat_map(around).map(|value| value & limit).collect()
        }
    }
}

/// A buffer of another length, cut or with zeros behind.
fn resized(lent: &Lent, length: usize) -> Lent {
    let mut lent = lent.clone();
    match &mut lent {
        Lent::Bytes(bytes) => bytes.resize(length, 0),
        Lent::Words(words) => words.resize(length, 0),
    }
    lent
}

fn sweep(bench: &mut Bench, base: &Call) -> Result<(), Difference> {
    let row = base.row();
    for (i, (_, bits)) in row.numbers.iter().enumerate() {
        for value in values(row.name, *bits) {
            let mut call = base.clone();
            call.numbers[i] = value;
            bench.call(call)?;
        }
    }
    // the register that is lent is one number, not a buffer
    if row.name == Name::Step {
        return Ok(());
    }
    for (i, lent) in base.lent.iter().enumerate() {
        let count = lent.count();
        for length in [0, 1, count / 2, count.saturating_sub(1), count, count + 1] {
            let mut call = base.clone();
            call.lent[i] = resized(lent, length);
            bench.call(call)?;
        }
    }
    Ok(())
}

pub fn run(bench: &mut Bench, maker: &mut Maker) -> Result<(), Difference> {
    for row in &ROWS {
        for _ in 0..bases(row.name) {
            let base = maker.planned(row.name, &Faults::none()).call;
            sweep(bench, &base)?;
        }
    }
    Ok(())
}
