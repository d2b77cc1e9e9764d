//! Recordings in which the operator's tables change: no block is half of each.
//!
//! From the change on every line of the new tables is refused for MANAM and both
//! calibration blocks, until they are begun anew; mapping and orbit go on. What a
//! block and its answers must be is known from the lines that went in.

use second::blocks::BLOCKS;
use second::pattern;
use second::sectors;

use super::assembling::{changes, Assembling, Sent};
use crate::bench::{Bench, Difference};
use crate::make::Maker;
use crate::pool::{seal, FORMATS};

/// The numbers of the pattern's tables, before they change and afterwards.
const TABLES: [[u16; 2]; 2] = [[2_101, 731], [2_102, 732]];

/// Now and then one entry of so many is asked.
const FEW: usize = 500;

/// Data of the sector DOC begin with its place 3.
fn at(place: usize) -> usize {
    place - 3
}

/// A line whose sector DOC has line k's data of the pattern, after the change of
/// tables or before it, but with these numbers.
fn sent(maker: &mut Maker, format: usize, k: u64, changed: bool, tables: [u16; 2]) -> Sent {
    let mut doc = pattern::doc(format, k, changed.into());
    doc[at(28)..at(30)].copy_from_slice(&tables[0].to_be_bytes());
    doc[at(30)..at(32)].copy_from_slice(&tables[1].to_be_bytes());
    let mut line = maker.good_line(format as u64);
    sectors::put_data(format, &mut line, 1, &doc).expect("it fits");
    Sent {
        line,
        segment: (k / 8 % 25) as usize,
        tables,
        damage: 0,
    }
}

/// Line k as `signal` makes it where new tables come with this line, from 1.
fn plain(maker: &mut Maker, format: usize, k: u64, new: u64) -> Sent {
    let doc = pattern::doc(format, k, new);
    let changed = k + 1 >= new;
    let made = sent(maker, format, k, changed, TABLES[usize::from(changed)]);
    assert_eq!(doc, made.line[2..2_293], "the numbers are the pattern's");
    made
}

/// Lines that come in between, behind line k.
#[derive(Clone, Copy)]
enum Between {
    /// Of the tables before the change, and of those behind it.
    Old,
    New,
    /// One number is another.
    OtherCalibration,
    OtherManam,
    /// Line k's segment of the other tables, under the same numbers.
    OtherBytes,
    /// Refused with this number.
    Damaged(u8),
}

use Between::{Damaged, New, Old, OtherBytes, OtherCalibration, OtherManam};

const BETWEEN: [Between; 8] = [
    Old,
    New,
    OtherCalibration,
    OtherManam,
    OtherBytes,
    Damaged(5),
    Damaged(6),
    Damaged(7),
];

/// One of them. No block that is not yet finished gets a wrong byte by it: what
/// is not of its tables is refused.
fn between(maker: &mut Maker, format: usize, k: u64, changed: bool, kind: Between) -> Sent {
    let any = maker.dice.under(20_000) as u64;
    let either = maker.dice.one_in(2);
    let [calibration, manam] = TABLES[usize::from(changed)];
    let one_bit = 1 << maker.dice.under(16);
    let (k, changed, tables) = match kind {
        Old => (any, false, TABLES[0]),
        New => (any, true, TABLES[1]),
        OtherCalibration => (any, changed, [calibration ^ one_bit, manam]),
        OtherManam => (any, changed, [calibration, manam ^ one_bit]),
        OtherBytes => (k, !changed, [calibration, manam]),
        Damaged(_) => (any, either, TABLES[usize::from(either)]),
    };
    let mut sent = sent(maker, format, k, changed, tables);
    if let Damaged(number) = kind {
        damage(maker, format, &mut sent, number);
    }
    sent
}

fn damage(maker: &mut Maker, format: usize, sent: &mut Sent, number: u8) {
    let line = &mut sent.line;
    sent.damage = number;
    match number {
        5 => maker.wrong_check(line, 1),
        6 => maker.pool.break_id(line, 1, &mut maker.dice),
        _ => {
            maker.put_segment(line, true);
            seal(format, line);
        }
    }
}

/// A recording in which the tables change once: of the eight lines of each
/// segment one or two, and others in between. All its blocks are finished at its
/// end; those that change were begun anew. Of a finished one every entry is
/// asked, or every so many.
fn recording(
    bench: &mut Bench,
    maker: &mut Maker,
    format: usize,
    every: usize,
) -> Result<(), Difference> {
    let first = maker.dice.under(25) as u64;
    let change = first + maker.dice.between(1, 24) as u64;
    let anew = change + maker.dice.between(1, 5) as u64;
    // within the eight lines of a segment
    let new = 8 * change + 1 + maker.dice.under(8) as u64;

    let mut kinds = BETWEEN.iter().cycle();
    let mut blocks = Assembling::five(maker, format);
    for group in first..anew + 25 {
        if group == anew {
            let left = [blocks[0].tables, [0, 0], [maker.dice.number() as u16; 2]];
            for block in blocks.iter_mut().filter(|block| changes(block.number)) {
                block.entries(bench, FEW)?;
                block.begin(maker.dice.pick(&left));
            }
        }
        // where the tables change, a line before it and one behind
        let repeats = match group == change || maker.dice.one_in(2) {
            true => vec![0, 7],
            false => vec![maker.dice.under(8) as u64],
        };
        for repeat in repeats {
            let k = 8 * group + repeat;
            let line = plain(maker, format, k, new);
            offer(bench, &mut blocks, &line)?;
            let kind = kinds.next().expect("they go on for ever");
            let line = between(maker, format, k, k + 1 >= new, *kind);
            offer(bench, &mut blocks, &line)?;
        }
        if maker.dice.one_in(8) {
            for block in &blocks {
                block.entries(bench, FEW)?;
            }
        }
    }
    for block in &blocks {
        if block.served() {
            block.holds(&pattern::block(block.number, changes(block.number)))?;
        }
        block.entries(bench, every)?;
    }
    Ok(())
}

/// A line for all blocks.
fn offer(bench: &mut Bench, blocks: &mut [Assembling], sent: &Sent) -> Result<(), Difference> {
    for block in blocks {
        block.add(bench, sent)?;
    }
    Ok(())
}

/// Every bit of each number turned over by itself: with the segment that is
/// there and with another, and with no mark, where any number goes.
fn bits(bench: &mut Bench, maker: &mut Maker, format: usize) -> Result<(), Difference> {
    let k = maker.dice.under(20_000) as u64;
    for number in 1..=BLOCKS.len() {
        let mut block = Assembling::new(maker, format, number);
        if !block.served() {
            continue;
        }
        let tables = [maker.table_number(), maker.table_number()];
        let line = sent(maker, format, k, false, tables);
        block.add(bench, &line)?;
        for bit in 0..32 {
            let mut other = tables;
            other[bit / 16] ^= 1 << (bit % 16);
            for k in [k, k + 8] {
                let line = sent(maker, format, k, false, other);
                let (marks, kept) = (block.marks, block.block.clone());
                block.add(bench, &line)?;
                (block.marks, block.block) = (marks, kept);
            }
            let mut none = Assembling::new(maker, format, number);
            none.begin(other);
            none.add(bench, &line)?;
        }
    }
    Ok(())
}

pub fn run(bench: &mut Bench, maker: &mut Maker) -> Result<(), Difference> {
    for format in FORMATS {
        bits(bench, maker, format)?;
        recording(bench, maker, format, FEW)?;
    }
    // every entry in a format that has calibration-2
    let format = maker.dice.pick(&[1, 3]);
    recording(bench, maker, format, 1)
}
