//! 200 lines of the pattern in each format: their documentation fields, all their
//! blocks put together, and every entry of the finished ones; of the levels of
//! calibration-2, which are many, every one in one of the formats.

use second::blocks::CALIBRATION_2;
use second::pattern;

use super::assembling::{Assembling, Sent};
use crate::bench::{Bench, Difference};
use crate::call::{Call, Lent};
use crate::make::Maker;
use crate::pool::FORMATS;
use crate::rows::Name;

/// Lines that carry each of the 25 segments eight times.
const LINES: u64 = 200;

/// One level of so many where not all are asked.
const FEW: usize = 7;

const FIELDS: [Name; 5] = [
    Name::ScanMode,
    Name::ScannerSelect,
    Name::LineNumbers,
    Name::Date,
    Name::SubCommutation,
];

fn assemble(
    bench: &mut Bench,
    maker: &mut Maker,
    format: usize,
    all_levels: bool,
) -> Result<(), Difference> {
    let mut blocks = Assembling::five(maker, format);
    for k in 0..LINES {
        let sent = Sent {
            line: pattern::line(format, k, 0).expect("a format"),
            segment: (k / 8 % 25) as usize,
            tables: [2_101, 731],
            damage: 0,
        };
        for name in FIELDS {
            let lent = vec![Lent::Bytes(sent.line.clone())];
            bench.call(Call::new(name, &[format as u64], lent))?;
        }
        for block in &mut blocks {
            block.add(bench, &sent)?;
        }
    }
    for block in &blocks {
        if block.served() {
            block.holds(&pattern::block(block.number, false))?;
        }
        let few = block.number == CALIBRATION_2 && !all_levels;
        block.entries(bench, if few { FEW } else { 1 })?;
    }
    Ok(())
}

pub fn run(bench: &mut Bench, maker: &mut Maker) -> Result<(), Difference> {
    let whole = maker.dice.pick(&[1, 3]);
    for format in FORMATS {
        assemble(bench, maker, format, format == whole)?;
    }
    Ok(())
}
