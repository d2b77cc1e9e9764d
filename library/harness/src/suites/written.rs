//! Lines and SYNC written into outputs of their length and of others: what writes
//! by words goes wrong where the words end. The bits obey the paper's rule, which
//! is tested here without the second decoder.

use second::bits;
use second::format::{format, Format, INFORMATION_BITS, LINE_BYTES};
use second::refusal::{SHORT_INPUT, SHORT_OUTPUT};

use crate::bench::{Bench, Difference};
use crate::call::{Call, Lent};
use crate::make::{Asked, Maker};
use crate::pool::FORMATS;
use crate::rows::Name;

/// Bytes behind what is written.
const BEHIND: [usize; 6] = [0, 1, 7, 8, 9, 64];

/// "Each bit is the exclusive or of the bits 14 and 15 places earlier. SYNC ends
/// with fifteen ones", and "the bits go on after SYNC over information and dummy".
/// What is written, without the plain bits and without the complement, is those
/// bits.
pub fn obeys(format: &Format, written: &[u8], line: &[u8]) -> bool {
    let mut all = bits::from_bytes(written);
    let sync = format.sync_bits;
    for (place, bit) in all[sync..].iter_mut().enumerate() {
        if place < INFORMATION_BITS {
            *bit ^= bits::bit(line, place);
        }
        *bit ^= (place / 8 % 2) as u8;
    }
    let ones = all[sync - 15..sync].iter().all(|bit| *bit == 1);
    ones && (15..all.len()).all(|i| all[i] == all[i - 14] ^ all[i - 15])
}

/// A call that writes so many bytes; they obey the rule, and none is changed
/// behind them.
fn write(
    bench: &mut Bench,
    maker: &mut Maker,
    number: usize,
    line: Option<&[u8]>,
    behind: usize,
) -> Result<(), Difference> {
    let format = format(number).expect("a format");
    let (name, bytes) = match line {
        Some(_) => (Name::WriteLine, format.wire_bytes),
        None => (Name::PutSync, format.sync_bits / 8),
    };
    let out = maker.noise(bytes + behind);
    let mut lent: Vec<Lent> = line.iter().map(|line| Lent::Bytes(line.to_vec())).collect();
    lent.push(Lent::Bytes(out.clone()));
    let outcome = bench.ask(&Asked {
        call: Call::new(name, &[number as u64], lent),
        wanted: Some(0),
    })?;
    let after = outcome.lent.last().expect("the output").bytes();
    let (written, rest) = after.split_at(bytes);
    match obeys(&format, written, line.unwrap_or(&[])) && *rest == out[bytes..] {
        true => Ok(()),
        false => Err(Difference(format!(
            "{name:?} in format {number}, {behind} bytes behind it: not the bits of the paper"
        ))),
    }
}

/// An output, and a line, that is one byte short.
fn short(bench: &mut Bench, maker: &mut Maker, number: usize) -> Result<(), Difference> {
    let format = format(number).expect("a format");
    let asked = |name, lent: Vec<Lent>, wanted| Asked {
        call: Call::new(name, &[number as u64], lent),
        wanted: Some(wanted),
    };
    let bytes = |maker: &mut Maker, count| Lent::Bytes(maker.noise(count));
    let out = bytes(maker, format.sync_bits / 8 - 1);
    bench.ask(&asked(Name::PutSync, vec![out], SHORT_OUTPUT))?;
    for (line, less, wanted) in [
        (LINE_BYTES, 1, SHORT_OUTPUT),
        (LINE_BYTES - 1, 0, SHORT_INPUT),
        (LINE_BYTES - 1, 1, SHORT_INPUT),
    ] {
        let lent = vec![bytes(maker, line), bytes(maker, format.wire_bytes - less)];
        bench.ask(&asked(Name::WriteLine, lent, wanted))?;
    }
    Ok(())
}

pub fn run(bench: &mut Bench, maker: &mut Maker) -> Result<(), Difference> {
    for number in FORMATS {
        for (i, behind) in BEHIND.into_iter().enumerate() {
            write(bench, maker, number, None, behind)?;
            let line = match i {
                0 => vec![0x00; LINE_BYTES],
                1 => vec![0xFF; LINE_BYTES],
                _ => maker.noise(LINE_BYTES + i % 2),
            };
            write(bench, maker, number, Some(&line), behind)?;
        }
        short(bench, maker, number)?;
    }
    Ok(())
}
