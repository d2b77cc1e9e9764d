//! Two cards: what is written in a format whose check starts from 0 is refused
//! with 5 in one whose check starts from ones, and the other way round, in every
//! sector and by every call that tests one. What must come is known from the
//! making and from document 02, without the second decoder.

use second::blocks::CALIBRATION_2;
use second::format::LINE_BYTES;
use second::refusal;
use second::sectors::SECTORS;

use crate::bench::{Bench, Difference};
use crate::call::{Call, Lent};
use crate::faults::Faults;
use crate::make::{Asked, Maker};
use crate::pool::{from_ones, FORMATS};
use crate::rows::{Name, ROWS};

/// So many calls of each name in each format.
const TIMES: usize = 2;

/// What a sector that was written in one format is refused with in another.
fn number(written: usize, asked: usize) -> u8 {
    match from_ones(written) == from_ones(asked) {
        true => 0,
        false => refusal::REMAINDER,
    }
}

/// Document 02: the start values, and that a number other than 1, 2, 3 is
/// refused. A DOC sector of zeros has the check word 0000, in format 3 9063.
fn known(bench: &mut Bench) -> Result<(), Difference> {
    for number in [0, 4, 255] {
        let call = Call::new(Name::Format, &[number], vec![]);
        let wanted = Some(refusal::FORMAT);
        bench.ask(&Asked { call, wanted })?;
    }
    for (format, start, word) in [(1, 0, 0), (2, 0, 0), (3, 0xFFFF, 0x9063)] {
        let outcome = bench.call(Call::new(Name::Format, &[format], vec![]))?;
        let said = outcome.numbers[2];
        if said != start {
            let words = format!("format {format} starts from {said:#x}, by document 02 {start:#x}");
            return Err(Difference(words));
        }
        let lent = vec![
            Lent::Bytes(vec![0xEE; LINE_BYTES]),
            Lent::Bytes(vec![0; 2_291]),
        ];
        let outcome = bench.call(Call::new(Name::PutData, &[format, 1], lent))?;
        let line = outcome.lent[0].bytes();
        let said = u16::from_be_bytes([line[2_293], line[2_294]]);
        if said != word {
            let words =
                format!("zeros have {said:04x} in format {format}, by document 02 {word:04x}");
            return Err(Difference(words));
        }
        for asked in FORMATS {
            tested(bench, line, format as usize, asked, 1)?;
        }
    }
    Ok(())
}

/// What `accepted` must say in one format of a sector that was written in
/// another.
fn tested(
    bench: &mut Bench,
    line: &[u8],
    written: usize,
    asked: usize,
    sector: usize,
) -> Result<(), Difference> {
    let lent = vec![Lent::Bytes(line.to_vec())];
    let call = Call::new(Name::Accepted, &[asked as u64, sector as u64], lent);
    let wanted = Some(number(written, asked));
    bench.ask(&Asked { call, wanted }).map(|_| ())
}

/// A good call in a format.
fn good(maker: &mut Maker, name: Name, format: usize) -> Call {
    loop {
        let call = maker.planned(name, &Faults::none()).call;
        if call.numbers[0] == format as u64 {
            return call;
        }
    }
}

/// Each format so many times.
fn formats() -> impl Iterator<Item = usize> {
    FORMATS.into_iter().cycle().take(TIMES * FORMATS.len())
}

/// Good calls of every name that tests a sector, each in all three formats.
fn read(bench: &mut Bench, maker: &mut Maker) -> Result<(), Difference> {
    let tests = |name: Name| ROWS[name as usize].refusals.contains(&refusal::REMAINDER);
    for row in ROWS.iter().filter(|row| tests(row.name)) {
        for written in formats() {
            let base = good(maker, row.name, written);
            for asked in FORMATS {
                let mut call = base.clone();
                call.numbers[0] = asked as u64;
                let block = call.numbers.last() == Some(&(CALIBRATION_2 as u64));
                let wanted = match row.name == Name::AddSegment && asked == 2 && block {
                    true => refusal::NUMBER,
                    false => number(written, asked),
                };
                let wanted = Some(wanted);
                bench.ask(&Asked { call, wanted })?;
            }
        }
    }
    Ok(())
}

/// Sectors written by each call that writes one, each tested in all three
/// formats.
fn written(bench: &mut Bench, maker: &mut Maker) -> Result<(), Difference> {
    for name in [Name::PutData, Name::PutPixels, Name::PutPixelsWide] {
        for format in formats() {
            let call = good(maker, name, format);
            let sector = call.numbers[1] as usize;
            let outcome = bench.call(call)?;
            for asked in FORMATS {
                tested(bench, outcome.lent[0].bytes(), format, asked, sector)?;
            }
        }
    }
    Ok(())
}

/// Lines that are written sector by sector, all in one format or one sector of
/// them in another: the twelve answers and the four of the strip in each format.
fn whole(bench: &mut Bench, maker: &mut Maker, format: usize) -> Result<(), Difference> {
    for foreign in 0..=SECTORS.len() {
        let other = if from_ones(format) { 1 } else { 3 };
        let mut line = maker.noise(LINE_BYTES);
        let mut formats = [format; 12];
        for (sector, format) in (1..).zip(&mut formats) {
            if sector == foreign {
                *format = other;
            }
            let data = maker.noise(SECTORS[sector - 1].data_bytes());
            let lent = vec![Lent::Bytes(line), Lent::Bytes(data)];
            let call = Call::new(Name::PutData, &[*format as u64, sector as u64], lent);
            line = std::mem::take(bench.call(call)?.lent[0].bytes_mut());
        }
        for asked in FORMATS {
            let twelve = formats.map(|written| u64::from(number(written, asked)));
            answered(bench, Name::Answers, &line, asked, &twelve)?;
            answered(bench, Name::Strip, &line, asked, &twelve[4..8])?;
        }
    }
    Ok(())
}

/// The answers of a call on a whole line are these.
fn answered(
    bench: &mut Bench,
    name: Name,
    line: &[u8],
    format: usize,
    wanted: &[u64],
) -> Result<(), Difference> {
    let mut lent = vec![Lent::Bytes(line.to_vec())];
    if name == Name::Strip {
        lent.push(Lent::Bytes(vec![0xEE; second::sectors::STRIP_BYTES]));
    }
    let outcome = bench.call(Call::new(name, &[format as u64], lent))?;
    match outcome.numbers[1..] == *wanted {
        true => Ok(()),
        false => Err(Difference(format!(
            "{name:?} in format {format} is {:?}, made for {wanted:?}",
            &outcome.numbers[1..]
        ))),
    }
}

pub fn run(bench: &mut Bench, maker: &mut Maker) -> Result<(), Difference> {
    known(bench)?;
    read(bench, maker)?;
    written(bench, maker)?;
    for format in FORMATS {
        whole(bench, maker, format)?;
    }
    Ok(())
}
