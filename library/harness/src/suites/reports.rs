//! Reports of passes. What each must be is known from the lines that went in, from
//! the records themselves and from document 02, without the second decoder.

use second::bits::set_bit;
use second::format::LINE_BYTES;
use second::refusal;
use second::sectors::{self, FILLER_BITS, IR_PIXELS, SECTORS};

use crate::bench::{Bench, Difference};
use crate::call::{Call, Lent};
use crate::make::{Asked, Maker};
use crate::pool::{from_ones, FORMATS};
use crate::report::{Report, ACCEPTED, COUNT, FILLER, ID, LARGEST, LEAST, PRESENT, REMAINDER, SUM};
use crate::report::{LINE_FILLER, LINE_PIXELS, LINE_SUM, MOST_LINES, WRONG_MARKS};
use crate::rows::Name;

/// Lines of each of the two passes of a format.
const LINES: usize = 6;

/// So many records that no lines make, and so many threes of them.
const MADE_UP: usize = 4;
const THREES: usize = 30;

/// A line, and what a report must have of it.
struct Sent {
    line: Vec<u8>,
    /// Of each sector: 0, 5 or 6.
    answers: [u8; 12],
    /// Set filler bits of each sector.
    filler: [u64; 12],
    /// Of IR1 to IR4, whether they are accepted or not.
    pixels: [Vec<u16>; 4],
}

/// Pixels of ten bits: all the same, all but one, or any.
fn some_pixels(maker: &mut Maker) -> Vec<u16> {
    let any = maker.dice.under(1_024) as u16;
    let same = maker.dice.pick(&[0, 1_023, any]);
    let mut pixels = vec![same; IR_PIXELS];
    match maker.dice.under(3) {
        0 => (),
        1 => {
            let place = maker.a_place_in(IR_PIXELS);
            pixels[place] = maker.dice.under(1_024) as u16;
        }
        _ => {
            let low = maker.dice.under(1_024);
            let high = maker.dice.between(low, 1_023);
            for pixel in &mut pixels {
                *pixel = maker.dice.between(low, high) as u16;
            }
        }
    }
    pixels
}

/// A line of a format whose sectors are judged so.
fn sent(maker: &mut Maker, format: usize, answers: [u8; 12]) -> Sent {
    let mut line = maker.good_line(format as u64);
    let pixels = [(); 4].map(|()| some_pixels(maker));
    let mut put = |sector: usize, pixels: Vec<u16>| {
        sectors::put_pixels(format, &mut line, sector, &pixels).expect("they fit");
    };
    for (channel, pixels) in (1..=3).zip(&pixels) {
        put(channel + 1, pixels.iter().map(|pixel| pixel / 4).collect());
        put(channel + 8, pixels.iter().map(|pixel| pixel % 4).collect());
    }
    put(12, pixels[3].clone());

    let mut filler = [0; 12];
    for (index, count) in filler.iter_mut().enumerate() {
        let any = maker.dice.under(FILLER_BITS + 1);
        let set = maker.dice.pick(&[0, 0, 1, FILLER_BITS, any]);
        let first = maker.dice.under(FILLER_BITS);
        for place in (first..first + set).map(|place| place % FILLER_BITS) {
            set_bit(&mut line, SECTORS[index].filler_start() + place, 1);
        }
        *count = set as u64;
    }
    for (sector, answer) in (1..).zip(answers) {
        match answer {
            5 => maker.wrong_check(&mut line, sector),
            6 => maker.pool.break_id(&mut line, sector, &mut maker.dice),
            _ => (),
        }
    }
    Sent {
        line,
        answers,
        filler,
        pixels,
    }
}

/// Answers by the dice; of every second line most sectors are accepted.
fn some_answers(maker: &mut Maker, k: usize) -> [u8; 12] {
    let of: &[u8] = match k % 2 {
        0 => &[0, 0, 0, 0, 0, 5, 6],
        _ => &[0, 5, 6],
    };
    [0; 12].map(|_: u8| maker.dice.pick(of))
}

impl Sent {
    /// The pixels that count: of IR1 to IR3 both sectors are accepted, of IR4 its
    /// own.
    fn counted(&self, channel: usize) -> Option<&[u16]> {
        let needed: &[usize] = match channel {
            4 => &[12],
            _ => &[channel + 1, channel + 8],
        };
        let accepted = needed.iter().all(|sector| self.answers[sector - 1] == 0);
        accepted.then_some(&self.pixels[channel - 1])
    }

    /// The report of this line alone.
    fn report(&self) -> Report {
        let mut report = Report {
            lines: 1,
            ..Report::default()
        };
        for (index, sector) in report.sectors.iter_mut().enumerate() {
            let place = match self.answers[index] {
                refusal::REMAINDER => REMAINDER,
                refusal::ID => ID,
                _ => ACCEPTED,
            };
            sector[place] = 1;
            sector[FILLER] = self.filler[index];
        }
        for (number, channel) in (1..).zip(&mut report.channels) {
            if let Some(pixels) = self.counted(number) {
                let numbers = pixels.iter().copied().map(u64::from);
                channel[COUNT] = pixels.len() as u64;
                channel[SUM] = numbers.clone().sum();
                channel[LEAST] = numbers.clone().min().expect("pixels");
                channel[LARGEST] = numbers.max().expect("pixels");
                channel[PRESENT] = 1;
            }
        }
        report
    }
}

/// Two records added: of least and largest those that are present.
fn added(a: &Report, b: &Report) -> Report {
    let mut sum = a.clone();
    sum.lines += b.lines;
    for (sector, other) in sum.sectors.iter_mut().zip(&b.sectors) {
        for (number, other) in sector.iter_mut().zip(other) {
            *number += other;
        }
    }
    for (channel, other) in sum.channels.iter_mut().zip(&b.channels) {
        let [least, largest, present] = match (channel[PRESENT], other[PRESENT]) {
            (0, 0) => [0, 0, 0],
            (0, _) => [other[LEAST], other[LARGEST], 1],
            (_, 0) => [channel[LEAST], channel[LARGEST], 1],
            _ => [
                channel[LEAST].min(other[LEAST]),
                channel[LARGEST].max(other[LARGEST]),
                1,
            ],
        };
        let [count, total] = [channel[COUNT] + other[COUNT], channel[SUM] + other[SUM]];
        *channel = [count, total, least, largest, present];
    }
    sum
}

fn line_call(format: usize, report: &Report, line: &[u8]) -> Call {
    let numbers = [&[format as u64], &report.numbers()[..]].concat();
    Call::new(Name::WithLine, &numbers, vec![Lent::Bytes(line.to_vec())])
}

fn both_call(first: &Report, second: &Report) -> Call {
    let numbers = [first.numbers(), second.numbers()].concat();
    Call::new(Name::Together, &numbers, vec![])
}

/// A call that must be refused with this number, or served.
fn asked(bench: &mut Bench, call: Call, wanted: u8) -> Result<Report, Difference> {
    let wanted = Some(wanted);
    let outcome = bench.ask(&Asked { call, wanted })?;
    Ok(Report::of(&outcome.numbers[1..]))
}

/// A call that must be served with this report.
fn gives(bench: &mut Bench, call: Call, wanted: &Report) -> Result<(), Difference> {
    let given = asked(bench, call, 0)?;
    match given == *wanted {
        true => Ok(()),
        false => Err(Difference(format!(
            "a report is {given:?}, made for {wanted:?}"
        ))),
    }
}

/// With one line more a report is this one.
fn after(
    bench: &mut Bench,
    format: usize,
    before: &Report,
    sent: &Sent,
) -> Result<Report, Difference> {
    let wanted = added(before, &sent.report());
    gives(bench, line_call(format, before, &sent.line), &wanted)?;
    Ok(wanted)
}

/// Two passes line by line; the second behind the first, and both put together.
fn passes(bench: &mut Bench, maker: &mut Maker, format: usize) -> Result<(), Difference> {
    let outcome = bench.call(Call::new(Name::EmptyReport, &[], vec![]))?;
    let none = Report::of(&outcome.numbers);
    if none != Report::default() {
        return Err(Difference(format!("the report of no line is {none:?}")));
    }
    let (mut first, mut second) = (none.clone(), none);
    for k in 0..LINES {
        let answers = some_answers(maker, k);
        let sent = sent(maker, format, answers);
        first = after(bench, format, &first, &sent)?;
    }
    let mut whole = first.clone();
    for k in 0..LINES {
        let answers = some_answers(maker, k);
        let sent = sent(maker, format, answers);
        second = after(bench, format, &second, &sent)?;
        whole = after(bench, format, &whole, &sent)?;
    }
    gives(bench, both_call(&first, &second), &whole)?;
    gives(bench, both_call(&second, &first), &whole)
}

/// One half of each pair alone, IR4, and lines that are all refused.
fn halves(bench: &mut Bench, maker: &mut Maker, format: usize) -> Result<(), Difference> {
    let mut report = Report::default();
    for refused in [2, 3, 4, 9, 10, 11, 12] {
        let mut answers = [0; 12];
        answers[refused - 1] = maker.dice.pick(&[5, 6]);
        let sent = sent(maker, format, answers);
        report = after(bench, format, &report, &sent)?;
        after(bench, format, &Report::default(), &sent)?;
    }
    for number in [5, 6] {
        let sent = sent(maker, format, [number; 12]);
        report = after(bench, format, &report, &sent)?;
        // what stands beside a mark of 0 is no least and no largest
        after(bench, format, &odd(3), &sent)?;
    }
    Ok(())
}

/// A line of the other card: every sector is refused with 5, and its filler counts.
fn other_card(bench: &mut Bench, maker: &mut Maker, format: usize) -> Result<(), Difference> {
    let other = if from_ones(format) { 1 } else { 3 };
    let mut sent = sent(maker, format, [0; 12]);
    after(bench, format, &Report::default(), &sent)?;
    sent.answers = [refusal::REMAINDER; 12];
    after(bench, other, &Report::default(), &sent).map(|_| ())
}

/// A possible record with a least and a largest beside marks of 0.
fn odd(lines: u64) -> Report {
    let mut report = Report::accepted(lines);
    for (i, channel) in (0..).zip(&mut report.channels) {
        let count = i.min(lines);
        *channel = [count, 2 * count, 700 + i, 300 + i, 0];
    }
    report
}

/// A record with as much of everything as its lines allow.
fn brim(lines: u64) -> Report {
    let channel = [LINE_PIXELS * lines, LINE_SUM * lines, 1_023, 1_023, 1];
    Report {
        lines,
        sectors: [[lines, 0, 0, LINE_FILLER * lines]; 12],
        channels: [channel; 4],
    }
}

/// Records that no lines make, with a line more.
fn made_up(bench: &mut Bench, maker: &mut Maker, format: usize) -> Result<(), Difference> {
    for _ in 0..MADE_UP {
        let report = maker.report_up_to(MOST_LINES - 1);
        let answers = some_answers(maker, 0);
        let sent = sent(maker, format, answers);
        after(bench, format, &report, &sent)?;
    }
    Ok(())
}

/// In any order and in any groups, and with the report of no line.
fn laws(bench: &mut Bench, maker: &mut Maker) -> Result<(), Difference> {
    let none = Report::default();
    for _ in 0..THREES {
        let [a, b, c] = [(); 3].map(|()| maker.report_up_to(MOST_LINES / 3));
        let (ab, bc) = (added(&a, &b), added(&b, &c));
        gives(bench, both_call(&a, &b), &ab)?;
        gives(bench, both_call(&b, &a), &ab)?;
        gives(bench, both_call(&b, &c), &bc)?;
        let all = asked(bench, both_call(&ab, &c), 0)?;
        gives(bench, both_call(&a, &bc), &all)?;
        let alone = asked(bench, both_call(&a, &none), 0)?;
        gives(bench, both_call(&none, &a), &alone)?;
        gives(bench, both_call(&alone, &none), &alone)?;
    }
    Ok(())
}

/// A record that is refused with 12 wherever it is handed in, and before 15 and 2.
fn impossible(bench: &mut Bench, wrong: &Report, line: &[u8]) -> Result<(), Difference> {
    let (none, full) = (Report::default(), brim(MOST_LINES));
    for (format, line) in [(1, line), (2, &line[..1]), (3, &[])] {
        asked(bench, line_call(format, wrong, line), refusal::STATE)?;
    }
    asked(bench, line_call(0, wrong, &[]), refusal::FORMAT)?;
    for other in [&none, &full, wrong] {
        asked(bench, both_call(wrong, other), refusal::STATE)?;
        asked(bench, both_call(other, wrong), refusal::STATE)?;
    }
    Ok(())
}

/// Each clause of 12 at its edge, where the record is served, and one above.
fn edges(bench: &mut Bench, line: &[u8]) -> Result<(), Difference> {
    let none = Report::default();
    for lines in [0, 3, MOST_LINES] {
        let brim = brim(lines);
        gives(bench, both_call(&brim, &none), &added(&brim, &none))?;
        gives(bench, both_call(&none, &brim), &added(&brim, &none))?;
        for sector in 0..12 {
            for place in [ACCEPTED, REMAINDER, ID, FILLER] {
                let mut wrong = brim.clone();
                wrong.sectors[sector][place] += 1;
                impossible(bench, &wrong, line)?;
            }
            // each way to add up to the lines is served, and one line less is not
            for place in [REMAINDER, ID] {
                let mut other = brim.clone();
                other.sectors[sector].swap(ACCEPTED, place);
                gives(bench, both_call(&other, &none), &added(&other, &none))?;
                if lines > 0 {
                    other.sectors[sector][place] -= 1;
                    impossible(bench, &other, line)?;
                }
            }
            // together the lines, where a sum is cut to 64 bits
            for counts in [
                [u64::MAX, lines + 1, 0],
                [lines + 1, u64::MAX, 0],
                [1 << 63, lines, 1 << 63],
                [u64::MAX, u64::MAX, lines + 2],
            ] {
                let mut wrong = brim.clone();
                wrong.sectors[sector][..3].copy_from_slice(&counts);
                impossible(bench, &wrong, line)?;
            }
        }
        for channel in 0..4 {
            for place in [COUNT, SUM] {
                let mut wrong = brim.clone();
                wrong.channels[channel][place] += 1;
                impossible(bench, &wrong, line)?;
            }
            for mark in WRONG_MARKS {
                let mut wrong = brim.clone();
                wrong.channels[channel][PRESENT] = mark;
                impossible(bench, &wrong, line)?;
            }
        }
    }
    for over in [MOST_LINES + 1, 1 << 32, 1 << 63, u64::MAX] {
        impossible(bench, &Report::accepted(over), line)?;
    }
    Ok(())
}

/// 15 at its edge: one line more, and two records.
fn limit(bench: &mut Bench, maker: &mut Maker, format: usize) -> Result<(), Difference> {
    let sent = sent(maker, format, [0; 12]);
    let short = &sent.line[..LINE_BYTES - 1];
    for make in [brim, odd, Report::accepted] {
        let (last, full) = (make(MOST_LINES - 1), make(MOST_LINES));
        after(bench, format, &last, &sent)?;
        let all = line_call(format, &full, &sent.line);
        asked(bench, all, refusal::FULL)?;
        asked(bench, line_call(format, &full, short), refusal::FULL)?;
        asked(bench, line_call(0, &full, short), refusal::FORMAT)?;
        asked(bench, line_call(format, &last, short), refusal::SHORT_INPUT)?;

        for first in [0, 1, 2, 50_000, MOST_LINES - 1, MOST_LINES] {
            let (a, b) = (make(first), make(MOST_LINES - first));
            gives(bench, both_call(&a, &b), &added(&a, &b))?;
            for (more, other) in [
                (first + 1, MOST_LINES - first),
                (first, MOST_LINES + 1 - first),
            ] {
                if more <= MOST_LINES && other <= MOST_LINES {
                    asked(bench, both_call(&make(more), &make(other)), refusal::FULL)?;
                }
            }
        }
    }
    Ok(())
}

pub fn run(bench: &mut Bench, maker: &mut Maker) -> Result<(), Difference> {
    for format in FORMATS {
        passes(bench, maker, format)?;
        halves(bench, maker, format)?;
        other_card(bench, maker, format)?;
        made_up(bench, maker, format)?;
        limit(bench, maker, format)?;
    }
    laws(bench, maker)?;
    let line = maker.good_line(1);
    edges(bench, &line)
}
