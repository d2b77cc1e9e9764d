//! The table of works.

use crate::input::Input;
use crate::library::{heading, library, over, split};
use crate::theirs::Theirs;
use crate::timing::{copy, in_turn, Timed, QUICK_WORK, SLOW_WORK};
use crate::work::{exactly, Work};
use second::sectors::SECTORS;

/// One line lasts 600 ms on the wire.
pub const LINE_NANOSECONDS: f64 = 600e6;

/// Bytes that the sectors from the first to the last number stand in.
fn sector_bytes(first: usize, last: usize) -> usize {
    let bits: usize = SECTORS[first - 1..last].iter().map(|s| s.bits).sum();
    bits.div_ceil(8)
}

/// Bytes that a work looks at, for the rate and the copy beside it.
fn bytes_in(work: Work, input: &Input) -> usize {
    match work {
        Work::Read { .. } | Work::ReadCleared { .. } | Work::Line => input.wire.len(),
        Work::Accepted(first, last) => sector_bytes(first.into(), last.into()),
        Work::Filler(first, last) => 256 * usize::from(last - first + 1),
        Work::Joined(last) => usize::from(last) * (sector_bytes(2, 2) + sector_bytes(9, 9)),
        Work::Strip => sector_bytes(5, 8),
        Work::Write => input.line.len(),
        Work::PutPixels => input.narrow.iter().map(Vec::len).sum::<usize>() + 2 * 2291,
        // The sector is tested, then a segment of each block compared.
        Work::FirstCopies | Work::LaterCopies => 5 * sector_bytes(1, 1),
    }
}

fn row(name: &str, format: u8, work: Work) {
    let input = Input::new(format, 9);
    let mut works = library(format, QUICK_WORK, work, &input);
    works.push(over(Theirs::new(format), SLOW_WORK, work, &input));
    let mut times = in_turn(works);
    let other = times.pop().expect("the second decoder's");
    let (mine, before) = split(&times);

    let bytes = bytes_in(work, &input);
    let copied = copy(bytes);
    println!(
        "| {name} | {bytes} | {mine:.0} | {:.1} | {other:.0} | {:.1} | {copied:.0} | {:.1} | {:.4} % |{before}",
        bytes as f64 * 1e3 / mine,
        other / mine,
        mine / copied,
        100.0 * mine / LINE_NANOSECONDS,
    );
}

/// Several ways to do a work, in turn: what each takes, and in times of the
/// first one.
pub fn beside(name: &str, times_first: &str, rows: Vec<(&str, Timed)>) {
    let (names, works): (Vec<&str>, Vec<Timed>) = rows.into_iter().unzip();
    let times = in_turn(works);
    println!();
    heading(&format!("| {name} | ns | {times_first} |"), "");
    for (name, time) in names.iter().zip(&times) {
        println!("| {name} | {time:.0} | {:.2} |", time / times[0]);
    }
}

pub fn print() {
    heading(
        "| work | bytes | ns | MB/s | second, ns | times ours | copy, ns | ours, in copies | of 600 ms |",
        " before, ns | before / now |",
    );
    row(
        "reader, one line in pieces of 4,096 bytes, format 1",
        1,
        exactly(4096),
    );
    row(
        "the same, the line buffer cleared first",
        1,
        Work::ReadCleared { piece: 4096 },
    );
    row("reader, pieces of 1 byte, format 1", 1, exactly(1));
    row("reader, one piece, format 1", 1, exactly(45_606));
    row("reader, pieces of 4,096 bytes, format 2", 2, exactly(4096));
    row("accepted, DOC", 1, Work::Accepted(1, 1));
    row("accepted, IR1 upper", 1, Work::Accepted(2, 2));
    row("accepted, VIS1", 1, Work::Accepted(5, 5));
    row("accepted, IR1 lower", 1, Work::Accepted(9, 9));
    row("accepted, IR4", 1, Work::Accepted(12, 12));
    row("accepted, all twelve", 1, Work::Accepted(1, 12));
    row("filler, all twelve", 1, Work::Filler(1, 12));
    row("joined, one channel", 1, Work::Joined(1));
    row("joined, three channels", 1, Work::Joined(3));
    row("strip", 1, Work::Strip);
    row("write_line, format 1", 1, Work::Write);
    row("write_line, format 2", 2, Work::Write);
    row("put_pixels, sectors 2 to 12", 1, Work::PutPixels);
    row(
        "add_segment, five blocks, first copies",
        1,
        Work::FirstCopies,
    );
    row(
        "add_segment, five blocks, later copies",
        1,
        Work::LaterCopies,
    );
    row("the whole line", 1, Work::Line);
}
