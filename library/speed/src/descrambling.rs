//! Descrambling and scrambling by words, beside the same algorithm in Rust and
//! bit by bit; the reader at every offset of the lines against the bytes; and
//! what a step of so many bits takes.

use crate::alone::Alone;
use crate::decoder::Wire;
use crate::input::Input;
use crate::library::heading;
#[cfg(feature = "before")]
use crate::ours::Before;
use crate::ours::Ours;
use crate::quick::mix;
use crate::table::beside;
use crate::theirs::Theirs;
use crate::timing::{in_turn, timed, Care, Timed, QUICK_WORK, SLOW_WORK};
use crate::work::read;
use second::damage::{shifted, Random};
use std::hint::black_box;

#[derive(Clone, Copy)]
enum Task {
    /// One line of the wire, in pieces of so many bytes.
    Read(usize),
    Write,
    Sync,
}

/// A task over a decoder in whose buffer the line stands.
fn over<'a, W: Wire + 'a>(mut wire: W, care: Care, task: Task, input: &'a Input) -> Timed<'a> {
    wire.made().line.copy_from_slice(&input.line);
    timed(care, move || match task {
        Task::Read(piece) => read(&mut wire, black_box(&input.wire), 0, piece, |_| 0),
        Task::Write => wire.write_line(),
        Task::Sync => wire.put_sync(),
    })
}

fn table(name: &str, format: u8, task: Task) {
    let input = &Input::new(format, 9);
    let rows = vec![
        (
            "the library",
            over(Ours::new(format), QUICK_WORK, task, input),
        ),
        #[cfg(feature = "before")]
        (
            "the library before",
            over(Before::new(format), QUICK_WORK, task, input),
        ),
        (
            "the same algorithm in Rust",
            over(Alone::quick(format), QUICK_WORK, task, input),
        ),
        (
            "bit by bit in a loop",
            over(Alone::plain(format), SLOW_WORK, task, input),
        ),
        (
            "bit by bit, the second decoder (lists of bits)",
            over(Theirs::new(format), SLOW_WORK, task, input),
        ),
    ];
    beside(name, "ours is so many times faster", rows);
}

/// The lines begin at each bit of a byte.
fn offsets() {
    println!();
    heading(
        "| the line begins at bit | the library, ns | the same algorithm in Rust, ns | ours, in times of it |",
        "",
    );
    let good = Input::new(1, 9);
    for by in 0..8 {
        let input = Input {
            wire: shifted(&good.wire, by, &mut Random::new(1)),
            ..Input::new(1, 9)
        };
        let task = Task::Read(4096);
        let times = in_turn(vec![
            over(Ours::new(1), QUICK_WORK, task, &input),
            over(Alone::quick(1), QUICK_WORK, task, &input),
        ]);
        let (ours, same) = (times[0], times[1]);
        println!("| {by} | {ours:.0} | {same:.0} | {:.2} |", ours / same);
    }
}

type Mix = fn(&mut [u8], usize, usize, usize, u16) -> u16;

/// One line from the fifteen ones on, in place: it is turned to and fro.
fn mixed<'a>(care: Care, mix: Mix) -> Timed<'a> {
    let mut line = Input::new(1, 9).line;
    let bits = 8 * line.len();
    timed(care, move || {
        mix(
            black_box(&mut line),
            0,
            bits,
            black_box(0),
            black_box(0x7fff),
        )
        .into()
    })
}

fn steps() {
    let rows = vec![
        ("64 bits a step", mixed(QUICK_WORK, mix::by_words)),
        ("32 bits a step", mixed(QUICK_WORK, mix::by_halves)),
        ("8 bits a step", mixed(QUICK_WORK, mix::by_bytes)),
        ("bit by bit", mixed(SLOW_WORK, mix::by_bits)),
    ];
    beside(
        "one line descrambled in place, in Rust",
        "in times of 64",
        rows,
    );
}

pub fn print() {
    let pieces = Task::Read(4096);
    table(
        "reader, one line in pieces of 4,096 bytes, format 1",
        1,
        pieces,
    );
    table(
        "reader, one line in pieces of 4,096 bytes, format 2",
        2,
        pieces,
    );
    table(
        "reader, one line in pieces of 1 byte, format 1",
        1,
        Task::Read(1),
    );
    table(
        "reader, one line in one piece, format 1",
        1,
        Task::Read(45_606),
    );
    table("write_line, format 1", 1, Task::Write);
    table("write_line, format 2", 2, Task::Write);
    table("put_sync, format 1", 1, Task::Sync);
    offsets();
    steps();
}

#[cfg(test)]
mod tests {
    use super::*;

    /// All do the same: the same sums, and the same in every buffer.
    #[test]
    fn all_do_the_same() {
        for format in [1, 2, 3] {
            let input = Input::new(format, 9);
            let (mut ours, mut theirs) = (Ours::new(format), Theirs::new(format));
            let (mut quick, mut plain) = (Alone::quick(format), Alone::plain(format));
            for piece in [1, 7, 4096, 49_500] {
                let lines = [
                    read(&mut ours, &input.wire, 0, piece, |_| 0),
                    read(&mut theirs, &input.wire, 0, piece, |_| 0),
                    read(&mut quick, &input.wire, 0, piece, |_| 0),
                    read(&mut plain, &input.wire, 0, piece, |_| 0),
                ];
                assert_eq!(lines, [1; 4]);
                assert!(ours.made().line == input.line);
            }
            let counts = [
                ours.write_line(),
                theirs.write_line(),
                quick.write_line(),
                plain.write_line(),
            ];
            assert_eq!(counts, [input.wire.len(); 4]);
            let all = [ours.made(), theirs.made(), quick.made(), plain.made()];
            assert!(all.iter().all(|made| *made == all[0]));
            assert!(all[0].wire.starts_with(&input.wire));

            let syncs = [
                ours.put_sync(),
                theirs.put_sync(),
                quick.put_sync(),
                plain.put_sync(),
            ];
            assert_eq!(syncs, [syncs[0]; 4]);
            let all = [ours.made(), theirs.made(), quick.made(), plain.made()];
            assert!(all.iter().all(|made| *made == all[0]));
        }
    }
}
