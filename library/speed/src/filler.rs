//! The count of filler bits, beside others of the same in Rust.

use crate::table::beside;
use crate::timing::{timed, Timed, QUICK_WORK};
use crate::words;
use second::damage::Random;
use second::sectors;
use std::fmt::Debug;
use std::hint::black_box;

/// The filler bits of the sectors from the first to the last number. What a
/// count could be prepared for is hidden from it.
fn count<'a, E: Debug>(
    line: &'a [u8],
    (first, last): (u8, u8),
    filler: impl Fn(u8, &[u8], u8) -> Result<usize, E> + 'a,
) -> Timed<'a> {
    let one = move |sector| filler(black_box(1), black_box(line), sector).expect("a whole line");
    timed(QUICK_WORK, move || (first..=last).map(&one).sum())
}

fn table(name: &str, line: &[u8], these: (u8, u8)) {
    let second = |format: u8, line: &[u8], s: u8| sectors::filler(format.into(), line, s.into());
    let rows = vec![
        ("the library", count(line, these, hansobrik::filler)),
        #[cfg(feature = "before")]
        ("the library before", count(line, these, before::filler)),
        (
            "the same algorithm in Rust",
            count(line, these, words::by_steps),
        ),
        (
            "the same with `count_ones`",
            count(line, these, words::by_count_ones),
        ),
        ("bit by bit in a loop", count(line, these, words::by_bits)),
        (
            "bit by bit, the second decoder (a list of bits)",
            count(line, these, second),
        ),
    ];
    beside(name, "ours is so many times faster", rows);
}

/// The line is noise: about half of its filler bits are set. No sector of it is
/// accepted, but a count does not ask that.
pub fn print() {
    let line = Random::new(1).bytes(hansobrik::LINE_BYTES);
    table("filler, all twelve", &line, (1, 12));
    table("filler, sector 1, from a byte edge on", &line, (1, 1));
    table("filler, sector 9, from bit 6 of a byte on", &line, (9, 9));
}
