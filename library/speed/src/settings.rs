//! The reader at its settings. What a setting costs is the search for a tail,
//! so beside a line of each format there is noise, in which none comes.

use crate::alone::Alone;
use crate::decoder::Wire;
use crate::input::Input;
#[cfg(feature = "before")]
use crate::ours::Before;
use crate::ours::Ours;
use crate::table::beside;
use crate::theirs::Theirs;
use crate::timing::{timed, Care, Timed, QUICK_WORK, SLOW_WORK};
use crate::work;
use second::damage::Random;
use std::hint::black_box;

fn read<'a, W: Wire + 'a>(mut wire: W, care: Care, setting: u8, input: &'a Input) -> Timed<'a> {
    timed(care, move || {
        work::read(&mut wire, black_box(&input.wire), setting, 4096, |_| 0)
    })
}

fn table(name: &str, format: u8, input: &Input) {
    let ours = |setting| read(Ours::new(format), QUICK_WORK, setting, input);
    let same = |setting| read(Alone::quick(format), QUICK_WORK, setting, input);
    let theirs = |setting| read(Theirs::new(format), SLOW_WORK, setting, input);
    let rows = vec![
        ("setting 0", ours(0)),
        ("setting 4", ours(4)),
        ("setting 6", ours(6)),
        #[cfg(feature = "before")]
        (
            "setting 0, before",
            read(Before::new(format), QUICK_WORK, 0, input),
        ),
        ("setting 0, the same algorithm in Rust", same(0)),
        ("setting 4, the same algorithm in Rust", same(4)),
        ("setting 6, the same algorithm in Rust", same(6)),
        ("setting 0, the second decoder", theirs(0)),
        ("setting 6, the second decoder", theirs(6)),
    ];
    beside(name, "in times of setting 0", rows);
}

pub fn print() {
    for (name, format) in [
        ("reader, one line, format 1", 1),
        ("reader, one line, format 2", 2),
    ] {
        table(name, format, &Input::new(format, 9));
    }
    let noise = Input {
        wire: Random::new(1).bytes(hansobrik::WIRE_BYTES_1),
        ..Input::new(1, 9)
    };
    table("reader, noise as long as a line of format 1", 1, &noise);
}
