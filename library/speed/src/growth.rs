//! How the cost grows with the lines of a recording: per line it must not.

use crate::input::{recording, Input};
use crate::library::{heading, library, over, split};
use crate::theirs::Theirs;
use crate::timing::{in_turn, QUICK_WORK, SLOW_WORK};
use crate::work::{exactly, Work};

/// The columns of one work: the library's, the second decoder's, and those of
/// the library before; nanoseconds per line.
fn columns(work: Work, input: &Input, lines: u64) -> [String; 3] {
    let long = lines == 1000;
    let care = if long { SLOW_WORK } else { QUICK_WORK };
    let mut works = library(1, care, work, input);
    if !long {
        works.push(over(Theirs::new(1), SLOW_WORK, work, input));
    }
    let mut times = in_turn(works);
    times.iter_mut().for_each(|time| *time /= lines as f64);
    let second = if long {
        // It would take minutes, and the smaller numbers show its growth.
        " not run |".to_string()
    } else {
        let second = times.pop().expect("the second decoder's");
        format!(" {second:.0} |")
    };
    let (now, before) = split(&times);
    [format!(" {now:.0} |"), second, before]
}

pub fn print() {
    println!();
    heading(
        "| lines | reader, ns per line | whole line, ns per line | second, reader | second, whole line |",
        " before, reader | before / now | before, whole line | before / now |",
    );
    for lines in [1, 10, 100, 1000] {
        let input = Input {
            wire: recording(1, lines),
            ..Input::new(1, 0)
        };
        let alone = columns(exactly(4096), &input, lines);
        let whole = columns(Work::Line, &input, lines);
        let pairs = alone.iter().zip(&whole);
        let pairs: String = pairs
            .flat_map(|(alone, whole)| [alone.as_str(), whole])
            .collect();
        println!("| {lines} |{pairs}");
    }
}
