//! The report of one line, beside the twelve `accepted` that it has to make.

use crate::input::Input;
use crate::library::over;
use crate::ours::Ours;
use crate::table::beside;
use crate::theirs::Theirs;
use crate::timing::{timed, Care, Timed, QUICK_WORK, SLOW_WORK};
use crate::work::Work;
use hansobrik::report as ours;
use second::report as theirs;
use std::hint::black_box;

/// How many sectors a report of one line has accepted.
fn reported<'a>(care: Care, accepted: impl Fn(&[u8]) -> u64 + 'a, input: &'a Input) -> Timed<'a> {
    timed(care, move || accepted(black_box(&input.line)) as usize)
}

fn by_ours(line: &[u8]) -> u64 {
    let report = ours::with_line(black_box(1), &ours::empty(), line).expect("a line");
    black_box(report).sectors.iter().map(|s| s.accepted).sum()
}

fn by_theirs(line: &[u8]) -> u64 {
    let none = theirs::Report::default();
    let report = theirs::with_line(black_box(1), &none, line).expect("a line");
    black_box(report).sectors.iter().map(|s| s.accepted).sum()
}

/// The line is good, so that all its pixels count.
pub fn print() {
    let input = Input::new(1, 9);
    let accepted = Work::Accepted(1, 12);
    let rows = vec![
        (
            "`accepted`, all twelve",
            over(Ours::new(1), QUICK_WORK, accepted, &input),
        ),
        ("`with_line`", reported(QUICK_WORK, by_ours, &input)),
        (
            "`accepted`, all twelve, the second decoder",
            over(Theirs::new(1), SLOW_WORK, accepted, &input),
        ),
        (
            "`with_line`, the second decoder",
            reported(SLOW_WORK, by_theirs, &input),
        ),
    ];
    beside(
        "the report of one line",
        "in times of twelve `accepted`",
        rows,
    );
}

#[cfg(test)]
mod tests {
    use super::*;

    /// Both make the same report of a line, all of whose sectors count.
    #[test]
    fn both_make_the_same_report() {
        let line = Input::new(1, 9).line;
        assert_eq!((by_ours(&line), by_theirs(&line)), (12, 12));
        let ours = ours::with_line(1, &ours::empty(), &line).unwrap();
        let theirs = theirs::with_line(1, &theirs::Report::default(), &line).unwrap();
        for (a, b) in ours.channels.iter().zip(theirs.channels) {
            assert_eq!((a.count, a.sum), (b.count, b.sum));
            assert_eq!(a.count, 2_291);
        }
    }
}
