//! The library's works beside those of the library at an earlier commit, where
//! `library/speed/before` built the program with that one. Else there is the
//! library alone, and no column more.

use crate::decoder::Decoder;
use crate::input::Input;
#[cfg(feature = "before")]
use crate::ours::Before;
use crate::ours::Ours;
use crate::timing::{timed, Care, Timed};
use crate::work::Work;

/// A work over a decoder in whose buffer the line stands.
pub fn over<'a, D: Decoder + 'a>(
    mut decoder: D,
    care: Care,
    work: Work,
    input: &'a Input,
) -> Timed<'a> {
    decoder.made().line.copy_from_slice(&input.line);
    timed(care, move || work.run(&mut decoder, input))
}

/// A work over the library, and behind it over the earlier one.
pub fn library<'a>(format: u8, care: Care, work: Work, input: &'a Input) -> Vec<Timed<'a>> {
    vec![
        over(Ours::new(format), care, work, input),
        #[cfg(feature = "before")]
        over(Before::new(format), care, work, input),
    ]
}

/// The library's own time among those of its works, and the columns that the
/// earlier one adds.
pub fn split(times: &[f64]) -> (f64, String) {
    let more = times[1..].iter();
    let more = more.map(|before| format!(" {before:.0} | {:.2} |", before / times[0]));
    (times[0], more.collect())
}

/// The head of a table, and what the earlier library's columns are called.
pub fn heading(columns: &str, before: &str) {
    let before = if cfg!(feature = "before") { before } else { "" };
    let count = columns.matches('|').count() + before.matches('|').count() - 1;
    println!("{columns}{before}");
    println!("{}|", "|---".repeat(count));
}
