//! The fixed suites: what chance alone would hardly make.

mod assembling;
pub mod blocks;
pub mod desks;
pub mod ends;
pub mod fillers;
pub mod grid;
pub mod offsets;
pub mod ones;
mod reading;
mod recordings;
pub mod reports;
mod sets;
mod sweeps;
pub mod tables;
pub mod tails;
pub mod written;

use crate::bench::{Bench, Difference};
use crate::make::Maker;

/// All of them, so many times, each time with other numbers. A run of several
/// rounds has the time for every bit of every filler and for whole lines in single
/// bytes, once.
pub fn run(bench: &mut Bench, maker: &mut Maker, rounds: u64) -> Result<(), Difference> {
    for round in 0..rounds {
        sets::run(bench, maker)?;
        sweeps::run(bench, maker)?;
        recordings::run(bench, maker)?;
        tails::run(bench, maker)?;
        offsets::run(bench, maker, round == 1)?;
        ends::run(bench, maker)?;
        written::run(bench, maker)?;
        blocks::run(bench, maker)?;
        tables::run(bench, maker)?;
        ones::run(bench, maker)?;
        reports::run(bench, maker)?;
        desks::run(bench, maker)?;
        fillers::run(bench, maker, round == 1)?;
    }
    Ok(())
}
