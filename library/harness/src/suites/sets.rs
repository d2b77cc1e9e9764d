//! Every call with every set of its faults: the first in the header's order is
//! given.

use crate::bench::{Bench, Difference};
use crate::faults::Faults;
use crate::make::Maker;
use crate::rows::ROWS;

/// So often with each set.
const TIMES: usize = 4;

pub fn run(bench: &mut Bench, maker: &mut Maker) -> Result<(), Difference> {
    for row in &ROWS {
        for faults in Faults::sets(row) {
            for _ in 0..TIMES {
                bench.ask(&maker.planned(row.name, &faults))?;
            }
        }
    }
    Ok(())
}
