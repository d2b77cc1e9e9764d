//! What several tests need.

use harness::bench::{Bench, Difference};
use harness::call::{Call, Outcome};
use harness::expected::expected;
use harness::make::Maker;

/// What a suite, with a maker of its own, says of a library that does as the right
/// one, but for what is done to a call before it and to its outcome behind it.
pub fn said_by(
    suite: fn(&mut Bench, &mut Maker) -> Result<(), Difference>,
    maker: u64,
    before: fn(&mut Call),
    behind: fn(&Call, &mut Outcome),
) -> String {
    let mut bench = Bench::of(move |call| {
        let mut handed = call.clone();
        before(&mut handed);
        let mut outcome = expected(&handed);
        behind(call, &mut outcome);
        outcome
    });
    match suite(&mut bench, &mut Maker::new(maker)) {
        Ok(()) => "nothing".to_string(),
        Err(difference) => difference.0,
    }
}
