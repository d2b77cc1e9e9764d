//! Every call, every way, beside the second decoder.

use crate::call::{Call, Outcome};
use crate::compare::{broken_rule, described, difference};
use crate::expected::expected;
use crate::make::Asked;
use crate::tally::Tally;

/// A way to make a call, and its name.
pub struct Way {
    pub name: &'static str,
    pub make: Box<dyn FnMut(&Call) -> Outcome>,
}

/// The first difference found, in words. A run ends there.
#[derive(Debug)]
pub struct Difference(pub String);

pub struct Bench {
    ways: Vec<Way>,
    pub tally: Tally,
}

impl Bench {
    pub fn new(ways: Vec<Way>) -> Bench {
        Bench {
            ways,
            tally: Tally::default(),
        }
    }

    /// A bench with one way, which does as it likes: what the harness's own tests
    /// try it with.
    pub fn of(make: impl FnMut(&Call) -> Outcome + 'static) -> Bench {
        Bench::new(vec![Way {
            name: "the way tested",
            make: Box::new(make),
        }])
    }

    /// Makes a call every way and compares what comes of it. Gives the second
    /// decoder's outcome, which is that of all of them.
    pub fn ask(&mut self, asked: &Asked) -> Result<Outcome, Difference> {
        let call = &asked.call;
        let expected = expected(call);
        if let Some(words) = broken_rule(call, asked.wanted, &expected) {
            return Err(self.report(call, "the second decoder", &words));
        }
        for i in 0..self.ways.len() {
            let got = (self.ways[i].make)(call);
            let rule = || broken_rule(call, asked.wanted, &got);
            if let Some(words) = difference(call, &expected, &got).or_else(rule) {
                return Err(self.report(call, self.ways[i].name, &words));
            }
        }
        let row = call.row();
        self.tally.count(row, expected.refused(row));
        Ok(expected)
    }

    /// The same of a call that nothing was planned for.
    pub fn call(&mut self, call: Call) -> Result<Outcome, Difference> {
        self.ask(&Asked::wild(call))
    }

    fn report(&self, call: &Call, way: &str, words: &str) -> Difference {
        Difference(format!(
            "call {} of the run, {way}: {words}\n{}",
            self.tally.all() + 1,
            described(call)
        ))
    }
}
