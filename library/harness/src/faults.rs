//! Which refusals are to apply to a call. A call is made with some of its
//! row's faults on purpose, often several, since the order in which they are
//! tested shows only then.

use crate::dice::Dice;
use crate::rows::{Row, ORDER};

#[derive(Clone, Debug, Default, PartialEq, Eq)]
pub struct Faults(Vec<u8>);

impl Faults {
    pub fn none() -> Faults {
        Faults::default()
    }

    pub fn of(numbers: &[u8]) -> Faults {
        Faults(numbers.to_vec())
    }

    /// None in half of the calls, one in a quarter, any set in the rest.
    pub fn draw(row: &Row, dice: &mut Dice) -> Faults {
        match (row.refusals, dice.under(4)) {
            ([], _) | (_, 0..=1) => Faults::none(),
            (refusals, 2) => Faults(vec![dice.pick(refusals)]),
            (refusals, _) => {
                let some = refusals.iter().copied().filter(|_| dice.one_in(2));
                Faults(some.collect())
            }
        }
    }

    /// All the sets of a row's faults.
    pub fn sets(row: &Row) -> Vec<Faults> {
        let refusals = row.refusals;
        (0..1usize << refusals.len())
            .map(|set| {
                let some = (0..refusals.len()).filter(|i| set >> i & 1 == 1);
                Faults(some.map(|i| refusals[i]).collect())
            })
            .collect()
    }

    pub fn without(&self, numbers: &[u8]) -> Faults {
        let others = self.0.iter().copied().filter(|n| !numbers.contains(n));
        Faults(others.collect())
    }

    pub fn has(&self, number: u8) -> bool {
        self.0.contains(&number)
    }

    /// The refusal that is to be given: the first in the order of testing.
    pub fn first(&self) -> u8 {
        let first = ORDER.into_iter().find(|number| self.has(*number));
        first.unwrap_or(0)
    }
}
