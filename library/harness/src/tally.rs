//! How often each call was answered and refused by each number, so that one
//! sees that nothing went untested.

use crate::rows::{Row, CALLS, ORDER, ROWS};

/// Answers, and refusals up to the largest number.
const PLACES: usize = ORDER.len() + 1;

#[derive(Clone)]
pub struct Tally {
    /// For each call: answered at 0, refused by number n at n.
    counts: [[u64; PLACES]; CALLS],
}

impl Default for Tally {
    fn default() -> Tally {
        Tally {
            counts: [[0; PLACES]; CALLS],
        }
    }
}

impl Tally {
    pub fn count(&mut self, row: &Row, refused: u8) {
        self.counts[row.name as usize][usize::from(refused)] += 1;
    }

    /// What was counted since an earlier count.
    pub fn since(&self, earlier: &Tally) -> Tally {
        let mut since = self.clone();
        for (now, before) in since.counts.iter_mut().zip(&earlier.counts) {
            for (now, before) in now.iter_mut().zip(before) {
                *now -= before;
            }
        }
        since
    }

    pub fn all(&self) -> u64 {
        self.counts.iter().flatten().sum()
    }

    /// The answers and refusals of the header that did not occur.
    pub fn missing(&self) -> Vec<String> {
        let mut missing = Vec::new();
        for row in &ROWS {
            let counts = &self.counts[row.name as usize];
            for &number in [0].iter().chain(row.refusals) {
                if counts[usize::from(number)] == 0 {
                    missing.push(match number {
                        0 => format!("{} was never answered", row.text),
                        _ => format!("{} was never refused with {number}", row.text),
                    });
                }
            }
        }
        missing
    }

    /// The counts as a table; a dot where a call has no such refusal.
    pub fn table(&self) -> String {
        let mut table = format!("{:<16}{:>10}", "call", "answered");
        for number in ORDER {
            table += &format!("{number:>8}");
        }
        for row in &ROWS {
            let counts = &self.counts[row.name as usize];
            table += &format!("\n{:<16}{:>10}", row.text, counts[0]);
            for number in ORDER {
                table += &match row.refusals.contains(&number) {
                    true => format!("{:>8}", counts[usize::from(number)]),
                    false => format!("{:>8}", "."),
                };
            }
        }
        table
    }
}
