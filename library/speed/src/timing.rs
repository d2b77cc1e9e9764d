//! Times of works: the median of several runs, of several works in turn.

use std::hint::black_box;
use std::time::{Duration, Instant};

/// How often and how long.
#[derive(Clone, Copy)]
pub struct Care {
    /// Runs, of which the middle one counts.
    pub runs: usize,
    /// What a run lasts at least: a short work is done many times in it.
    pub least: Duration,
}

pub const QUICK_WORK: Care = Care {
    runs: 15,
    least: Duration::from_millis(20),
};

/// The second decoder takes long for one line already.
pub const SLOW_WORK: Care = Care {
    runs: 5,
    least: Duration::from_millis(20),
};

/// A work to be timed.
pub struct Timed<'a> {
    care: Care,
    run: Run<'a>,
}

/// Does a work so many times: how long that took, and the last sum.
type Run<'a> = Box<dyn FnMut(u32) -> (Duration, usize) + 'a>;

/// The work's number sums up what came out. The loop stands inside the box, so
/// that a work is not called through it.
pub fn timed<'a>(care: Care, mut work: impl FnMut() -> usize + 'a) -> Timed<'a> {
    let run = Box::new(move |times| {
        let mut sum = 0;
        let start = Instant::now();
        for _ in 0..times {
            sum = black_box(work());
        }
        (start.elapsed(), sum)
    });
    Timed { care, run }
}

impl Timed<'_> {
    /// How often it must be done in a run. Finding that out warms the machine
    /// up.
    fn times(&mut self) -> u32 {
        let mut times = 1;
        while (self.run)(times).0 < self.care.least {
            times *= 2;
        }
        times
    }
}

/// Nanoseconds that each of the works takes once. They do the same, and what
/// they give the first time is compared. Then a run of each, and again a run of
/// each: a slow moment of the machine meets them all.
pub fn in_turn(mut works: Vec<Timed>) -> Vec<f64> {
    let sums: Vec<usize> = works.iter_mut().map(|work| (work.run)(1).1).collect();
    assert!(sums.iter().all(|&sum| sum == sums[0]), "sums: {sums:?}");

    let times: Vec<u32> = works.iter_mut().map(Timed::times).collect();
    let mut taken = vec![Vec::new(); works.len()];
    let rounds = works.iter().map(|work| work.care.runs).max();
    for round in 0..rounds.unwrap_or(0) {
        for (i, work) in works.iter_mut().enumerate() {
            if round < work.care.runs {
                taken[i].push((work.run)(times[i]).0);
            }
        }
    }
    let each = taken.into_iter().zip(times);
    each.map(|(all, times)| median(all).as_nanos() as f64 / f64::from(times))
        .collect()
}

fn median(mut all: Vec<Duration>) -> Duration {
    all.sort();
    all[all.len() / 2]
}

/// Nanoseconds for a copy of so many bytes.
pub fn copy(bytes: usize) -> f64 {
    let from = vec![0x5A; bytes];
    let mut to = vec![0xA5; bytes];
    let copied = timed(QUICK_WORK, || {
        black_box(&mut to[..]).copy_from_slice(black_box(&from));
        black_box(&to).len()
    });
    in_turn(vec![copied])[0]
}

#[cfg(test)]
mod tests {
    use super::*;
    use std::cell::RefCell;

    /// So many runs, each of one time: no run is shorter than nothing.
    fn runs(runs: usize) -> Care {
        Care {
            runs,
            least: Duration::ZERO,
        }
    }

    #[test]
    fn one_after_the_other() {
        let order = RefCell::new(String::new());
        let letter = |care, letter| {
            timed(care, {
                let order = &order;
                move || {
                    order.borrow_mut().push(letter);
                    1
                }
            })
        };
        in_turn(vec![letter(runs(3), 'a'), letter(runs(2), 'b')]);
        // The sums, then how often, then three rounds; b is done after two.
        assert_eq!(order.into_inner(), "ababababa");
    }

    #[test]
    #[should_panic(expected = "sums: [1, 2]")]
    fn different_sums() {
        in_turn(vec![timed(runs(1), || 1), timed(runs(1), || 2)]);
    }

    #[test]
    fn the_middle_one() {
        let all = [5, 1, 9].map(Duration::from_secs).to_vec();
        assert_eq!(median(all), Duration::from_secs(5));
    }

    /// A work of a millisecond, by a clock of its own: a run has many of them,
    /// and the time is that of one.
    #[test]
    fn of_one_time() {
        let millisecond = Timed {
            care: SLOW_WORK,
            run: Box::new(|times| (Duration::from_millis(1) * times, 0)),
        };
        assert_eq!(in_turn(vec![millisecond]), [1e6]);
    }
}
