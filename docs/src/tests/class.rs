//! The timetable of a class. What must come was worked out by hand from the words
//! in `class.rs`; the sums are those of the pattern's pixels.

mod common;

use common::outcome;
use second::{class, damage, pattern};

/// The sum of the joined pixels of IR1 in line k of the pattern.
fn sum(k: u64) -> u64 {
    let joined = |j| 4 * u64::from(pattern::pixel(2, j, k)) + u64::from(pattern::pixel(9, j, k));
    (0..2_291).map(joined).sum()
}

fn rows(format: usize, slots: usize, lags: [u64; 2], recording: &[u8]) -> Vec<String> {
    class::rows(format, 0, slots, lags, recording).unwrap().0
}

/// Two lines in two slots, preview at once and capture one line time later. The
/// slot in which the feeder finds the recording's end is never published.
#[test]
fn two_lines() {
    let text = rows(1, 2, [0, 1], &damage::good(1, 2)).join("\n");
    let (one, two) = (sum(0), sum(1));
    let expected = format!(
        "time 1 feeder takes slot 0 serial 1
time 1 feeder publishes slot 0 serial 1
time 1 preview sees slot 0 serial 1 good 12 sum {one}
time 1 preview releases slot 0 serial 1
time 2 feeder takes slot 1 serial 2
time 2 feeder publishes slot 1 serial 2
time 2 preview sees slot 1 serial 2 good 12 sum {two}
time 2 preview releases slot 1 serial 2
time 2 capture sees slot 0 serial 1 good 12 sum {one}
time 2 capture releases slot 0 serial 1
time 3 feeder takes slot 0 serial 3
time 3 capture sees slot 1 serial 2 good 12 sum {two}
time 3 capture releases slot 1 serial 2
time 3 preview releases slot 1 serial 2 refused 17
time 3 capture releases slot 1 serial 2 refused 17
waits 0
total 2"
    );
    assert_eq!(text, expected);
}

/// The feeder waits for capture; in HiRID the dummy bits behind the last line take
/// a slot that is never published. Line 1 of the damaged ones has a wrong check in
/// IR1.
#[test]
fn the_feeder_waits() {
    let mut recording = vec![];
    for k in 0..2 {
        let line = damage::damaged_line(2, k + 1).unwrap();
        recording.extend(pattern::on_the_wire(2, &line).unwrap());
    }
    let text = rows(2, 2, [2, 1], &recording).join("\n");
    let good = |k| {
        let line = damage::damaged_line(2, k).unwrap();
        let answers = second::sectors::answers(2, &line).unwrap();
        answers.iter().filter(|answer| **answer == 0).count()
    };
    let (g1, g2) = (good(1), good(2));
    let two = sum(2);
    let expected = format!(
        "time 1 feeder takes slot 0 serial 1
time 1 feeder publishes slot 0 serial 1
time 2 feeder takes slot 1 serial 2
time 2 feeder publishes slot 1 serial 2
time 2 capture sees slot 0 serial 1 good {g1} sum refused 5
time 2 capture releases slot 0 serial 1
time 3 feeder takes refused 16
time 3 preview sees slot 0 serial 1 good {g1} sum refused 5
time 3 preview releases slot 0 serial 1
time 3 capture sees slot 1 serial 2 good {g2} sum {two}
time 3 capture releases slot 1 serial 2
time 4 feeder takes slot 0 serial 3
time 4 preview sees slot 1 serial 2 good {g2} sum {two}
time 4 preview releases slot 1 serial 2
time 4 preview releases slot 1 serial 2 refused 17
time 4 capture releases slot 1 serial 2 refused 17
waits 1
total 2"
    );
    assert_eq!(text, expected);
}

/// A lag of L needs L + 1 slots if the feeder shall never wait.
#[test]
fn a_lag_and_its_slots() {
    let recording = damage::good(1, 6);
    for slots in 2..=5 {
        for lag in 0..=4 {
            let said = rows(1, slots, [0, lag as u64], &recording);
            let waits = said.contains(&"waits 0".to_string());
            assert_eq!(waits, lag < slots, "{slots} slots, lag {lag}");
            assert_eq!(said.last().unwrap(), "total 6");
        }
    }
}

/// However long it takes, each consumer sees every line once, in order.
#[test]
fn each_sees_every_line() {
    let recording = damage::good(3, 5);
    for (slots, lags) in [(2, [0, 0]), (2, [3, 7]), (4, [9, 2]), (8, [1, 1])] {
        let said = rows(3, slots, lags, &recording);
        for name in ["preview", "capture"] {
            let sees = said
                .iter()
                .filter(|row| row.contains(&format!("{name} sees")));
            let sums: Vec<String> = sees
                .map(|row| row.rsplit(' ').next().unwrap().into())
                .collect();
            let expected: Vec<String> = (0..5).map(|k| sum(k).to_string()).collect();
            assert_eq!(sums, expected);
        }
    }
}

#[test]
fn nothing_is_published() {
    assert_eq!(rows(1, 2, [0, 0], &[]), ["waits 0", "total 0"]);
    let noise = ["time 1 feeder takes slot 0 serial 1", "waits 0", "total 0"];
    assert_eq!(rows(2, 8, [5, 0], &[7; 100]), noise);
}

#[test]
fn the_program() {
    // 1,250 bytes of SYNC, and 1,000 of the second line behind its own
    let cut = damage::good(1, 2)[..45_606 + 1_250 + 1_000].to_vec();
    let expected = rows(1, 3, [0, 2], &cut).join("\n") + "\n";
    let output = outcome(&["class", "1", "0", "3", "0", "2"], cut);
    assert!(output.status.success());
    assert_eq!(String::from_utf8(output.stdout).unwrap(), expected);
    let said = "an unfinished line, 8000 of 354848 bits\n";
    assert_eq!(String::from_utf8(output.stderr).unwrap(), said);

    for (words, said) in [
        (["class", "4", "7", "9", "0", "0"], "refusal 1\n"),
        (["class", "3", "7", "9", "0", "0"], "refusal 13\n"),
        (["class", "3", "6", "9", "0", "0"], "refusal 19\n"),
        (["class", "3", "6", "1", "0", "0"], "refusal 19\n"),
    ] {
        let output = outcome(&words, vec![]);
        assert_eq!(output.status.code(), Some(2));
        assert_eq!((output.stdout, output.stderr), (vec![], said.into()));
    }
    let output = outcome(&["class", "1", "0", "2", "0"], vec![]);
    assert_eq!(output.status.code(), Some(2));
}
