//! The suite of the tails: it tries what it says, and a reader at another
//! setting than the one it is handed is noticed.

use std::cell::RefCell;
use std::collections::BTreeSet;
use std::rc::Rc;

use harness::bench::Bench;
use harness::expected::expected;
use harness::make::Maker;
use harness::suites::tails;

/// The setting and the flag of the record among the numbers of `read`.
const SETTING: usize = 1;
const IN_LINE: usize = 5;

#[test]
fn every_setting_is_tried_between_lines_and_inside_one() {
    let asked = Rc::new(RefCell::new((BTreeSet::new(), 0)));
    let kept = asked.clone();
    let mut bench = Bench::of(move |call| {
        let mut asked = kept.borrow_mut();
        let (setting, in_line) = (call.numbers[SETTING], call.numbers[IN_LINE]);
        asked.0.insert((setting, in_line));
        asked.1 += 1;
        expected(call)
    });
    tails::run(&mut bench, &mut Maker::new(31)).expect("nothing is wrong");
    let (tried, calls) = asked.take();
    let all = (0..=7).flat_map(|setting| [(setting, 0), (setting, 1)]);
    assert!(tried.into_iter().eq(all));
    // the quick run of the gate stays quick
    assert!(calls < 15_000, "{calls} calls");
}

/// What is said of a reader that is at another setting than this one.
fn said_of(setting: usize, other: usize) -> String {
    let mut bench = Bench::of(move |call| {
        let mut call = call.clone();
        if call.numbers[SETTING] == setting as u64 {
            call.numbers[SETTING] = other as u64;
        }
        expected(&call)
    });
    let said = tails::at(setting.min(6), &mut bench, &mut Maker::new(32));
    said.expect_err("it is at another setting").0
}

#[test]
fn another_setting_is_noticed() {
    for setting in 0..=6 {
        for other in (0..=6).filter(|&other| other != setting) {
            let words = said_of(setting, other);
            assert!(words.contains("the way tested: "), "{words}");
            let handed = format!("\n  setting = {setting} (");
            assert!(words.contains(&handed), "{words}");
        }
    }
}

#[test]
fn setting_7_is_not_served() {
    let words = said_of(7, 6);
    let said = "the way tested: refused is 0, expected 13\n";
    assert!(words.contains(said), "{words}");
}
