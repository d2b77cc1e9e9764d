//! The suite of the ends: it tries what it says, by the places at which a search
//! may look, and a search that passes over a tail at one end alone is noticed.

use std::cell::RefCell;
use std::collections::BTreeSet;
use std::rc::Rc;

use harness::bench::{Bench, Difference};
use harness::call::{Call, Outcome};
use harness::expected::expected;
use harness::make::Maker;
use harness::suites::ends;
use second::scramble::tail;

/// Among the numbers of `read`, and of its answer.
const SETTING: usize = 1;
const IN_LINE: usize = 5;
const SEARCH_COUNT: usize = 6;
const UNREAD_COUNT: usize = 8;
const POSITION_AFTER: usize = 3;
const IN_LINE_AFTER: usize = 6;

/// At the places that are agreed on, and at no others before the byte, the tails of
/// four ends have one bit.
#[test]
fn the_places_that_are_agreed_on() {
    for (first, count) in [(1, 26), (2, 25)] {
        let ends = [first, first + 2, first + 4, first + 6];
        for end in ends {
            // counted from the byte backwards, the same for all four
            let before = |places: Vec<usize>, end| -> Vec<usize> {
                places.iter().map(|place| 64 - end - place).collect()
            };
            let agreed = before(ends::agreed(end), end);
            assert_eq!(agreed, before(ends::agreed(first), first));
            assert_eq!(agreed.len(), count);
            for back in 1..=64 - ends[3] {
                let bits: BTreeSet<u8> = ends.iter().map(|e| tail()[64 - e - back]).collect();
                assert_eq!(agreed.contains(&back), bits.len() == 1);
            }
        }
    }
}

/// Where a tail that was found in the piece ends in its byte, 1 to 8.
fn end(call: &Call, outcome: &Outcome) -> Option<u64> {
    let found = call.numbers[IN_LINE] == 0 && outcome.numbers[IN_LINE_AFTER] == 1;
    let bits = 8 * call.lent[0].count() as u64;
    let before = bits.checked_sub(outcome.numbers[POSITION_AFTER] + 1)?;
    found.then_some(before % 8 + 1)
}

#[test]
fn every_end_and_every_begin_is_tried_at_every_setting() {
    // settings with ends, bits remembered with bits unread, calls
    let seen = Rc::new(RefCell::new((BTreeSet::new(), BTreeSet::new(), 0)));
    let kept = seen.clone();
    let mut bench = Bench::of(move |call| {
        let outcome = expected(call);
        let mut seen = kept.borrow_mut();
        let n = &call.numbers;
        if n[IN_LINE] == 0 {
            seen.1.insert((n[SEARCH_COUNT], n[UNREAD_COUNT]));
        }
        if let Some(end) = end(call, &outcome) {
            seen.0.insert((n[SETTING], end));
        }
        seen.2 += 1;
        outcome
    });
    ends::run(&mut bench, &mut Maker::new(74)).expect("nothing is wrong");
    let (found, begun, calls) = seen.take();
    let all = (0..=6).flat_map(|setting| (1..=8).map(move |end| (setting, end)));
    assert!(found.into_iter().eq(all));
    let all = (0..=63).flat_map(|count| (0..=7).map(move |unread| (count, unread)));
    assert!(begun.into_iter().eq(all));
    // the quick run of the gate stays quick
    assert!(calls < 6_000, "{calls} calls");
}

/// What is said of a reader that takes the setting for one less where the tail ends
/// at this bit of a byte.
fn said_of(maker: &mut Maker, setting: usize, at: u64) -> Result<(), Difference> {
    let mut bench = Bench::of(move |call| {
        let outcome = expected(call);
        if end(call, &outcome) == Some(at) {
            let mut less = call.clone();
            less.numbers[SETTING] -= 1;
            return expected(&less);
        }
        outcome
    });
    ends::at(setting, &mut bench, maker)
}

#[test]
fn one_wrong_bit_less_at_one_end_is_noticed() {
    let mut maker = Maker::new(75);
    for setting in 1..=6 {
        for at in 1..=8 {
            let said = said_of(&mut maker, setting, at);
            assert!(said.is_err(), "{setting} {at}");
        }
    }
    assert!(said_of(&mut maker, 6, 9).is_ok());
}
