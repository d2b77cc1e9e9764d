//! The suite of the two cards: it tries what it says, it knows by itself what
//! must come, and a library that takes a start value wrongly is noticed by it
//! alone.

mod common;

use std::cell::RefCell;
use std::collections::BTreeSet;
use std::rc::Rc;

use common::said_by;
use harness::bench::Bench;
use harness::call::{Call, Outcome};
use harness::expected::expected;
use harness::faults::Faults;
use harness::make::Maker;
use harness::rows::{Name, ROWS};
use harness::suites::ones;
use second::sectors;

/// What the calls of a run were: name, format, what came, and of a call on one
/// sector its number.
type Kinds = BTreeSet<(usize, u64, u64, u64)>;

#[test]
fn every_call_is_asked_of_both_cards() {
    let asked = Rc::new(RefCell::new((Kinds::new(), 0)));
    let kept = asked.clone();
    let mut bench = Bench::of(move |call| {
        let outcome = expected(call);
        let (kinds, calls) = &mut *kept.borrow_mut();
        let refused = outcome.numbers[0];
        let sector = match call.name {
            Name::Accepted | Name::PutData => call.numbers[1],
            _ => 0,
        };
        kinds.insert((call.name as usize, call.numbers[0], refused, sector));
        *calls += 1;
        outcome
    });
    ones::run(&mut bench, &mut Maker::new(71)).expect("nothing is wrong");
    let (kinds, calls) = asked.take();
    for row in ROWS.iter().filter(|row| row.refusals.contains(&5)) {
        for format in 1..=3 {
            for refused in [0, 5] {
                let met = |kind: &&(usize, u64, u64, u64)| {
                    (kind.0, kind.1, kind.2) == (row.name as usize, format, refused)
                };
                assert!(kinds.iter().any(|kind| met(&kind)), "{} {format}", row.text);
            }
        }
    }
    for sector in 1..=12 {
        for format in 1..=3 {
            let put = (Name::PutData as usize, format, 0, sector);
            assert!(kinds.contains(&put), "{put:?}");
        }
    }
    // the quick run of the gate stays quick
    assert!(calls < 2_000, "{calls} calls");
}

/// What the suite says of a wrong library.
fn said_of(before: fn(&mut Call), behind: fn(&Call, &mut Outcome)) -> String {
    said_by(ones::run, 72, before, behind)
}

fn nothing_before(_: &mut Call) {}
fn nothing_behind(_: &Call, _: &mut Outcome) {}

/// Asks one call in format 1 where it is format 3.
fn from_zero(call: &mut Call, name: Name) {
    if call.name == name && call.numbers[0] == 3 {
        call.numbers[0] = 1;
    }
}

#[test]
fn a_wrong_start_value_is_noticed() {
    let wrong: [(fn(&mut Call), &str); 7] = [
        (|call| from_zero(call, Name::Strip), "vis[0] is "),
        (|call| from_zero(call, Name::Answers), "answers[0] is "),
        (|call| from_zero(call, Name::Joined), "refused is "),
        (|call| from_zero(call, Name::PutData), "line: element "),
        (
            |call| from_zero(call, Name::PutPixelsWide),
            "line: element ",
        ),
        (|call| from_zero(call, Name::F64Field), "refused is "),
        (|call| from_zero(call, Name::AddSegment), "refused is "),
    ];
    for (before, words) in wrong {
        let said = said_of(before, nothing_behind);
        let wanted = format!("the way tested: {words}");
        assert!(said.contains(&wanted), "{wanted}: {said}");
    }
    let said = said_of(nothing_before, |call, outcome| {
        if call.name == Name::Format && call.numbers[0] == 3 {
            outcome.numbers[2] = 0;
        }
    });
    assert!(said.contains("check_start is 0, expected 65535"), "{said}");
    assert_eq!(said_of(nothing_before, nothing_behind), "nothing");
}

/// The pool's lines and what is made of them: a good line of each format, and a
/// sector of the other card, by the second decoder.
#[test]
fn the_pool_has_lines_of_both_cards() {
    let mut maker = Maker::new(73);
    for _ in 0..40 {
        for format in [1, 2, 3] {
            let mut line = maker.good_line(format as u64);
            assert_eq!(sectors::answers(format, &line), Ok([0; 12]));
            let other = if format == 3 { 1 } else { 3 };
            assert_eq!(sectors::answers(other, &line), Ok([5; 12]));
            let mut expected = [0; 12];
            for sector in [1, 6, 9, 12] {
                maker.pool.change_card(&mut line, sector);
                expected[sector - 1] = 5;
                assert_eq!(sectors::answers(format, &line), Ok(expected));
                assert_eq!(sectors::accepted(other, &line, sector), Ok(()));
            }
        }
    }
}

/// Formats that are none lie near those that are, and all three that are come.
#[test]
fn formats_come_up_to_the_edge() {
    let mut maker = Maker::new(74);
    let mut formats = |faults: &Faults| -> BTreeSet<u64> {
        let mut of = |name| maker.planned(name, faults).call.numbers[0];
        (0..2_000).map(|_| of(Name::Format)).collect()
    };
    assert!(formats(&Faults::none()).into_iter().eq(1..=3));
    let others = formats(&Faults::of(&[1]));
    assert!([0, 4, 5, 255].iter().all(|number| others.contains(number)));
    assert!((1..=3).all(|number| !others.contains(&number)));
}
