//! The mapping grid: the suite of blocks asks every point of each format, holds
//! it to the sources' tables, and notices one column that is another.

use std::cell::RefCell;
use std::collections::BTreeSet;
use std::rc::Rc;

use harness::bench::Bench;
use harness::expected::expected;
use harness::make::Maker;
use harness::rows::Name;
use harness::suites::{blocks, grid};

/// Where a call of `mapping` has row and column, and its answer the longitude.
const PLACE: [usize; 2] = [4, 5];
const LONGITUDE: usize = 4;

#[test]
fn every_point_of_each_format_is_asked() {
    let asked = Rc::new(RefCell::new(BTreeSet::new()));
    let kept = asked.clone();
    let mut bench = Bench::of(move |call| {
        let outcome = expected(call);
        if call.name == Name::Mapping && outcome.numbers[0] == 0 {
            let [row, column] = PLACE.map(|i| call.numbers[i]);
            kept.borrow_mut().insert((call.numbers[0], row, column));
        }
        outcome
    });
    blocks::run(&mut bench, &mut Maker::new(61)).expect("nothing is wrong");
    assert_eq!(asked.borrow().len(), 3 * 25 * 25);
}

/// 180 is not above 180.
#[test]
fn one_column_that_is_another_is_noticed() {
    let mut bench = Bench::of(|call| {
        let mut outcome = expected(call);
        if call.name == Name::Mapping && outcome.numbers[LONGITUDE] == 180 {
            outcome.numbers[LONGITUDE] = -180_i64 as u64;
        }
        outcome
    });
    let found = blocks::run(&mut bench, &mut Maker::new(62)).expect_err("180 is not west");
    assert!(found.0.contains("longitude"), "{}", found.0);
}

/// The suite's tables are those of the documents: 45 to 165 east, and 80 east to
/// 160 west, five degrees apart on the globe. Format 3 is format 1.
#[test]
fn the_tables_of_the_suite() {
    let block = [0; 2_500];
    let of = |format, column| grid::point(format, &block, 0, column)[3] as i64;
    for format in [1, 3] {
        assert_eq!([of(format, 0), of(format, 24)], [45, 165]);
    }
    assert_eq!(
        [of(2, 0), of(2, 20), of(2, 21), of(2, 24)],
        [80, 180, -175, -160]
    );
    for format in [1, 2, 3] {
        for column in 1..25 {
            let step = of(format, column) - of(format, column - 1);
            assert_eq!(step.rem_euclid(360), 5);
        }
    }
}
