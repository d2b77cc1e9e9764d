//! The suite of the offsets: it tries what it says, and a reader that is wrong at
//! one of the eight alone is noticed.

use std::cell::RefCell;
use std::collections::BTreeSet;
use std::rc::Rc;

use harness::bench::{Bench, Difference};
use harness::call::{Call, Outcome};
use harness::expected::expected;
use harness::make::Maker;
use harness::suites::offsets;

/// The record's numbers among those of `read`, and in its answer.
const POSITION: usize = 2;
const IN_LINE: usize = 5;
const WAITING_COUNT: usize = 10;
const COMPLETE: usize = 1;
const TAKEN: usize = 2;
const UNREAD_COUNT: usize = 9;
const POSITION_AFTER: usize = 3;
const IN_LINE_AFTER: usize = 6;

const LINE_BITS: u64 = 354_848;

fn piece(call: &Call) -> usize {
    call.lent[0].count()
}

#[derive(Default)]
struct Seen {
    /// Of calls inside a line: the bits that wait, and the bytes of the piece.
    inside: BTreeSet<(u64, usize)>,
    /// Of complete lines: the bits left unread, and the bytes of the piece behind.
    ended: BTreeSet<(u64, usize)>,
    /// The line bits in a piece with the tail's end, ...
    begun: BTreeSet<u64>,
    /// ... and those that are still to come where a piece begins.
    last: BTreeSet<u64>,
    calls: usize,
}

impl Seen {
    fn note(&mut self, call: &Call, outcome: &Outcome) {
        self.calls += 1;
        let (n, answer) = (&call.numbers, &outcome.numbers);
        if n[IN_LINE] == 1 {
            self.inside.insert((n[WAITING_COUNT], piece(call)));
            self.last.insert(LINE_BITS - n[POSITION]);
        } else if answer[IN_LINE_AFTER] == 1 {
            self.begun.insert(answer[POSITION_AFTER]);
        }
        if answer[COMPLETE] == 1 {
            let rest = piece(call) - answer[TAKEN] as usize;
            self.ended.insert((answer[UNREAD_COUNT], rest));
        }
    }
}

#[test]
fn every_edge_is_tried_at_every_offset() {
    let seen = Rc::new(RefCell::new(Seen::default()));
    let kept = seen.clone();
    let mut bench = Bench::of(move |call| {
        let outcome = expected(call);
        kept.borrow_mut().note(call, &outcome);
        outcome
    });
    offsets::run(&mut bench, &mut Maker::new(71), false).expect("nothing is wrong");
    let seen = seen.take();
    // pieces of every length up to five words, with any number of bits waiting
    for waiting in 0..8 {
        for length in (1..=40).chain([4096]) {
            assert!(
                seen.inside.contains(&(waiting, length)),
                "{waiting} {length}"
            );
        }
    }
    // a piece ends at the line's end and up to eight bytes behind it
    for unread in 0..8 {
        for rest in 0..=8 {
            assert!(seen.ended.contains(&(unread, rest)), "{unread} {rest}");
        }
    }
    // pieces that end with each of the first line bits, and begin at each of the
    // last ones
    assert!((0..=80).all(|bits| seen.begun.contains(&bits)));
    assert!((1..=80).all(|bits| seen.last.contains(&bits)));
    // the quick run of the gate stays quick
    assert!(seen.calls < 7_000, "{} calls", seen.calls);
}

/// What is said of a reader that loses the bits that wait, where so many do.
fn said_of(maker: &mut Maker, waiting: u64) -> Result<(), Difference> {
    let mut bench = Bench::of(move |call| {
        let mut call = call.clone();
        if call.numbers[IN_LINE] == 1 && call.numbers[WAITING_COUNT] == waiting {
            call.numbers[WAITING_COUNT - 1] = 0;
        }
        expected(&call)
    });
    offsets::run(&mut bench, maker, false)
}

#[test]
fn waiting_bits_that_are_lost_are_noticed() {
    let mut maker = Maker::new(72);
    assert!(said_of(&mut maker, 8).is_ok());
    for waiting in 1..8 {
        assert!(said_of(&mut maker, waiting).is_err(), "{waiting}");
    }
}
