//! A comparison that cannot fail is worthless: every field, every buffer and
//! every canary is changed here, and the change has to be reported.

use harness::bench::Bench;
use harness::call::{Call, Lent, Outcome};
use harness::compare::{broken_rule, difference};
use harness::expected::expected;
use harness::faults::Faults;
use harness::make::Maker;
use harness::rows::{Name, ROWS};

/// A buffer with one element changed.
fn changed(lent: &Lent, place: usize) -> Lent {
    let mut lent = lent.clone();
    match &mut lent {
        Lent::Bytes(bytes) => bytes[place] ^= 1,
        Lent::Words(words) => words[place] ^= 0x8000,
    }
    lent
}

/// All that can be altered of an outcome: a bit of each field, the first and
/// the last element of each buffer, its length, and a report of harm.
fn altered(outcome: &Outcome) -> Vec<Outcome> {
    let mut all = Vec::new();
    for field in 0..outcome.numbers.len() {
        for bit in [0, 7, 31, 63] {
            let mut other = outcome.clone();
            other.numbers[field] ^= 1 << bit;
            all.push(other);
        }
    }
    for (i, lent) in outcome.lent.iter().enumerate() {
        let mut with = |lent: Lent| {
            let mut other = outcome.clone();
            other.lent[i] = lent;
            all.push(other);
        };
        with(Lent::Bytes(vec![0; lent.count() + 1]));
        with(Lent::Words(vec![0; lent.count() + 1]));
        if lent.count() > 0 {
            with(changed(lent, 0));
            with(changed(lent, lent.count() - 1));
        }
    }
    let mut harmed = outcome.clone();
    harmed.harm = Some("a canary of line changed".to_string());
    all.push(harmed);
    all
}

#[test]
fn every_change_of_an_outcome_is_a_difference() {
    let mut maker = Maker::new(11);
    for row in &ROWS {
        for faults in [Faults::none(), Faults::draw(row, &mut maker.dice)] {
            let call = maker.planned(row.name, &faults).call;
            let outcome = expected(&call);
            assert_eq!(difference(&call, &outcome, &outcome), None);
            for other in altered(&outcome) {
                let found = difference(&call, &outcome, &other);
                assert!(found.is_some(), "{}: {other:?}", row.text);
            }
        }
    }
}

/// The rules of a refused call are tested without the second decoder.
#[test]
fn a_refused_call_that_changes_something_breaks_a_rule() {
    let mut maker = Maker::new(12);
    for row in ROWS.iter().filter(|row| !row.refusals.is_empty()) {
        for &number in row.refusals {
            let asked = maker.planned(row.name, &Faults::of(&[number]));
            let call = &asked.call;
            let outcome = expected(call);
            assert_eq!(asked.wanted, Some(number), "{}", row.text);
            assert_eq!(outcome.numbers[0], u64::from(number), "{}", row.text);
            assert_eq!(broken_rule(call, asked.wanted, &outcome), None);
            for other in altered(&outcome).iter().filter(|o| o.harm.is_none()) {
                let found = broken_rule(call, asked.wanted, other);
                assert!(found.is_some(), "{}: {:?}", row.text, other.numbers);
            }
        }
    }
}

#[test]
fn a_buffer_that_is_only_read_must_stay() {
    let mut maker = Maker::new(13);
    for row in &ROWS {
        let call = maker.planned(row.name, &Faults::none()).call;
        let outcome = expected(&call);
        assert_eq!(broken_rule(&call, Some(0), &outcome), None);
        for (i, part) in row.lent.iter().enumerate() {
            if part.written || outcome.lent[i].count() == 0 {
                continue;
            }
            let mut other = outcome.clone();
            other.lent[i] = changed(&outcome.lent[i], 0);
            assert!(broken_rule(&call, None, &other).is_some(), "{}", row.text);
        }
    }
}

#[test]
fn the_bench_reports_what_differs() {
    let mut maker = Maker::new(14);
    let asked = maker.planned(Name::Mapping, &Faults::none());
    assert!(Bench::of(expected).ask(&asked).is_ok());

    let mut wrong = Bench::of(|call| {
        let mut outcome = expected(call);
        outcome.numbers[3] = outcome.numbers[3].wrapping_add(1);
        outcome
    });
    let words = wrong.ask(&asked).expect_err("a latitude differs").0;
    assert!(words.contains("the way tested: latitude is"), "{words}");
    assert!(words.contains("hansobrik_mapping\n  format = "), "{words}");
    assert!(words.contains("\n  block: 2"), "{words}");

    let mut wrong = Bench::of(|call| {
        let mut outcome = expected(call);
        outcome.lent[0].bytes_mut()[77] ^= 4;
        outcome
    });
    let words = wrong.ask(&asked).expect_err("a byte differs").0;
    assert!(words.contains("block: element 77 (from 0) is"), "{words}");

    // the plan is held to the answer too
    let mut asked = asked;
    asked.wanted = Some(9);
    let words = Bench::of(expected).ask(&asked).expect_err("not refused").0;
    assert!(words.contains("refused with 0, made for 9"), "{words}");
}

#[test]
fn what_was_left_out_is_said() {
    let mut maker = Maker::new(15);
    let mut bench = Bench::of(expected);
    for row in &ROWS {
        for faults in Faults::sets(row) {
            if row.name != Name::Date || !faults.has(7) {
                bench.ask(&maker.planned(row.name, &faults)).unwrap();
            }
        }
    }
    assert_eq!(bench.tally.missing(), ["date was never refused with 7"]);
    let nothing = bench.tally.since(&bench.tally.clone());
    assert_eq!(nothing.all(), 0);
    assert_eq!(nothing.missing()[0], "version was never answered");
}

/// The seed settles all calls.
#[test]
fn the_same_seed_makes_the_same_calls() {
    let calls = |seed| {
        let mut maker = Maker::new(seed);
        (0..300).map(|_| maker.draw().call).collect::<Vec<Call>>()
    };
    assert!(calls(5) == calls(5));
    assert!(calls(5) != calls(6));
}
