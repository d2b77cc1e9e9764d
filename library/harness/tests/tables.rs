//! Assemblies and the numbers of their tables: the calls that are made have
//! every kind of number beside a line's, the suite tries what it says, and a
//! library that takes the numbers wrongly is noticed by the suite alone.

use std::cell::RefCell;
use std::collections::BTreeSet;
use std::rc::Rc;

use harness::bench::Bench;
use harness::call::{Call, Outcome};
use harness::expected::expected;
use harness::faults::Faults;
use harness::make::{goes_by, Maker};
use harness::rows::{Name, ROWS};
use harness::suites::tables;

/// Where the record and the block's number stand among the numbers of a call.
const MARKS: usize = 1;
const TABLES: [usize; 2] = [2, 3];
const NUMBER: usize = 4;

/// Rounds of the suite.
const ROUNDS: u32 = 4;

/// The numbers of a line's tables, and its segment.
fn of_line(call: &Call) -> ([u64; 2], u64) {
    let line = call.lent[0].bytes();
    let number = |first: usize| u64::from(line[first]) << 8 | u64::from(line[first + 1]);
    ([number(27), number(29)], line[193].into())
}

/// How a number differs from another one.
fn differs(one: u64, other: u64) -> &'static str {
    match (one >> 8 == other >> 8, one & 0xFF == other & 0xFF) {
        (true, true) => "not",
        (true, false) => "in the low byte",
        (false, true) => "in the high byte",
        (false, false) => "in both",
    }
}

/// Of calls of `add_segment`: the block; how calibration table ID and MANAM
/// revision differ from the line's; and the marks: none, some but not the
/// segment's, or the segment's too.
type Kinds = BTreeSet<(u64, [&'static str; 2], &'static str)>;

/// Those of many calls with these faults.
fn kinds(seed: u64, faults: &[u8]) -> Kinds {
    let mut maker = Maker::new(seed);
    let mut kinds = BTreeSet::new();
    for _ in 0..12_000 {
        let asked = maker.planned(Name::AddSegment, &Faults::of(faults));
        assert_eq!(asked.wanted, Some(faults.first().copied().unwrap_or(0)));
        let n = &asked.call.numbers;
        let (tables, segment) = of_line(&asked.call);
        let how = [0, 1].map(|i| differs(n[TABLES[i]], tables[i]));
        let marks = match (n[MARKS], n[MARKS] >> segment & 1) {
            (0, _) => "none",
            (_, 0) => "others",
            _ => "its own",
        };
        kinds.insert((n[NUMBER], how, marks));
    }
    kinds
}

const ANY: [&str; 4] = ["not", "in the low byte", "in the high byte", "in both"];

/// All that may be made: the own number of a block as in `own`, the other one,
/// and both of a block that goes by none, in any way.
fn all(own: &[&str], marks: &'static str) -> Kinds {
    let mut all = BTreeSet::new();
    for number in 1..=5 {
        for one in ANY {
            for other in ANY {
                let how = [one, other];
                let own_is_so = goes_by(number as usize).map(|i| own.contains(&how[i]));
                if own_is_so != Some(false) {
                    all.insert((number, how, marks));
                }
            }
        }
    }
    all
}

#[test]
fn a_good_segment_has_any_other_number_beside_it() {
    let mut wanted = all(&["not"], "others");
    wanted.extend(all(&["not"], "its own"));
    // without a mark no number is compared
    wanted.extend(all(&ANY, "none"));
    assert_eq!(kinds(41, &[]), wanted);
}

#[test]
fn a_foreign_number_comes_in_every_way() {
    let mut wanted = all(&ANY[1..], "others");
    wanted.extend(all(&ANY[1..], "its own"));
    wanted.retain(|(number, _, _)| *number >= 3);
    assert_eq!(kinds(42, &[14]), wanted);
    // and before a copy that differs, which is its own mark's
    wanted.retain(|(_, _, marks)| *marks == "its own");
    assert_eq!(kinds(43, &[14, 8]), wanted);
}

#[test]
fn entries_have_any_numbers() {
    let mut maker = Maker::new(44);
    for row in &ROWS[Name::Revision as usize..=Name::Elements as usize] {
        let mut high = BTreeSet::new();
        for _ in 0..200 {
            let n = maker.planned(row.name, &Faults::none()).call.numbers;
            high.insert(TABLES.map(|i| n[i] > 255));
        }
        assert_eq!(high.len(), 4, "{}", row.text);
    }
}

/// Every refusal that a line may meet is met by each block that it is for, with
/// the segment's own mark and without it; and calls on a block are made before
/// it is finished and afterwards.
#[test]
fn the_suite_tries_what_it_says() {
    let asked = Rc::new(RefCell::new((BTreeSet::new(), BTreeSet::new(), 0)));
    let kept = asked.clone();
    let mut bench = Bench::of(move |call| {
        let outcome = expected(call);
        let (adds, entries, calls) = &mut *kept.borrow_mut();
        let (format, refused) = (call.numbers[0], outcome.numbers[0]);
        *calls += 1;
        if call.name == Name::AddSegment {
            let marked = call.numbers[MARKS] >> (of_line(call).1 % 64) & 1;
            adds.insert((format, call.numbers[NUMBER], refused, marked));
        } else {
            entries.insert((format, call.name as usize, refused));
        }
        outcome
    });
    // some of it comes by chance, and in one round not surely
    let mut maker = Maker::new(45);
    for _ in 0..ROUNDS {
        tables::run(&mut bench, &mut maker).expect("nothing is wrong");
    }
    let (adds, entries, calls) = asked.take();
    for (format, blocks) in [(1, 5), (2, 4), (3, 5)] {
        for number in 1..=blocks {
            let foreign = if number >= 3 { &[14][..] } else { &[] };
            for refused in [0, 5, 6, 7].iter().chain(foreign) {
                for marked in [0, 1] {
                    // a wrong segment byte is above 24 now and then
                    let met = adds.contains(&(format, number, *refused, marked));
                    assert!(met || *refused == 7, "{format} {number} {refused} {marked}");
                }
            }
            assert_eq!(adds.contains(&(format, number, 8, 1)), number >= 3);
        }
        for row in &ROWS[Name::Revision as usize..=Name::Elements as usize] {
            let levels = row.refusals.contains(&4) && row.name != Name::Revision;
            let wanted: &[u64] = match (levels && format == 2, row.name) {
                (true, _) => &[4],
                (_, Name::Revision) => &[0, 4, 9],
                // those two blocks go on, and are asked before their end by chance
                (_, Name::Mapping | Name::Elements) => &[0],
                _ => &[0, 9],
            };
            for refused in wanted {
                let met = entries.contains(&(format, row.name as usize, *refused));
                assert!(met, "{format} {} {refused}", row.text);
            }
        }
    }
    // the quick run of the gate stays quick
    assert!(calls < 20_000 * ROUNDS, "{calls} calls");
}

/// What is said of a library that does as the right one, but for what is done
/// to a call before it and to its outcome behind it.
fn said_of(before: fn(&mut Call), behind: fn(&Call, &mut Outcome)) -> String {
    let mut bench = Bench::of(move |call| {
        let mut handed = call.clone();
        before(&mut handed);
        let mut outcome = expected(&handed);
        let row = call.row();
        if row.name == Name::AddSegment && (outcome.numbers[0] != 0 || call.numbers[MARKS] != 0) {
            outcome.numbers[4..].copy_from_slice(&call.numbers[TABLES[0]..NUMBER]);
        }
        behind(call, &mut outcome);
        outcome
    });
    match tables::run(&mut bench, &mut Maker::new(46)) {
        Ok(()) => "nothing".to_string(),
        Err(difference) => difference.0,
    }
}

fn nothing_before(_: &mut Call) {}
fn nothing_behind(_: &Call, _: &mut Outcome) {}

/// Puts a line's numbers into the record where this holds of the call.
fn as_the_line(call: &mut Call, here: bool, bits: u64) {
    if call.name == Name::AddSegment && here {
        let (tables, _) = of_line(call);
        for (i, number) in TABLES.into_iter().zip(tables) {
            call.numbers[i] = call.numbers[i] & !bits | number & bits;
        }
    }
}

#[test]
fn wrong_numbers_are_noticed() {
    type Wrong = (fn(&mut Call), fn(&Call, &mut Outcome), &'static str);
    let wrong: [Wrong; 9] = [
        // the low byte alone is compared, or the high byte alone
        (
            |call| as_the_line(call, true, 0xFF00),
            nothing_behind,
            "refused is 0, expected 14",
        ),
        (
            |call| as_the_line(call, true, 0x00FF),
            nothing_behind,
            "refused is 0, expected 14",
        ),
        // nothing is compared for calibration-1
        (
            |call| as_the_line(call, call.numbers.get(NUMBER) == Some(&4), 0xFFFF),
            nothing_behind,
            "refused is 0, expected 14",
        ),
        // a segment that is there already is let through
        (
            |call| {
                let there = call.name == Name::AddSegment;
                let there = there && call.numbers[MARKS] >> (of_line(call).1 % 64) & 1 == 1;
                as_the_line(call, there, 0xFFFF)
            },
            nothing_behind,
            "refused is 0, expected 14",
        ),
        // calibration goes by the MANAM revision
        (
            |call| {
                if call.name == Name::AddSegment && call.numbers[NUMBER] > 3 {
                    let (tables, _) = of_line(call);
                    let other = call.numbers[TABLES[1]] != tables[1];
                    call.numbers[TABLES[0]] = tables[0] ^ u64::from(other);
                }
            },
            nothing_behind,
            "refused is ",
        ),
        // the numbers of the latest segment are kept
        (
            nothing_before,
            |call, outcome| {
                if call.name == Name::AddSegment && outcome.numbers[0] == 0 {
                    outcome.numbers[4..].copy_from_slice(&of_line(call).0);
                }
            },
            "calibration is ",
        ),
        // the revision of a calibration block is that of MANAM
        (
            nothing_before,
            |call, outcome| {
                if call.name == Name::Revision && outcome.numbers[0] == 0 {
                    outcome.numbers[1] = call.numbers[TABLES[1]];
                }
            },
            "revision is 732, expected 2102",
        ),
        // a level is of revision 0
        (
            nothing_before,
            |call, outcome| {
                if call.name == Name::TemperatureF64 {
                    outcome.numbers[1] = 0;
                }
            },
            "revision is 0, expected 2102",
        ),
        // a level of an unfinished block is given
        (
            |call| {
                if call.name == Name::Albedo && call.numbers[MARKS] != 0 {
                    call.numbers[MARKS] = 0x01FF_FFFF;
                }
            },
            nothing_behind,
            "refused is 0, expected 9",
        ),
    ];
    for (before, behind, words) in wrong {
        let said = said_of(before, behind);
        let wanted = format!("the way tested: {words}");
        assert!(said.contains(&wanted), "{wanted}: {said}");
    }
    assert_eq!(said_of(nothing_before, nothing_behind), "nothing");
}
