//! Reports that are made: each clause of refusal 12 comes by itself and at its
//! edge, and possible ones come up to the edge. The suite of reports tries what it
//! says, knows by itself what must come, and notices a wrong library alone.

mod common;

use std::cell::RefCell;
use std::collections::{BTreeMap, BTreeSet};
use std::rc::Rc;

use common::said_by;
use harness::bench::Bench;
use harness::call::{Call, Outcome};
use harness::expected::expected;
use harness::faults::Faults;
use harness::make::Maker;
use harness::report::{Report, NUMBERS};
use harness::rows::Name;
use harness::suites::reports;

/// The clauses of document 02's 12 that a record breaks.
fn broken(report: &Report) -> BTreeSet<&'static str> {
    let lines = u128::from(report.lines);
    let mut broken = BTreeSet::new();
    let mut clause = |is_broken: bool, words| {
        if is_broken {
            broken.insert(words);
        }
    };
    clause(lines > 100_000, "lines");
    for [accepted, remainder, id, filler] in report.sectors.map(|s| s.map(u128::from)) {
        clause(accepted + remainder + id != lines, "counts");
        clause(filler > 2_048 * lines, "filler");
    }
    for [count, sum, _, _, present] in report.channels.map(|c| c.map(u128::from)) {
        clause(count > 2_291 * lines, "pixels");
        clause(sum > 2_343_693 * lines, "sum");
        clause(present > 1, "mark");
    }
    broken
}

/// The reports that some calls hand in.
fn handed(call: &Call) -> Vec<Report> {
    match call.name {
        Name::WithLine => vec![Report::of(&call.numbers[1..])],
        _ => [0, NUMBERS]
            .map(|at| Report::of(&call.numbers[at..]))
            .to_vec(),
    }
}

/// Calls of `together`, which are the quicker ones to make.
fn pairs(seed: u64, faults: &Faults) -> Vec<[Report; 2]> {
    let mut maker = Maker::new(seed);
    (0..5_000)
        .map(|_| handed(&maker.planned(Name::Together, faults).call))
        .map(|two| two.try_into().expect("two reports"))
        .collect()
}

#[test]
fn every_clause_breaks_alone_and_at_its_edge() {
    let mut alone: BTreeMap<&str, Vec<Report>> = BTreeMap::new();
    let mut wrong = [0; 3];
    for two in pairs(81, &Faults::of(&[12])) {
        let clauses = two.clone().map(|report| broken(&report));
        let which = clauses.iter().map(|c| usize::from(!c.is_empty()));
        let which: Vec<usize> = which.collect();
        assert!(which != [0, 0], "{two:?}");
        wrong[which[0] + 2 * which[1] - 1] += 1;
        for (report, clauses) in two.into_iter().zip(clauses) {
            if let [clause] = Vec::from_iter(clauses)[..] {
                alone.entry(clause).or_default().push(report);
            }
        }
    }
    // the first, the second, both
    assert!(wrong.iter().all(|&times| times > 1_000), "{wrong:?}");

    let met = |clause: &str, at_edge: &dyn Fn(&Report) -> bool| {
        assert!(alone[clause].iter().any(at_edge), "{clause}");
    };
    met("lines", &|r| r.lines == 100_001);
    met("lines", &|r| r.lines == u64::MAX);
    let sums = |r: &Report| {
        r.sectors
            .map(|s| u128::from(s[0]) + u128::from(s[1]) + u128::from(s[2]))
    };
    for sector in 0..12 {
        met("counts", &|r| sums(r)[sector] == u128::from(r.lines) + 1);
        met("counts", &|r| sums(r)[sector] + 1 == u128::from(r.lines));
        let wraps = |r: &Report| sums(r)[sector] as u64 == r.lines && sums(r)[sector] >> 64 > 0;
        met("counts", &wraps);
        met("filler", &|r| r.sectors[sector][3] == 2_048 * r.lines + 1);
    }
    for channel in 0..4 {
        met("pixels", &|r| r.channels[channel][0] == 2_291 * r.lines + 1);
        met("sum", &|r| {
            r.channels[channel][1] == 2_343_693 * r.lines + 1
        });
        met("mark", &|r| r.channels[channel][4] == 2);
        met("mark", &|r| r.channels[channel][4] == u64::from(u32::MAX));
    }
    assert_eq!(alone.len(), 6, "{:?}", alone.keys());
}

#[test]
fn possible_reports_come_up_to_the_edge() {
    let pairs = pairs(82, &Faults::none());
    let reports: Vec<&Report> = pairs.iter().flatten().collect();
    for report in &reports {
        assert!(broken(report).is_empty(), "{report:?}");
    }
    let met = |words: &str, is: &dyn Fn(&Report) -> bool| {
        let some = reports.iter().any(|report| report.lines > 0 && is(report));
        assert!(some, "{words}");
    };
    for lines in [1, 99_999, 100_000] {
        met("lines", &|r| r.lines == lines);
    }
    for sector in 0..12 {
        met("filler", &|r| r.sectors[sector][3] == 2_048 * r.lines);
        for place in 0..3 {
            met("all of one kind", &|r| r.sectors[sector][place] == r.lines);
        }
    }
    for channel in 0..4 {
        let of = |r: &Report| r.channels[channel];
        met("pixels", &|r| of(r)[0] == 2_291 * r.lines);
        met("sum", &|r| of(r)[1] == 2_343_693 * r.lines);
        met("absent with pixels", &|r| of(r)[0] > 0 && of(r)[4] == 0);
        met("present without", &|r| of(r)[0] == 0 && of(r)[4] == 1);
        met("least over largest", &|r| {
            of(r)[2] > of(r)[3] && of(r)[4] == 1
        });
        met("over ten bits", &|r| of(r)[2] > 1_023 && of(r)[4] == 1);
        met("beside a mark of 0", &|r| of(r)[2] > 0 && of(r)[4] == 0);
    }
    // together just as many as the limit, and one more
    let together =
        |pairs: &[[Report; 2]], lines| pairs.iter().any(|[a, b]| a.lines + b.lines == lines);
    assert!(together(&pairs, 100_000));
    let over = self::pairs(83, &Faults::of(&[15]));
    assert!(over.iter().all(|[a, b]| a.lines + b.lines > 100_000));
    assert!(over
        .iter()
        .flatten()
        .all(|report| broken(report).is_empty()));
    assert!(together(&over, 100_001) && together(&over, 200_000));
}

#[test]
fn lines_come_for_reports_of_every_size() {
    let mut maker = Maker::new(84);
    let mut lines = |faults: &Faults| -> BTreeSet<u64> {
        let mut one = || maker.planned(Name::WithLine, faults).call.numbers[1];
        (0..500).map(|_| one()).collect()
    };
    let served = lines(&Faults::none());
    assert!([0, 1, 99_999].iter().all(|lines| served.contains(lines)));
    assert!(served.iter().all(|&lines| lines < 100_000));
    assert_eq!(lines(&Faults::of(&[15])), BTreeSet::from([100_000]));
    assert!(lines(&Faults::of(&[12, 15])).contains(&100_000));
}

/// What the suite says of a wrong library.
fn said_of(before: fn(&mut Call), behind: fn(&Call, &mut Outcome)) -> String {
    said_by(reports::run, 85, before, behind)
}

/// Changes the report of a call that is served.
fn served(call: &Call, outcome: &mut Outcome, change: fn(&mut Report, &Report)) {
    let reports = call.name == Name::WithLine || call.name == Name::Together;
    if reports && outcome.numbers[0] == 0 {
        let mut report = Report::of(&outcome.numbers[1..]);
        change(&mut report, &handed(call)[0]);
        outcome.numbers = [vec![0], report.numbers()].concat();
    }
}

#[test]
fn a_wrong_library_is_noticed() {
    let wrong: [(fn(&Call, &mut Outcome), &str); 6] = [
        // refused with 6 counted as refused with 5
        (
            |call, outcome| {
                served(call, outcome, |after, before| {
                    for (after, before) in after.sectors.iter_mut().zip(before.sectors) {
                        after[1] += after[2] - before[2];
                        after[2] = before[2];
                    }
                })
            },
            "remainder is ",
        ),
        // a least that begins with 0
        (
            |call, outcome| {
                served(call, outcome, |after, _| {
                    for channel in &mut after.channels {
                        channel[2] = 0;
                    }
                })
            },
            "least is 0",
        ),
        // a largest of the latest line
        (
            |call, outcome| {
                served(call, outcome, |after, before| {
                    after.channels[3][3] = after.channels[3][3].min(before.channels[3][3]);
                })
            },
            "channels[3].largest is ",
        ),
        // a refused record that is zeroed
        (
            |call, outcome| {
                if call.name == Name::WithLine && outcome.numbers[0] != 0 {
                    outcome.numbers[1..].fill(0);
                }
            },
            "is 0, expected ",
        ),
        // least and largest beside a mark of 0 come back
        (
            |call, outcome| {
                served(call, outcome, |after, before| {
                    for (after, before) in after.channels.iter_mut().zip(before.channels) {
                        if after[4] == 0 {
                            after[2..4].copy_from_slice(&before[2..4]);
                        }
                    }
                })
            },
            "channels[0].least is ",
        ),
        // 15 for two records of just 100,000 lines
        (
            |call, outcome| {
                if call.name == Name::Together && outcome.numbers[..2] == [0, 100_000] {
                    outcome.numbers = call.refused(15);
                }
            },
            "refused is 15, expected 0",
        ),
    ];
    for (behind, words) in wrong {
        let said = said_of(|_| (), behind);
        assert!(
            said.contains("the way tested: ") && said.contains(words),
            "{words}: {said}"
        );
    }
    // a mark by its lowest bit
    let said = said_of(
        |call| {
            let first = match call.name {
                Name::WithLine => 1,
                Name::Together => 0,
                _ => return,
            };
            for channel in 0..4 {
                call.numbers[first + 53 + 5 * channel] &= 1;
            }
        },
        |_, _| (),
    );
    assert!(said.contains("refused is 0, expected 12"), "{said}");
    assert_eq!(said_of(|_| (), |_, _| ()), "nothing");
}

/// The suite knows what must come without the second decoder.
#[test]
fn the_suite_has_every_refusal_in_every_format() {
    let asked = Rc::new(RefCell::new((BTreeSet::new(), 0)));
    let kept = asked.clone();
    let mut bench = Bench::of(move |call| {
        let outcome = expected(call);
        let (kinds, calls) = &mut *kept.borrow_mut();
        let format = match call.name {
            Name::WithLine => call.numbers[0],
            _ => 0,
        };
        kinds.insert((call.name as usize, format, outcome.numbers[0]));
        *calls += 1;
        outcome
    });
    reports::run(&mut bench, &mut Maker::new(86)).expect("nothing is wrong");
    let (kinds, calls) = asked.take();
    for format in 1..=3 {
        for refused in [0, 12, 15, 2] {
            let kind = (Name::WithLine as usize, format, refused);
            assert!(kinds.contains(&kind), "{kind:?}");
        }
    }
    for refused in [0, 12, 15] {
        assert!(kinds.contains(&(Name::Together as usize, 0, refused)));
    }
    // the quick run of the gate stays quick
    assert!(calls < 6_000, "{calls} calls");
}
