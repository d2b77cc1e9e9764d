//! The reader's records that are made: each clause of refusal 12 comes by
//! itself and at its edge, and possible ones come up to the edge. Settings and
//! tails likewise.

use std::collections::{BTreeMap, BTreeSet};

use harness::call::Call;
use harness::expected::expected;
use harness::faults::Faults;
use harness::make::Maker;
use harness::rows::Name;

const NAMES: [&str; 9] = [
    "position",
    "search",
    "register",
    "in_line",
    "search_count",
    "unread",
    "unread_count",
    "waiting",
    "waiting_count",
];

fn over(field: u64, count: u64) -> bool {
    count < 64 && field >> count != 0
}

/// The clauses of the paper's row that a record breaks.
fn broken(r: &[u64]) -> Vec<&'static str> {
    let [position, search, register, in_line, search_count, unread, unread_count, waiting, waiting_count] =
        r[..]
    else {
        panic!("{NAMES:?}");
    };
    let inside = in_line == 1;
    let clauses = [
        (position > 354_847, "position"),
        (search_count > 63, "remembered bits"),
        (register > 0x7FFF, "register"),
        (over(search, search_count), "search too large"),
        (over(unread, unread_count), "unread too large"),
        (over(waiting, waiting_count), "waiting too large"),
        (unread_count > 7, "unread bits"),
        (inside && waiting_count != position % 8, "waiting in a line"),
        (!inside && waiting_count != 0, "waiting between lines"),
        (inside && unread_count != 0, "unread in a line"),
        (in_line > 1, "flag"),
    ];
    let broken = clauses.into_iter().filter(|(broken, _)| *broken);
    broken.map(|(_, words)| words).collect()
}

/// The records of some calls of `read`.
fn records(seed: u64, faults: &Faults) -> Vec<Vec<u64>> {
    let mut maker = Maker::new(seed);
    (0..20_000)
        .map(|_| maker.planned(Name::Read, faults).call.numbers[2..].to_vec())
        .collect()
}

#[test]
fn every_clause_breaks_alone_and_at_its_edge() {
    let mut alone: BTreeMap<&str, Vec<Vec<u64>>> = BTreeMap::new();
    for record in records(21, &Faults::of(&[12])) {
        let clauses = broken(&record);
        assert!(!clauses.is_empty(), "{record:?}");
        if let [clause] = clauses[..] {
            alone.entry(clause).or_default().push(record);
        }
    }
    // where the edge is: the field and its first value that is too much
    let edges = [
        ("position", 0, 354_848),
        ("remembered bits", 4, 64),
        ("register", 2, 0x8000),
        ("search too large", 1, 1 << 63),
        ("search too large", 1, 1),
        ("unread too large", 5, 1),
        ("unread too large", 5, 128),
        ("waiting too large", 7, 1),
        ("waiting too large", 7, 128),
        ("unread bits", 6, 8),
        ("waiting in a line", 8, 1),
        ("waiting in a line", 8, 8),
        ("waiting between lines", 8, 1),
        ("unread in a line", 6, 1),
        ("flag", 3, 2),
        ("flag", 3, 255),
    ];
    for (clause, field, value) in edges {
        let records = alone.get(clause).expect(clause);
        let at_edge = records.iter().filter(|record| record[field] == value);
        assert!(at_edge.count() > 0, "{clause}: {} {value}", NAMES[field]);
    }
    assert_eq!(alone.len(), 11, "{:?}", alone.keys());
}

#[test]
fn possible_records_come_up_to_the_edge() {
    let records = records(22, &Faults::none());
    for record in &records {
        assert!(broken(record).is_empty(), "{record:?}");
    }
    let edges = [
        (0, 354_847),
        (1, u64::MAX >> 1),
        (2, 0x7FFF),
        (3, 0),
        (3, 1),
        (4, 63),
        (5, 127),
        (6, 7),
        (7, 127),
        (8, 7),
    ];
    for (field, value) in edges {
        let some = records.iter().any(|record| record[field] == value);
        assert!(some, "{} {value}", NAMES[field]);
    }
    // ones that no reading makes: a position between lines, a search in one
    assert!(records.iter().any(|r| r[3] == 0 && r[0] != 0 && r[2] != 0));
    assert!(records.iter().any(|r| r[3] == 1 && r[4] != 0));
}

fn settings(faults: &Faults) -> BTreeSet<u64> {
    let mut maker = Maker::new(23);
    let mut setting = || maker.planned(Name::Read, faults).call.numbers[1];
    (0..2_000).map(|_| setting()).collect()
}

#[test]
fn settings_come_up_to_the_edge_and_above_it() {
    assert!(settings(&Faults::none()).into_iter().eq(0..=6));
    let above = settings(&Faults::of(&[13]));
    assert!([7, 8, 255].iter().all(|setting| above.contains(setting)));
    assert!(above.into_iter().all(|setting| setting > 6));
}

/// How many bits of a line are in after a call at another setting.
fn line_bits(call: &Call, setting: u64) -> Option<u64> {
    let mut call = call.clone();
    call.numbers[1] = setting;
    let numbers = expected(&call).numbers;
    (numbers[6] == 1).then_some(numbers[3])
}

/// At each setting a tail that counts just so comes, one that just does not, and
/// one that counts just so before another that is nearer.
#[test]
fn tails_come_on_both_sides_of_the_setting() {
    let mut maker = Maker::new(24);
    let mut just = BTreeSet::new();
    let mut just_not = BTreeSet::new();
    let mut before_nearer = BTreeSet::new();
    for _ in 0..20_000 {
        let call = maker.planned(Name::Read, &Faults::none()).call;
        let (setting, in_line) = (call.numbers[1], call.numbers[5]);
        if in_line == 1 || call.lent[0].count() > 100 {
            continue;
        }
        let here = line_bits(&call, setting);
        if here.is_none() && setting < 6 && line_bits(&call, setting + 1).is_some() {
            just_not.insert(setting);
        }
        if here.is_some() && setting > 0 {
            match line_bits(&call, setting - 1) {
                None => just.insert(setting),
                below => below < here && before_nearer.insert(setting),
            };
        }
    }
    assert!(just.into_iter().eq(1..=6));
    assert!(just_not.into_iter().eq(0..=5));
    assert!(before_nearer.into_iter().eq(1..=6));
}
