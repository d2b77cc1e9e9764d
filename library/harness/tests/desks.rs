//! Desks that are made: each clause of refusal 12 comes by itself and at its edge,
//! and possible ones with anything where nothing is said. The suite of desks tries
//! what it says, knows by itself what must come, and notices a wrong library alone.

mod common;

use std::cell::RefCell;
use std::collections::{BTreeMap, BTreeSet};
use std::rc::Rc;

use common::said_by;
use harness::bench::Bench;
use harness::call::{Call, Outcome};
use harness::desk::{Desk, NUMBERS};
use harness::expected::expected;
use harness::faults::Faults;
use harness::make::Maker;
use harness::rows::Name;
use harness::suites::desks;

/// The calls on a desk.
const ON_A_DESK: [Name; 4] = [Name::Take, Name::Publish, Name::Release, Name::Seen];

/// The clauses of 12 that a desk breaks, by document 02's list; a mark that says
/// nothing is one more.
fn broken(desk: &Desk) -> BTreeSet<&'static str> {
    let mut broken = BTreeSet::new();
    let own = &desk.slots[..desk.count as usize];
    let busy = own.iter().filter(|slot| slot[1] != 0);
    let mut serials = vec![];
    for [serial, used, holders] in busy {
        let mut clause = |is_broken: bool, words| {
            if is_broken {
                broken.insert(words);
            }
        };
        clause(*used > 2, "used");
        clause(*used == 2 && *holders > 3, "holders");
        clause(*used == 2 && *holders == 0, "no holder");
        clause(*used <= 2 && *serial == 0, "serial 0");
        clause(*used <= 2 && *serial > desk.last, "not yet given");
        clause(*used <= 2 && serials.contains(serial), "in two slots");
        serials.push(*serial);
    }
    broken
}

/// Calls of every name with these faults.
fn made(seed: u64, faults: &Faults) -> Vec<Call> {
    let mut maker = Maker::new(seed);
    let names = ON_A_DESK.iter().cycle().take(8_000);
    names
        .map(|name| maker.planned(*name, faults).call)
        .collect()
}

#[test]
fn every_clause_breaks_alone_and_at_its_edge() {
    let mut alone: BTreeMap<&str, Vec<Desk>> = BTreeMap::new();
    for call in made(91, &Faults::of(&[12])) {
        let desk = Desk::of(&call.numbers);
        let clauses = broken(&desk);
        assert!(!clauses.is_empty(), "{desk:?}");
        if let [clause] = Vec::from_iter(clauses)[..] {
            alone.entry(clause).or_default().push(desk);
        }
    }
    assert_eq!(alone.len(), 6, "{:?}", alone.keys());
    for (clause, desks) in &alone {
        for count in 2..=8 {
            assert!(desks.iter().any(|desk| desk.count == count), "{clause}");
        }
    }
    let met = |clause: &str, at_edge: &dyn Fn(&Desk, &[u64; 3]) -> bool| {
        let some = |desk: &Desk| {
            let own = &desk.slots[..desk.count as usize];
            own.iter().any(|slot| at_edge(desk, slot))
        };
        assert!(alone[clause].iter().any(some), "{clause}");
    };
    for used in [1, 2] {
        met("serial 0", &|_, slot| slot[..2] == [0, used]);
        met("not yet given", &|desk, slot| {
            slot[..2] == [desk.last + 1, used]
        });
        met("in two slots", &|desk, slot| {
            let same = desk.slots.iter().filter(|s| s[..2] == [slot[0], 3 - used]);
            slot[1] == used && same.count() > 0
        });
    }
    met("no holder", &|_, slot| slot[1..] == [2, 0]);
    met("used", &|_, slot| slot[1] == 3);
    met("used", &|_, slot| slot[1] == 256);
    met("holders", &|_, slot| slot[1..] == [2, 4]);
    met("holders", &|_, slot| slot[1..] == [2, 256]);
}

#[test]
fn possible_desks_come_with_anything_where_nothing_is_said() {
    let mut seen = BTreeSet::new();
    for call in made(92, &Faults::none()) {
        let desk = Desk::of(&call.numbers);
        assert!(broken(&desk).is_empty(), "{desk:?}");
        let (own, past) = desk.slots.split_at(desk.count as usize);
        let busy: Vec<u64> = own.iter().filter(|s| s[1] != 0).map(|s| s[0]).collect();
        for slot in own {
            match slot {
                [0, 0, 0] => _ = seen.insert("free and empty"),
                [serial, 0, _] if busy.contains(serial) => _ = seen.insert("free, a busy serial"),
                [serial, 0, _] if *serial > desk.last => _ = seen.insert("free, not given"),
                [_, 0, holders] if *holders > 3 => _ = seen.insert("free with holders"),
                [_, 1, 0] => _ = seen.insert("filling"),
                [_, 1, holders] if *holders > 3 => _ = seen.insert("filling with holders"),
                [serial, 2, _] if *serial == desk.last => _ = seen.insert("held, the last serial"),
                _ => (),
            }
        }
        for slot in past {
            match slot {
                [0, 0, 0] => _ = seen.insert("past the count, empty"),
                [serial, 1..=2, _] if busy.contains(serial) => _ = seen.insert("past it, in two"),
                [0, 1..=2, _] => _ = seen.insert("past it, serial 0"),
                [_, used, _] if *used > 2 => _ = seen.insert("past it, a wrong mark"),
                _ => (),
            }
        }
        let area = call.numbers[NUMBERS];
        if area == 44_356 * desk.count {
            seen.insert("just enough area");
        }
        if call.name == Name::Take && desk.last == u64::from(u32::MAX) - 1 {
            seen.insert("one serial left");
        }
    }
    assert_eq!(seen.len(), 13, "{seen:?}");
}

/// 17 comes in every way that there is.
#[test]
fn holds_are_missing_in_every_way() {
    let mut ways = BTreeSet::new();
    for call in made(93, &Faults::of(&[17])) {
        let desk = Desk::of(&call.numbers);
        assert!(broken(&desk).is_empty(), "{desk:?}");
        let (consumer, slot, serial) = match (call.name, &call.numbers[NUMBERS..]) {
            (Name::Take, _) => continue,
            (Name::Publish, [_, slot, serial]) => (0, *slot, *serial),
            (_, [_, consumer, slot, serial]) => (*consumer, *slot, *serial),
            _ => unreachable!("numbers behind a desk"),
        };
        let [own, used, holders] = desk.slots[slot as usize];
        let name = if call.name == Name::Publish {
            "publish"
        } else {
            "hold"
        };
        ways.insert((
            name,
            match (own == serial, used) {
                (false, 0) => "free",
                (true, 0) => "free, under its old serial",
                (false, _) => "another serial",
                (true, 1) => "filling",
                (true, _) if consumer == 0 || consumer > 2 => "nobody",
                (true, _) if holders & consumer == 0 => "the other's",
                _ => "held",
            },
        ));
    }
    let expected = [
        ("hold", "another serial"),
        ("hold", "filling"),
        ("hold", "free"),
        ("hold", "free, under its old serial"),
        ("hold", "nobody"),
        ("hold", "the other's"),
        ("publish", "another serial"),
        ("publish", "free"),
        ("publish", "free, under its old serial"),
        ("publish", "nobody"),
    ];
    assert_eq!(Vec::from_iter(ways), expected);
}

/// What the suite says of a wrong library.
fn said_of(before: fn(&mut Call), behind: fn(&Call, &mut Outcome)) -> String {
    said_by(desks::run, 94, before, behind)
}

#[test]
fn a_wrong_library_is_noticed() {
    let wrong: [(fn(&mut Call), fn(&Call, &mut Outcome), &str); 6] = [
        // a slot by its low byte
        (
            |call| {
                let at = match call.name {
                    Name::Publish => NUMBERS + 1,
                    Name::Release | Name::Seen => NUMBERS + 2,
                    _ => return,
                };
                call.numbers[at] &= 255;
            },
            |_, _| (),
            "expected 19",
        ),
        // consumer 3 is capture
        (
            |call| {
                if call.name == Name::Release && call.numbers[NUMBERS + 1] == 3 {
                    call.numbers[NUMBERS + 1] = 2;
                }
            },
            |_, _| (),
            "expected 17",
        ),
        // preview alone holds a published line
        (
            |_| (),
            |call, outcome| {
                if call.name == Name::Publish && outcome.numbers[0] == 0 {
                    let slot = call.numbers[NUMBERS + 1] as usize;
                    outcome.numbers[3 + 3 * slot + 2] = 1;
                }
            },
            "holders is 1, expected 3",
        ),
        // the serial is not advanced
        (
            |_| (),
            |call, outcome| {
                if call.name == Name::Take && outcome.numbers[0] == 0 {
                    outcome.numbers[4] -= 1;
                }
            },
            "last is ",
        ),
        // a refused desk is zeroed
        (
            |_| (),
            |call, outcome| {
                if call.name == Name::Release && outcome.numbers[0] != 0 {
                    outcome.numbers[1..].fill(0);
                }
            },
            "count is 0, expected ",
        ),
        // the part that is seen is that of the slot before
        (
            |_| (),
            |call, outcome| {
                if call.name == Name::Seen && outcome.numbers[1] > 0 {
                    outcome.numbers[1] -= 44_356;
                }
            },
            "from is ",
        ),
    ];
    for (before, behind, words) in wrong {
        let said = said_of(before, behind);
        assert!(
            said.contains("the way tested: ") && said.contains(words),
            "{words}: {said}"
        );
    }
    assert_eq!(said_of(|_| (), |_, _| ()), "nothing");
}

#[test]
fn the_suite_has_every_refusal_at_every_count() {
    let asked = Rc::new(RefCell::new((BTreeSet::new(), 0)));
    let kept = asked.clone();
    let mut bench = Bench::of(move |call| {
        let outcome = expected(call);
        let (kinds, calls) = &mut *kept.borrow_mut();
        kinds.insert((call.name as usize, call.numbers[0], outcome.numbers[0]));
        *calls += 1;
        outcome
    });
    desks::run(&mut bench, &mut Maker::new(95)).expect("nothing is wrong");
    let (kinds, calls) = asked.take();
    for count in 2..=8 {
        for name in ON_A_DESK {
            let behind: &[u64] = match name {
                Name::Take => &[18, 16],
                Name::Publish => &[19, 17],
                _ => &[19, 17],
            };
            for refused in [0, 12, 2].iter().chain(behind) {
                let kind = (name as usize, count, *refused);
                assert!(kinds.contains(&kind), "{name:?} {kind:?}");
            }
        }
    }
    for count in [0, 1, 9, 10, 258, 65_538, u64::from(u32::MAX)] {
        for name in [Name::FreshDesk].iter().chain(&ON_A_DESK) {
            assert!(kinds.contains(&(*name as usize, count, 19)), "{name:?}");
        }
    }
    // the quick run of the gate stays quick
    assert!(calls < 30_000, "{calls} calls");
}
