//! Document 02, T-06: the desk. Its sentences are tested over histories: what is
//! true of a slot must follow from the accepted calls so far and nothing else.
//!
//! Where 19, 18, 16 and 17 stand among the other refusals is tested with them, in
//! `refusals.rs`.

use second::damage::Random;
use second::desk::{fresh, impossible, part, publish, release, seen, take};
use second::desk::{Desk, Place, CAPTURE, LAST_SERIAL, PREVIEW};

/// Bytes of one slot.
const LINE: usize = 44_356;

/// Long enough for any desk.
const AREA: usize = 8 * LINE;

/// A call that was accepted.
#[derive(Clone, Copy, Debug, PartialEq, Eq)]
enum Event {
    Take(Place),
    Publish(Place),
    Release(usize, Place),
}

/// The line of a slot's last take, and the calls since.
fn last_take(history: &[Event], slot: usize) -> Option<(Place, &[Event])> {
    let taken = |event: &Event| matches!(event, Event::Take((of, _)) if *of == slot);
    let at = history.iter().rposition(taken)?;
    match history[at] {
        Event::Take(place) => Some((place, &history[at + 1..])),
        _ => None,
    }
}

/// "free ones being those never taken in the history, or whose last line was since
/// released by both"
fn is_free(history: &[Event], slot: usize) -> bool {
    last_take(history, slot).is_none_or(|(place, since)| {
        [PREVIEW, CAPTURE]
            .iter()
            .all(|c| since.contains(&Event::Release(*c, place)))
    })
}

/// Taken, and the line not published since.
fn is_filling(history: &[Event], slot: usize) -> Option<Place> {
    let (place, since) = last_take(history, slot)?;
    (!since.contains(&Event::Publish(place))).then_some(place)
}

/// Published since it was taken, and not released by this consumer.
fn is_held_by(history: &[Event], slot: usize, consumer: usize) -> Option<Place> {
    let (place, since) = last_take(history, slot)?;
    let published = since.contains(&Event::Publish(place));
    let released = since.contains(&Event::Release(consumer, place));
    (published && !released).then_some(place)
}

/// What the desk must be after a history.
fn follows(desk: &Desk, history: &[Event]) {
    let (mut free, mut filling, mut held) = (0, 0, 0);
    for slot in 0..desk.count {
        let by = [PREVIEW, CAPTURE].map(|c| is_held_by(history, slot, c));
        let (is_free, is_filling) = (is_free(history, slot), is_filling(history, slot));
        let is_held = by.iter().any(Option::is_some);
        // "No slot is ever in two of the states free, filling and held"
        let states = [is_free, is_filling.is_some(), is_held];
        assert_eq!(states.iter().filter(|state| **state).count(), 1);
        free += usize::from(is_free);
        filling += usize::from(is_filling.is_some());
        held += usize::from(is_held);

        assert_eq!(desk.free().contains(&slot), is_free);
        let of = |place: &&Place| place.0 == slot;
        assert_eq!(desk.filling.iter().find(of), is_filling.as_ref());
        let line = by[0].or(by[1]);
        assert_eq!(desk.lines.iter().find(of), line.as_ref());
        for (consumer, place) in (1..).zip(by) {
            let hold = place.is_some_and(|place| desk.holds.contains(&(consumer, place)));
            assert_eq!(hold, place.is_some());
        }
    }
    // "free plus filling plus held equals the number of slots"
    assert_eq!(free + filling + held, desk.count);
    assert_eq!(desk.filling.len() + desk.lines.len() + free, desk.count);
    let holds = (0..desk.count).flat_map(|slot| {
        let of = move |c| is_held_by(history, slot, c).map(|place| (c, place));
        [of(PREVIEW), of(CAPTURE)].into_iter().flatten()
    });
    assert_eq!(desk.holds.iter().copied().collect::<Vec<_>>(), {
        let mut all: Vec<_> = holds.collect();
        all.sort();
        all
    });
    // 12 never comes from an empty desk
    assert!(!impossible(desk));
}

/// A place that is often right: of a busy slot, now and then with another serial.
fn some_place(desk: &Desk, history: &[Event], random: &mut Random) -> Place {
    let busy: Vec<Place> = desk.filling.iter().chain(&desk.lines).copied().collect();
    let old = history.get(random.under(history.len().max(1)));
    let slot = random.under(desk.count);
    match (random.under(6), old) {
        (0, _) => (slot, desk.last + random.under(3) as u64),
        (1, _) => (slot, random.under(1 + desk.last as usize) as u64),
        (2, Some(Event::Take(place) | Event::Publish(place) | Event::Release(_, place))) => *place,
        _ if !busy.is_empty() => busy[random.under(busy.len())],
        _ => (slot, 1),
    }
}

#[test]
fn any_history_from_an_empty_desk() {
    let mut random = Random::new(2_026);
    let mut refused = [0; 20];
    for round in 0..60 {
        let count = 2 + round % 7;
        let mut desk = fresh(count).unwrap();
        let mut history = vec![];
        let mut serials = vec![];
        for _ in 0..150 {
            let before = desk.clone();
            let place = some_place(&desk, &history, &mut random);
            let consumer = [1, 2, 1, 2, 0, 3][random.under(6)];
            let event = match random.under(6) {
                0 | 1 => take(&mut desk, AREA).map(Event::Take),
                2 | 3 => publish(&mut desk, AREA, place).map(|()| Event::Publish(place)),
                _ => release(&mut desk, AREA, consumer, place)
                    .map(|()| Event::Release(consumer, place)),
            };
            match event {
                Ok(event) => {
                    if let Event::Take((slot, serial)) = event {
                        // the lowest free slot, and the next serial
                        assert_eq!(before.free()[0], slot);
                        serials.push(serial);
                    }
                    if let Event::Release(consumer, place) = event {
                        // a hold is released once in any history
                        assert!(!history.contains(&event));
                        let other = (3 - consumer, place);
                        assert_eq!(before.holds.contains(&other), desk.holds.contains(&other));
                    }
                    history.push(event);
                }
                Err(number) => {
                    assert_eq!(desk, before);
                    refused[usize::from(number)] += 1;
                    if number == 16 {
                        assert!(desk.free().is_empty());
                    }
                }
            }
            follows(&desk, &history);
            for consumer in 0..4 {
                let place = some_place(&desk, &history, &mut random);
                let may = is_held_by(&history, place.0, consumer) == Some(place)
                    && (consumer == PREVIEW || consumer == CAPTURE);
                let answer = seen(&desk, AREA, consumer, place);
                assert_eq!(answer, if may { Ok(part(place.0)) } else { Err(17) });
            }
        }
        // "Serial numbers run from 1 .. and never repeat"
        let all = 1..=serials.len() as u64;
        assert!(serials.iter().copied().eq(all));
    }
    // both came, and no other
    assert!(refused[16] > 50 && refused[17] > 500, "{refused:?}");
    assert_eq!(refused.iter().sum::<usize>(), refused[16] + refused[17]);
}

#[test]
fn a_line_from_its_take_to_both_releases() {
    let mut desk = fresh(2).unwrap();
    assert_eq!(take(&mut desk, 2 * LINE), Ok((0, 1)));
    assert_eq!(seen(&desk, 2 * LINE, PREVIEW, (0, 1)), Err(17));
    assert_eq!(release(&mut desk, 2 * LINE, PREVIEW, (0, 1)), Err(17));
    assert_eq!(publish(&mut desk, 2 * LINE, (0, 1)), Ok(()));
    assert_eq!(publish(&mut desk, 2 * LINE, (0, 1)), Err(17));
    assert_eq!(take(&mut desk, 2 * LINE), Ok((1, 2)));
    assert_eq!(take(&mut desk, 2 * LINE), Err(16));
    assert_eq!(publish(&mut desk, 2 * LINE, (1, 2)), Ok(()));
    assert_eq!(seen(&desk, 2 * LINE, CAPTURE, (1, 2)), Ok((LINE, 2 * LINE)));

    assert_eq!(release(&mut desk, 2 * LINE, CAPTURE, (0, 1)), Ok(()));
    assert_eq!(release(&mut desk, 2 * LINE, CAPTURE, (0, 1)), Err(17));
    assert_eq!(seen(&desk, 2 * LINE, PREVIEW, (0, 1)), Ok((0, LINE)));
    assert_eq!(take(&mut desk, 2 * LINE), Err(16));
    assert_eq!(release(&mut desk, 2 * LINE, PREVIEW, (0, 1)), Ok(()));
    assert_eq!(take(&mut desk, 2 * LINE), Ok((0, 3)));
    // the old hold is not that of the new line
    assert_eq!(release(&mut desk, 2 * LINE, PREVIEW, (0, 1)), Err(17));
    assert_eq!(release(&mut desk, 2 * LINE, PREVIEW, (0, 3)), Err(17));
}

#[test]
fn counts_and_slots_in_range() {
    for count in 0..300 {
        let served = (2..=8).contains(&count);
        assert_eq!(fresh(count).is_ok(), served);
        let mut desk = Desk {
            count,
            ..Desk::default()
        };
        let wanted = if served { Ok((0, 1)) } else { Err(19) };
        assert_eq!(take(&mut desk, 300 * LINE), wanted);
    }
    for count in 2..=8 {
        for slot in (0..12).chain([256, usize::MAX]) {
            let wanted = Err(if slot < count { 17 } else { 19 });
            let mut desk = fresh(count).unwrap();
            assert_eq!(publish(&mut desk, AREA, (slot, 1)), wanted);
            assert_eq!(release(&mut desk, AREA, PREVIEW, (slot, 1)), wanted);
            let answer = seen(&desk, AREA, PREVIEW, (slot, 1));
            assert_eq!(answer.map(|_| ()), wanted);
        }
        // the area's edge
        let mut desk = fresh(count).unwrap();
        assert_eq!(take(&mut desk, count * LINE - 1), Err(2));
        assert_eq!(take(&mut desk, count * LINE), Ok((0, 1)));
    }
}

/// A desk of three slots: slot 0 is being filled, slots 1 and 2 have a line.
fn desk_of(last: u64, serials: [u64; 3], holds: &[(usize, Place)]) -> Desk {
    Desk {
        count: 3,
        last,
        filling: [(0, serials[0])].into(),
        lines: [(1, serials[1]), (2, serials[2])].into(),
        holds: holds.iter().copied().collect(),
    }
}

#[test]
fn each_clause_of_12() {
    let holds = |serials: [u64; 3]| [(PREVIEW, (1, serials[1])), (CAPTURE, (2, serials[2]))];
    let wrong = |last, serials| impossible(&desk_of(last, serials, &holds(serials)));
    assert!(!wrong(3, [1, 2, 3]));
    assert!(!wrong(3, [3, 2, 1]));
    assert!(!wrong(LAST_SERIAL, [7, LAST_SERIAL, 1]));
    for place in 0..3 {
        let mut serials = [1, 2, 3];
        // serial 0, and one not yet given: 9 is the last one
        serials[place] = 0;
        assert!(wrong(9, serials));
        serials[place] = 9;
        assert!(!wrong(9, serials));
        serials[place] = 10;
        assert!(wrong(9, serials));
        // a serial in two busy slots, both with a line or one being filled
        for other in (0..3).filter(|other| *other != place) {
            let mut serials = [1, 2, 3];
            serials[place] = serials[other];
            assert!(wrong(9, serials));
        }
    }
    // a held slot without holder
    for (holds, is_wrong) in [
        (vec![], true),
        (vec![(PREVIEW, (1, 2))], true),
        (vec![(PREVIEW, (1, 2)), (CAPTURE, (1, 2))], true),
        (vec![(PREVIEW, (1, 2)), (PREVIEW, (2, 3))], false),
        (vec![(CAPTURE, (1, 2)), (CAPTURE, (2, 3))], false),
    ] {
        assert_eq!(impossible(&desk_of(3, [1, 2, 3], &holds)), is_wrong);
    }
}

#[test]
fn the_last_serials() {
    let mut desk = fresh(8).unwrap();
    desk.last = LAST_SERIAL - 1;
    assert_eq!(take(&mut desk, AREA), Ok((0, LAST_SERIAL)));
    assert_eq!(take(&mut desk, AREA), Err(18));
    assert_eq!(publish(&mut desk, AREA, (0, LAST_SERIAL)), Ok(()));
    for consumer in [PREVIEW, CAPTURE] {
        assert_eq!(take(&mut desk, AREA), Err(18));
        let place = (0, LAST_SERIAL);
        assert_eq!(release(&mut desk, AREA, consumer, place), Ok(()));
    }
    // all free, and none to take
    assert_eq!(desk.free().len(), 8);
    assert_eq!(take(&mut desk, AREA), Err(18));
}
