//! The desk. What each call must give is known from the calls before it, or from
//! the record's making, and from document 02, without the second decoder.

use second::refusal;

use crate::bench::{Bench, Difference};
use crate::call::{Call, Outcome};
use crate::desk::{Desk, BOTH, CAPTURE, FILLING, FREE, HELD, HOLDERS, PREVIEW, SERIAL, USED};
use crate::desk::{COUNTS, LAST_SERIAL, WRONG_HOLDERS, WRONG_USED};
use crate::make::{Asked, Maker};
use crate::rows::Name;

/// Bytes of one slot.
const LINE: u64 = 44_356;

/// Calls of each history.
const STEPS: usize = 400;

/// Records with anything in the numbers that say nothing, for each count.
const LITTERED: usize = 12;

/// A slot and a serial.
type Place = (u64, u64);

/// A call that was accepted.
#[derive(Clone, Copy, PartialEq, Eq)]
enum Event {
    Take(Place),
    Publish(Place),
    Release(u64, Place),
}

/// A call on a desk.
#[derive(Clone, Copy, Debug)]
enum Question {
    Take,
    Publish(Place),
    Release(u64, Place),
    Seen(u64, Place),
}

impl Question {
    fn call(self, desk: &Desk, area: u64) -> Call {
        let (name, behind) = match self {
            Question::Take => (Name::Take, vec![]),
            Question::Publish((slot, serial)) => (Name::Publish, vec![slot, serial]),
            Question::Release(c, (slot, serial)) => (Name::Release, vec![c, slot, serial]),
            Question::Seen(c, (slot, serial)) => (Name::Seen, vec![c, slot, serial]),
        };
        let numbers = [desk.numbers(), vec![area], behind].concat();
        Call::new(name, &numbers, vec![])
    }

    /// The desk in its answer.
    fn desk(self, outcome: &Outcome) -> Desk {
        match self {
            Question::Take => Desk::of(&outcome.numbers[3..]),
            _ => Desk::of(&outcome.numbers[1..]),
        }
    }
}

/// The accepted calls on a desk of so many slots, from an empty one on.
struct History {
    count: u64,
    events: Vec<Event>,
}

impl History {
    /// The line of a slot's last take, and the calls since.
    fn last_take(&self, slot: u64) -> Option<(Place, &[Event])> {
        let at = self.events.iter().rposition(|event| match event {
            Event::Take((of, _)) => *of == slot,
            _ => false,
        })?;
        match self.events[at] {
            Event::Take(place) => Some((place, &self.events[at + 1..])),
            _ => None,
        }
    }

    fn is_filling(&self, place: Place) -> bool {
        let last = self.last_take(place.0);
        last.is_some_and(|(of, since)| of == place && !since.contains(&Event::Publish(of)))
    }

    fn is_held(&self, consumer: u64, place: Place) -> bool {
        let last = self.last_take(place.0);
        let by_one_of_two = consumer == PREVIEW || consumer == CAPTURE;
        by_one_of_two
            && last.is_some_and(|(of, since)| {
                of == place
                    && since.contains(&Event::Publish(of))
                    && !since.contains(&Event::Release(consumer, of))
            })
    }

    /// "free ones being those never taken in the history, or whose last line was
    /// since released by both"
    fn is_free(&self, slot: u64) -> bool {
        self.last_take(slot).is_none_or(|(of, since)| {
            let released = |consumer| since.contains(&Event::Release(consumer, of));
            released(PREVIEW) && released(CAPTURE)
        })
    }

    fn given(&self) -> u64 {
        let takes = self.events.iter();
        takes.filter(|e| matches!(e, Event::Take(_))).count() as u64
    }

    /// The record that it must have led to.
    fn desk(&self) -> Desk {
        let mut desk = Desk {
            count: self.count,
            last: self.given(),
            ..Desk::default()
        };
        for slot in 0..self.count {
            let Some((place, _)) = self.last_take(slot) else {
                continue;
            };
            let held = |consumer| u64::from(self.is_held(consumer, place)) * consumer;
            let holders = held(PREVIEW) + held(CAPTURE);
            desk.slots[slot as usize] = match (self.is_filling(place), holders) {
                (true, _) => [place.1, FILLING, 0],
                (false, 0) => [0, FREE, 0],
                (false, by) => [place.1, HELD, by],
            };
        }
        desk
    }

    /// What a call must be refused with, 0 where it must be served.
    fn refused(&self, question: Question, area: u64) -> u8 {
        let (slot, there) = match question {
            Question::Take => (0, (0..self.count).any(|slot| self.is_free(slot))),
            Question::Publish(place) => (place.0, self.is_filling(place)),
            Question::Release(c, place) | Question::Seen(c, place) => {
                (place.0, self.is_held(c, place))
            }
        };
        match question {
            _ if slot >= self.count => refusal::OUT_OF_RANGE,
            _ if area < self.count * LINE => refusal::SHORT_INPUT,
            _ if there => 0,
            Question::Take => refusal::NO_SLOT,
            _ => refusal::NO_HOLD,
        }
    }

    /// The event of a call that was served.
    fn served(&mut self, question: Question) {
        let event = match question {
            Question::Take => {
                let mut slots = 0..self.count;
                let lowest = slots.find(|slot| self.is_free(*slot)).unwrap_or(0);
                Event::Take((lowest, self.given() + 1))
            }
            Question::Publish(place) => Event::Publish(place),
            Question::Release(consumer, place) => Event::Release(consumer, place),
            Question::Seen(..) => return,
        };
        self.events.push(event);
    }

    /// A place that is often right: where a line is or was, beside it, or any.
    fn some_place(&self, maker: &mut Maker) -> Place {
        let slot = maker.dice.under(self.count as usize) as u64;
        let far = maker.dice.pick(&[256, 1 << 32, 1 << 63]);
        let (of, serial) = match self.last_take(slot) {
            Some((place, _)) => place,
            None => (slot, 1),
        };
        let old = maker.dice.under(1 + self.given() as usize) as u64;
        match maker.dice.under(16) {
            0 => (slot, old),
            1 => (slot, self.given() + 1),
            2 => (slot, 0),
            3 => (maker.dice.between(self.count as usize, 9) as u64, serial),
            4 => (far + slot, serial),
            5 => ((of + 1) % self.count, serial),
            _ => (of, serial),
        }
    }

    fn some_question(&self, maker: &mut Maker) -> Question {
        let place = self.some_place(maker);
        let any = maker.dice.byte().into();
        let consumer = maker.dice.pick(&[1, 1, 1, 1, 2, 2, 2, 2, 0, 3, any]);
        match maker.dice.under(10) {
            0..=1 => Question::Take,
            2..=4 => Question::Publish(place),
            5..=7 => Question::Release(consumer, place),
            _ => Question::Seen(consumer, place),
        }
    }
}

/// A call that must be refused with this number, or served.
fn asked(bench: &mut Bench, call: Call, wanted: u8) -> Result<Outcome, Difference> {
    let wanted = Some(wanted);
    bench.ask(&Asked { call, wanted })
}

/// A call that must be served with this desk.
fn gives(
    bench: &mut Bench,
    desk: &Desk,
    question: Question,
    wanted: &Desk,
) -> Result<(), Difference> {
    let outcome = asked(bench, question.call(desk, desk.area()), 0)?;
    let given = question.desk(&outcome);
    match given == *wanted {
        true => Ok(()),
        false => Err(Difference(format!(
            "{question:?}: a desk is {given:?}, made for {wanted:?}"
        ))),
    }
}

/// The part of the area that is seen is the slot's.
fn is_part(outcome: &Outcome, slot: u64) -> Result<(), Difference> {
    let wanted = [0, slot * LINE, (slot + 1) * LINE];
    match outcome.numbers == wanted {
        true => Ok(()),
        false => Err(Difference(format!(
            "slot {slot} is seen at {:?}",
            outcome.numbers
        ))),
    }
}

fn shows(bench: &mut Bench, call: Call, slot: u64) -> Result<(), Difference> {
    is_part(&asked(bench, call, 0)?, slot)
}

/// Any calls from an empty desk, wrong ones among them.
fn history(bench: &mut Bench, maker: &mut Maker, count: u64) -> Result<(), Difference> {
    let fresh = asked(bench, Call::new(Name::FreshDesk, &[count], vec![]), 0)?;
    let mut desk = Desk::of(&fresh.numbers[1..]);
    let mut history = History {
        count,
        events: vec![],
    };
    for _ in 0..STEPS {
        let question = history.some_question(maker);
        let area = match maker.dice.under(16) {
            0 => desk.area() - 1,
            1 => maker.dice.pick(&[0, LINE, desk.area() + 1, u64::MAX]),
            _ => desk.area(),
        };
        let wanted = history.refused(question, area);
        let outcome = asked(bench, question.call(&desk, area), wanted)?;
        if let Question::Seen(_, place) = question {
            if wanted == 0 {
                is_part(&outcome, place.0)?;
            }
            continue;
        }
        if wanted == 0 {
            history.served(question);
        }
        desk = question.desk(&outcome);
        if desk != history.desk() {
            let by_history = history.desk();
            return Err(Difference(format!(
                "{question:?}: a desk is {desk:?}, by its history {by_history:?}"
            )));
        }
    }
    Ok(())
}

/// A desk of so many slots that are used so, with serials from 1 on.
fn used(count: u64, by: impl Fn(u64) -> [u64; 2]) -> Desk {
    let mut desk = Desk {
        count,
        last: count,
        ..Desk::default()
    };
    for slot in 0..count {
        let [used, holders] = by(slot);
        let serial = if used == FREE { 0 } else { slot + 1 };
        desk.slots[slot as usize] = [serial, used, holders];
    }
    desk
}

/// Each call at each slot of a desk changes that slot, a take also the last
/// serial, and nothing else: not the numbers that say nothing either.
fn nothing_else(bench: &mut Bench, maker: &mut Maker, count: u64) -> Result<(), Difference> {
    let marks = [[FREE, 0], [FILLING, 0], [HELD, BOTH]];
    for time in 0..LITTERED {
        let some: Vec<[u64; 2]> = (0..count).map(|_| maker.dice.pick(&marks)).collect();
        let mut desk = used(count, |slot| some[slot as usize]);
        if time > 0 {
            maker.litter(&mut desk);
        }
        let free = (0..count).find(|slot| desk.slots[*slot as usize][USED] == FREE);
        match free {
            None => {
                let call = Question::Take.call(&desk, desk.area());
                asked(bench, call, refusal::NO_SLOT)?;
            }
            Some(slot) => {
                let mut after = desk.clone();
                after.last += 1;
                after.slots[slot as usize] = [after.last, FILLING, 0];
                gives(bench, &desk, Question::Take, &after)?;
            }
        }
        for slot in 0..count {
            let place = (slot, slot + 1);
            let [serial, is, _] = desk.slots[slot as usize];
            let after = |numbers: [u64; 3]| {
                let mut after = desk.clone();
                after.slots[slot as usize] = numbers;
                after
            };
            if is == FILLING {
                let held = after([serial, HELD, BOTH]);
                gives(bench, &desk, Question::Publish(place), &held)?;
                continue;
            }
            let publish = Question::Publish((slot, serial)).call(&desk, desk.area());
            asked(bench, publish, refusal::NO_HOLD)?;
            for (consumer, other) in [(PREVIEW, CAPTURE), (CAPTURE, PREVIEW)] {
                let release = Question::Release(consumer, (slot, serial));
                if is == FREE {
                    asked(bench, release.call(&desk, desk.area()), refusal::NO_HOLD)?;
                    continue;
                }
                let one = after([serial, HELD, other]);
                gives(bench, &desk, release, &one)?;
                let last = Question::Release(other, place);
                gives(bench, &one, last, &after([0, FREE, 0]))?;
            }
        }
    }
    Ok(())
}

/// A record that is refused with 12, whatever is asked of it, and before 2, 16 and
/// 17.
fn impossible(bench: &mut Bench, wrong: &Desk, asks: [Place; 2]) -> Result<(), Difference> {
    let [filling, held] = asks;
    for area in [wrong.area(), wrong.area() - 1, 0] {
        for question in [
            Question::Take,
            Question::Publish(filling),
            Question::Release(PREVIEW, held),
            Question::Release(0, held),
            Question::Seen(CAPTURE, held),
        ] {
            asked(bench, question.call(wrong, area), refusal::STATE)?;
        }
    }
    Ok(())
}

/// A record that is served: the last slot is held by both, the one before it being
/// filled.
fn served(bench: &mut Bench, desk: &Desk) -> Result<(), Difference> {
    let [filling, held] = asks(desk);
    let area = desk.area();
    asked(bench, Question::Publish(filling).call(desk, area), 0)?;
    asked(bench, Question::Release(PREVIEW, held).call(desk, area), 0)?;
    shows(
        bench,
        Question::Seen(CAPTURE, held).call(desk, area),
        held.0,
    )
}

/// The two slots of a record that calls are about.
fn asks(desk: &Desk) -> [Place; 2] {
    let place = |slot: u64| (slot, desk.slots[slot as usize][SERIAL]);
    [place(desk.count - 2), place(desk.count - 1)]
}

/// A desk whose last slots are filling and held, with every other one in some use,
/// and one serial to spare.
fn base(count: u64) -> Desk {
    let mut desk = used(count, |slot| match slot {
        _ if slot + 2 == count => [FILLING, 0],
        _ if slot + 1 == count => [HELD, BOTH],
        _ => [[HELD, PREVIEW], [FILLING, 0], [HELD, CAPTURE]][slot as usize % 3],
    });
    desk.last += 1;
    desk
}

/// Each clause of 12 at every slot, at its edge, where the record is served, and
/// beyond it.
fn clauses(bench: &mut Bench, count: u64) -> Result<(), Difference> {
    let base = base(count);
    served(bench, &base)?;
    for slot in 0..8 {
        let with = |place: usize, number: u64| {
            let mut desk = base.clone();
            desk.slots[slot][place] = number;
            desk
        };
        let marked = |used: u64, holders: u64| {
            let mut desk = base.clone();
            desk.slots[slot] = [desk.last, used, holders];
            desk
        };
        let mut wrong = vec![];
        for used in [FILLING, HELD] {
            for serial in [0, base.last + 1, LAST_SERIAL] {
                let mut desk = marked(used, BOTH);
                desk.slots[slot][SERIAL] = serial;
                wrong.push(desk);
            }
            for other in (0..count as usize).filter(|other| *other != slot) {
                let mut desk = marked(used, BOTH);
                desk.slots[slot][SERIAL] = base.slots[other][SERIAL];
                wrong.push(desk);
            }
        }
        wrong.push(marked(HELD, 0));
        wrong.extend(WRONG_USED.map(|used| marked(used, BOTH)));
        wrong.extend(WRONG_HOLDERS.map(|holders| marked(HELD, holders)));

        for desk in wrong {
            match (slot as u64) < count {
                true => impossible(bench, &desk, asks(&base))?,
                // nobody looks at a slot that the desk does not have
                false => served(bench, &desk)?,
            }
        }
        if (slot as u64) < count {
            // the last serial that was given, and holders that nobody looks at
            served(bench, &with(SERIAL, base.last))?;
            if base.slots[slot][USED] == FILLING {
                for holders in WRONG_HOLDERS {
                    served(bench, &with(HOLDERS, holders))?;
                }
            }
            if slot as u64 + 2 < count {
                for stale in [0, 1, count, base.last + 1, LAST_SERIAL] {
                    let mut desk = base.clone();
                    desk.slots[slot] = [stale, FREE, stale & 0xFFFF];
                    served(bench, &desk)?;
                }
            }
        }
    }
    Ok(())
}

/// 19 for counts and slots, before everything; 2 at its edge.
fn ranges(bench: &mut Bench, count: u64) -> Result<(), Difference> {
    let base = base(count);
    let [filling, held] = asks(&base);
    let mut wrong = base.clone();
    wrong.slots[0] = [0, HELD, 0];
    for desk in [&base, &wrong] {
        for area in [base.area(), 0] {
            for far in [1 << 8, 1 << 16, 1 << 32, 1 << 63] {
                for slot in [far + filling.0, far + held.0] {
                    out_of_range(bench, desk, area, slot, [filling.1, held.1])?;
                }
            }
            for slot in [count, count + 1, 7, 8, 9, u64::MAX] {
                if slot >= count {
                    out_of_range(bench, desk, area, slot, [filling.1, held.1])?;
                }
            }
        }
        for other in [0, 1, 9, 10, 256 + count, (1 << 16) + count, LAST_SERIAL] {
            let mut desk = desk.clone();
            desk.count = other;
            let number = refusal::OUT_OF_RANGE;
            for area in [0, other * LINE, u64::MAX] {
                asked(bench, Question::Take.call(&desk, area), number)?;
                out_of_range(bench, &desk, area, 0, [filling.1, held.1])?;
                out_of_range(bench, &desk, area, filling.0, [filling.1, held.1])?;
            }
            asked(bench, Call::new(Name::FreshDesk, &[other], vec![]), number)?;
        }
    }
    let mut free = base.clone();
    free.slots[0] = [0, FREE, 0];
    for (area, number) in [
        (0, refusal::SHORT_INPUT),
        (base.area() - LINE, refusal::SHORT_INPUT),
        (base.area() - 1, refusal::SHORT_INPUT),
        (base.area(), 0),
        (base.area() + 1, 0),
        (u64::MAX, 0),
    ] {
        if count > 2 {
            asked(bench, Question::Take.call(&free, area), number)?;
        }
        for question in [
            Question::Publish(filling),
            Question::Release(PREVIEW, held),
            Question::Seen(PREVIEW, held),
        ] {
            asked(bench, question.call(&base, area), number)?;
        }
    }
    Ok(())
}

fn out_of_range(
    bench: &mut Bench,
    desk: &Desk,
    area: u64,
    slot: u64,
    serials: [u64; 2],
) -> Result<(), Difference> {
    for question in [
        Question::Publish((slot, serials[0])),
        Question::Release(PREVIEW, (slot, serials[1])),
        Question::Seen(CAPTURE, (slot, serials[1])),
    ] {
        asked(bench, question.call(desk, area), refusal::OUT_OF_RANGE)?;
    }
    Ok(())
}

/// Every consumer's number, at slots that are held by one, by the other and by both.
fn consumers(bench: &mut Bench) -> Result<(), Difference> {
    let desk = used(3, |slot| [HELD, slot + 1]);
    for consumer in 0..256 {
        for slot in 0..3 {
            let place = (slot, slot + 1);
            let holds = (1..=2).contains(&consumer) && (slot + 1) & consumer != 0;
            let number = if holds { 0 } else { refusal::NO_HOLD };
            for question in [
                Question::Release(consumer, place),
                Question::Seen(consumer, place),
            ] {
                asked(bench, question.call(&desk, desk.area()), number)?;
            }
        }
    }
    Ok(())
}

/// The last serials, and what comes when they are used up: 18, before 16.
fn last_serials(bench: &mut Bench, count: u64) -> Result<(), Difference> {
    let mut desk = Desk {
        count,
        last: LAST_SERIAL - 2,
        ..Desk::default()
    };
    for slot in 0..2 {
        let mut after = desk.clone();
        after.last += 1;
        after.slots[slot] = [after.last, FILLING, 0];
        gives(bench, &desk, Question::Take, &after)?;
        desk = after;
    }
    let number = refusal::NO_SERIAL;
    asked(bench, Question::Take.call(&desk, desk.area()), number)?;
    let place = (1, LAST_SERIAL);
    let mut held = desk.clone();
    held.slots[1] = [LAST_SERIAL, HELD, BOTH];
    gives(bench, &desk, Question::Publish(place), &held)?;
    asked(bench, Question::Take.call(&held, held.area()), number)?;
    shows(
        bench,
        Question::Seen(PREVIEW, place).call(&held, held.area()),
        1,
    )?;

    let mut full = base(count);
    full.last = LAST_SERIAL;
    let call = Question::Take.call(&full, full.area());
    asked(bench, call, number)?;
    full.last = LAST_SERIAL - 1;
    let call = Question::Take.call(&full, full.area());
    asked(bench, call, refusal::NO_SLOT)?;
    Ok(())
}

pub fn run(bench: &mut Bench, maker: &mut Maker) -> Result<(), Difference> {
    for count in COUNTS {
        history(bench, maker, count)?;
        nothing_else(bench, maker, count)?;
        clauses(bench, count)?;
        ranges(bench, count)?;
        last_serials(bench, count)?;
    }
    consumers(bench)?;
    for count in 0..300 {
        let number = match COUNTS.contains(&count) {
            true => 0,
            false => refusal::OUT_OF_RANGE,
        };
        asked(bench, Call::new(Name::FreshDesk, &[count], vec![]), number)?;
    }
    Ok(())
}
