//! The desk.

use second::desk::{self, Place};
use second::refusal::{self, refuse_if, Refusal};

use super::Answer;
use crate::desk::{Desk, FILLING, FREE, HELD, NUMBERS};

/// The numbers of a slot by what the second decoder says is true of it.
fn marks(desk: &desk::Desk, slot: usize) -> [u64; 3] {
    let of = |place: &&Place| place.0 == slot;
    if let Some((_, serial)) = desk.filling.iter().find(of) {
        return [*serial, FILLING, 0];
    }
    match desk.lines.iter().find(of) {
        Some(line) => {
            let held = desk.holds.iter().filter(|(_, place)| place == line);
            let holders = held.map(|(consumer, _)| *consumer as u64).sum();
            [line.1, HELD, holders]
        }
        None => [0, FREE, 0],
    }
}

/// The record after a call. The second decoder has no marks: a slot of which
/// nothing else is true than before keeps its numbers, those that say nothing too.
fn fields(record: &Desk, before: &desk::Desk, after: &desk::Desk) -> Vec<u64> {
    let mut record = record.clone();
    record.last = after.last;
    for slot in 0..after.count {
        if marks(before, slot) != marks(after, slot) {
            record.slots[slot] = marks(after, slot);
        }
    }
    record.numbers()
}

/// The record handed in, and what it says: 19 comes before a mark that says
/// nothing.
fn handed(n: &[u64], slot: Option<u64>) -> Result<(Desk, desk::Desk), Refusal> {
    let record = Desk::of(n);
    desk::in_range(record.count as usize, slot.map(|slot| slot as usize))?;
    refuse_if(record.has_wrong_mark(), refusal::STATE)?;
    let says = desk::Desk::from(&record);
    Ok((record, says))
}

pub fn fresh(n: &[u64]) -> Answer {
    let desk = desk::fresh(n[0] as usize)?;
    let record = Desk {
        count: n[0],
        ..Desk::default()
    };
    Ok(fields(&record, &desk, &desk))
}

pub fn take(n: &[u64]) -> Answer {
    let (record, before) = handed(n, None)?;
    let mut after = before.clone();
    let (slot, serial) = desk::take(&mut after, n[NUMBERS] as usize)?;
    Ok([vec![serial, slot as u64], fields(&record, &before, &after)].concat())
}

pub fn publish(n: &[u64]) -> Answer {
    let [area, slot, serial] = n[NUMBERS..] else {
        unreachable!("three numbers behind the desk");
    };
    let (record, before) = handed(n, Some(slot))?;
    let mut after = before.clone();
    desk::publish(&mut after, area as usize, (slot as usize, serial))?;
    Ok(fields(&record, &before, &after))
}

pub fn release(n: &[u64]) -> Answer {
    let [area, consumer, slot, serial] = n[NUMBERS..] else {
        unreachable!("four numbers behind the desk");
    };
    let (record, before) = handed(n, Some(slot))?;
    let mut after = before.clone();
    let place = (slot as usize, serial);
    desk::release(&mut after, area as usize, consumer as usize, place)?;
    Ok(fields(&record, &before, &after))
}

pub fn seen(n: &[u64]) -> Answer {
    let [area, consumer, slot, serial] = n[NUMBERS..] else {
        unreachable!("four numbers behind the desk");
    };
    let (_, desk) = handed(n, Some(slot))?;
    let place = (slot as usize, serial);
    let (from, to) = desk::seen(&desk, area as usize, consumer as usize, place)?;
    Ok(vec![from as u64, to as u64])
}
