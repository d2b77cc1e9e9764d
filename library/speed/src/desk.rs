//! What the desk costs a line: its take, its publish and both releases, beside the
//! copy of one line, which it spares a second reader.

use crate::table::beside;
use crate::timing::{timed, Care, Timed, QUICK_WORK, SLOW_WORK};
use hansobrik::desk::{self as ours, Consumer, Desk};
use hansobrik::LINE_BYTES;
use second::desk::{self as theirs, CAPTURE, PREVIEW};
use std::hint::black_box;

/// A desk of eight slots has the most to look at.
const SLOTS: usize = 8;
const AREA: usize = SLOTS * LINE_BYTES;

/// Seven slots are busy all the time, so that the last one is searched for.
fn busy() -> Desk {
    let mut desk = ours::fresh(SLOTS as u32).expect("eight slots");
    for _ in 1..SLOTS {
        let taken = ours::take(&mut desk, AREA).expect("a slot");
        ours::publish(&mut desk, AREA, taken.slot, taken.serial).expect("it is filling");
    }
    desk
}

fn busy_of_theirs() -> theirs::Desk {
    let mut desk = theirs::fresh(SLOTS).expect("eight slots");
    for _ in 1..SLOTS {
        let place = theirs::take(&mut desk, AREA).expect("a slot");
        theirs::publish(&mut desk, AREA, place).expect("it is filling");
    }
    desk
}

/// A line through the desk; the slot that it had, the last one.
fn line(desk: &mut Desk) -> usize {
    let taken = ours::take(desk, black_box(AREA)).expect("a slot");
    let (slot, serial) = (taken.slot, taken.serial);
    ours::publish(desk, black_box(AREA), slot, serial).expect("it is filling");
    for consumer in [Consumer::Preview, Consumer::Capture] {
        ours::release(desk, black_box(AREA), consumer, slot, serial).expect("it holds it");
    }
    slot
}

fn line_of_theirs(desk: &mut theirs::Desk) -> usize {
    let place = theirs::take(desk, black_box(AREA)).expect("a slot");
    theirs::publish(desk, black_box(AREA), place).expect("it is filling");
    for consumer in [PREVIEW, CAPTURE] {
        theirs::release(desk, black_box(AREA), consumer, place).expect("it holds it");
    }
    place.0
}

/// A look at a line that is held; the slot behind it, as the others have it.
fn looked<'a>(care: Care, desk: Desk) -> Timed<'a> {
    timed(care, move || {
        let desk = black_box(&desk);
        let seen = ours::seen(desk, black_box(AREA), Consumer::Capture, 6, 7);
        seen.expect("it holds it").end / LINE_BYTES
    })
}

/// A line whose first byte is that number too.
fn copied<'a>(care: Care) -> Timed<'a> {
    let (from, mut to) = (vec![7u8; LINE_BYTES], vec![0u8; LINE_BYTES]);
    timed(care, move || {
        to.copy_from_slice(black_box(&from));
        usize::from(black_box(&to)[0])
    })
}

pub fn print() {
    let (mut mine, mut other) = (busy(), busy_of_theirs());
    let rows = vec![
        ("a line copied", copied(QUICK_WORK)),
        (
            "`take`, `publish` and both `release`",
            timed(QUICK_WORK, move || line(&mut mine)),
        ),
        ("`seen`", looked(QUICK_WORK, busy())),
        (
            "the four, the second decoder",
            timed(SLOW_WORK, move || line_of_theirs(&mut other)),
        ),
    ];
    beside(
        "a line at a desk of eight slots",
        "in times of the copy",
        rows,
    );
}

#[cfg(test)]
mod tests {
    use super::*;

    /// Both take the last slot, and leave the others as they were.
    #[test]
    fn both_do_the_same() {
        let (mut mine, mut other) = (busy(), busy_of_theirs());
        let slots = mine.slots;
        for serial in 8..20 {
            assert_eq!((line(&mut mine), line_of_theirs(&mut other)), (7, 7));
            assert_eq!((mine.last, other.last), (serial, serial.into()));
        }
        assert_eq!(mine.slots, slots);
        assert_eq!(other.free(), [7]);
    }
}
