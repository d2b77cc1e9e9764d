//! The desk: the plain calls, and the area that lends its slots, alone and between
//! threads.

use std::sync::mpsc;
use std::thread;

use hansobrik::desk::{self, Area, Consumer, Desk, Filling, Hold, Slot, Taken};
use hansobrik::{put_data, put_pixels, read, write_line, Reader, Refusal};
use hansobrik::{LINE_BYTES, S_VISSR, S_VISSR_ONES, WIRE_BYTES_3};

const HELD: Slot = Slot::Held {
    serial: 1,
    preview: true,
    capture: true,
};

#[test]
fn a_line_through_the_plain_calls() {
    let area = 2 * LINE_BYTES;
    let mut desk = desk::fresh(2).unwrap();
    assert_eq!((desk.count, desk.last, desk.slots), (2, 0, [Slot::Free; 8]));
    assert_eq!(
        desk::take(&mut desk, area),
        Ok(Taken { slot: 0, serial: 1 })
    );
    assert_eq!(desk.slots[0], Slot::Filling(1));
    assert_eq!(
        desk::take(&mut desk, area),
        Ok(Taken { slot: 1, serial: 2 })
    );
    assert_eq!(desk::take(&mut desk, area), Err(Refusal::NO_SLOT));
    assert_eq!(desk::publish(&mut desk, area, 0, 2), Err(Refusal::NO_HOLD));
    assert_eq!(desk::publish(&mut desk, area, 0, 1), Ok(()));
    assert_eq!((desk.last, desk.slots[0]), (2, HELD));

    for (consumer, other) in [
        (Consumer::Capture, Consumer::Preview),
        (Consumer::Preview, Consumer::Capture),
    ] {
        assert_eq!(desk::seen(&desk, area, consumer, 0, 1), Ok(0..LINE_BYTES));
        assert_eq!(desk::release(&mut desk, area, consumer, 0, 1), Ok(()));
        let twice = desk::release(&mut desk, area, consumer, 0, 1);
        assert_eq!(twice, Err(Refusal::NO_HOLD));
        let seen = desk::seen(&desk, area, consumer, 0, 1);
        assert_eq!(seen, Err(Refusal::NO_HOLD));
        let may = desk::seen(&desk, area, other, 0, 1).is_ok();
        assert_eq!(may, consumer == Consumer::Capture);
    }
    assert_eq!(desk.slots[..2], [Slot::Free, Slot::Filling(2)]);
    assert_eq!(
        desk::take(&mut desk, area),
        Ok(Taken { slot: 0, serial: 3 })
    );
}

#[test]
fn refusals_of_the_plain_calls_in_their_order() {
    for count in [0, 1, 9, 258, u32::MAX] {
        assert_eq!(desk::fresh(count), Err(Refusal::OUT_OF_RANGE));
    }
    // a held slot without a holder, and everything else wrong too
    let wrong = Desk {
        count: 2,
        last: u32::MAX,
        slots: [Slot::Held {
            serial: 1,
            preview: false,
            capture: false,
        }; 8],
    };
    let mut desk = Desk { count: 9, ..wrong };
    assert_eq!(desk::take(&mut desk, 0), Err(Refusal::OUT_OF_RANGE));
    let mut desk = wrong;
    let range = desk::publish(&mut desk, 0, 2, 5);
    assert_eq!(range, Err(Refusal::OUT_OF_RANGE));
    assert_eq!(desk::take(&mut desk, 0), Err(Refusal::STATE));
    assert_eq!(desk, wrong);

    let mut desk = Desk {
        slots: [
            Slot::Filling(2),
            HELD,
            Slot::Free,
            Slot::Free,
            HELD,
            HELD,
            HELD,
            HELD,
        ],
        ..wrong
    };
    let before = desk;
    let short = 2 * LINE_BYTES - 1;
    assert_eq!(desk::take(&mut desk, short), Err(Refusal::SHORT_INPUT));
    let answer = desk::take(&mut desk, short + 1);
    assert_eq!(answer, Err(Refusal::NO_SERIAL));
    let answer = desk::release(&mut desk, short, Consumer::Preview, 0, 2);
    assert_eq!(answer, Err(Refusal::SHORT_INPUT));
    let answer = desk::release(&mut desk, short + 1, Consumer::Preview, 0, 2);
    assert_eq!(answer, Err(Refusal::NO_HOLD));
    assert_eq!(desk, before);
    // what lies behind the count stays
    assert_eq!(desk::publish(&mut desk, short + 1, 0, 2), Ok(()));
    assert_eq!(desk.slots[2..], before.slots[2..]);
}

/// What an area begins with is the library's own fresh desk.
#[test]
fn an_area_begins_empty() {
    let areas = [
        Area::<2>::new().desk(),
        Area::<5>::default().desk(),
        Area::<8>::new().desk(),
    ];
    for (count, desk) in [2, 5, 8].into_iter().zip(areas) {
        assert_eq!(desk, desk::fresh(count).unwrap());
    }
    assert_eq!(size_of::<Area<8>>() - size_of::<Area<2>>(), 6 * LINE_BYTES);
}

#[test]
fn slots_are_lent_as_the_desk_says() {
    let area = Area::<2>::new();
    let mut one = area.take().unwrap();
    let mut two = area.take().unwrap();
    assert_eq!((one.slot(), one.serial()), (0, 1));
    assert_eq!((two.slot(), two.serial()), (1, 2));
    assert_eq!(area.take().unwrap_err(), Refusal::NO_SLOT);
    one.bytes_mut().fill(11);
    two.bytes_mut().fill(22);

    let (preview, capture) = one.publish().unwrap();
    assert_eq!(preview.consumer(), Consumer::Preview);
    assert_eq!(capture.consumer(), Consumer::Capture);
    assert_eq!((preview.slot(), preview.serial()), (0, 1));
    // both look at the same bytes, where the library says that they are
    let base = preview.line().as_ptr() as usize;
    let seen = desk::seen(&area.desk(), 2 * LINE_BYTES, Consumer::Capture, 0, 1);
    assert_eq!(seen, Ok(0..capture.line().len()));
    assert_eq!(capture.line().as_ptr() as usize, base);
    assert_eq!(two.bytes().as_ptr() as usize, base + LINE_BYTES);
    assert!(preview.line().iter().all(|byte| *byte == 11));

    // the other's release changes nothing here
    preview.release();
    assert!(capture.line().iter().all(|byte| *byte == 11));
    let only_capture = Slot::Held {
        serial: 1,
        preview: false,
        capture: true,
    };
    assert_eq!(area.desk().slots[0], only_capture);
    assert_eq!(area.take().unwrap_err(), Refusal::NO_SLOT);
    drop(capture);
    let three = area.take().unwrap();
    assert_eq!((three.slot(), three.serial()), (0, 3));
    assert!(two.bytes().iter().all(|byte| *byte == 22));
}

/// Nothing un-takes a slot: one that was let go is given again, the oldest first,
/// with what stood in it.
#[test]
fn a_slot_that_was_let_go_is_picked_up() {
    let area = Area::<3>::new();
    assert!(area.filling().is_none());
    let mut one = area.take().unwrap();
    one.bytes_mut()[..3].copy_from_slice(&[1, 2, 3]);
    assert!(area.filling().is_none()); // it is out already
    drop(one);
    let two = area.take().unwrap();
    assert_eq!((two.slot(), two.serial()), (1, 2));
    drop(two);

    let one = area.filling().unwrap();
    assert_eq!((one.slot(), one.serial()), (0, 1));
    assert_eq!(one.bytes()[..4], [1, 2, 3, 0]);
    let two = area.filling().unwrap();
    assert_eq!((two.slot(), two.serial()), (1, 2));
    assert!(area.filling().is_none());
    let (preview, capture) = one.publish().unwrap();
    drop(two);
    assert_eq!(area.filling().map(|two| two.serial()), Some(2));
    drop((preview, capture));
    assert_eq!(area.desk().slots[..2], [Slot::Free, Slot::Filling(2)]);
}

/// What a task takes along is safe to hand over.
#[test]
fn they_go_from_thread_to_thread() {
    fn both<T: Send + Sync>() {}
    both::<Area<4>>();
    both::<Filling<'static>>();
    both::<Hold<'static>>();
}

/// Lines that differ, each with IR1 of its own.
fn recording(format: u8, lines: u8) -> Vec<u8> {
    let mut recording = Vec::new();
    for k in 0..lines {
        let mut line = [0; LINE_BYTES];
        put_data(format, &mut line, 1, &[k; 2_291]).unwrap();
        put_pixels(format, &mut line, 2, &[200 - k; 2_291]).unwrap();
        put_pixels(format, &mut line, 9, &[k % 4; 2_291]).unwrap();
        let mut wire = [0; WIRE_BYTES_3];
        let bytes = write_line(format, &line, &mut wire).unwrap();
        recording.extend(&wire[..bytes]);
    }
    recording
}

/// The lines that a reader finds with one buffer.
fn found(format: u8, recording: &[u8]) -> Vec<Vec<u8>> {
    let mut lines = Vec::new();
    let mut line = [0; LINE_BYTES];
    let mut reader = Reader::fresh(format, 0);
    for piece in recording.chunks(4_099) {
        let each = |line: &[u8]| lines.push(line.to_vec());
        reader.take(piece, &mut line, each).unwrap();
    }
    lines
}

/// The feeder: a slot for each line, and where none is free it offers nothing.
fn feed<'a, const SLOTS: usize>(
    area: &'a Area<SLOTS>,
    format: u8,
    recording: &[u8],
    mut hand_on: impl FnMut(Hold<'a>, Hold<'a>),
) {
    let mut state = hansobrik::fresh();
    for piece in recording.chunks(1_021) {
        let mut rest = piece;
        while !rest.is_empty() {
            // the slot that the last piece was left in, or a new one
            let mut filling = match area.filling().map_or_else(|| area.take(), Ok) {
                Ok(filling) => filling,
                Err(refusal) => {
                    assert_eq!(refusal, Refusal::NO_SLOT);
                    thread::yield_now();
                    continue;
                }
            };
            let answer = read(format, 0, &mut state, rest, filling.bytes_mut()).unwrap();
            rest = &rest[answer.taken..];
            if answer.complete {
                let (preview, capture) = filling.publish().unwrap();
                hand_on(preview, capture);
            }
        }
    }
}

/// A feeder and two threads that read: each sees exactly the lines that a reader
/// finds with one buffer, in order, however slow it is.
fn class<const SLOTS: usize>(area: &Area<SLOTS>, format: u8, lines: u8, slow: [u32; 2]) {
    let recording = recording(format, lines);
    let expected = found(format, &recording);
    assert_eq!(expected.len(), lines.into());
    thread::scope(|scope| {
        let (to_preview, preview) = mpsc::channel::<Hold>();
        let (to_capture, capture) = mpsc::channel::<Hold>();
        for (holds, slow) in [(preview, slow[0]), (capture, slow[1])] {
            let expected = &expected;
            scope.spawn(move || {
                let mut seen = 0;
                for hold in holds {
                    assert_eq!(hold.serial() as usize, seen + 1);
                    for _ in 0..slow {
                        thread::yield_now();
                        assert!(hold.line() == expected[seen]);
                    }
                    assert!(hold.line() == expected[seen]);
                    hold.release();
                    seen += 1;
                }
                assert_eq!(seen, expected.len());
            });
        }
        feed(area, format, &recording, |preview, capture| {
            to_preview.send(preview).unwrap();
            to_capture.send(capture).unwrap();
        });
    });
    let desk = area.desk();
    let free = |slot: &Slot| *slot == Slot::Free;
    assert!(desk.slots.iter().all(free), "{desk:?}");
    assert_eq!(desk.last, lines.into());
}

#[test]
fn a_feeder_and_two_threads() {
    static TWO: Area<2> = Area::new();
    static EIGHT: Area<8> = Area::new();
    class(&TWO, S_VISSR, 40, [0, 20]);
    class(&EIGHT, S_VISSR_ONES, 60, [30, 3]);
    let boxed: Box<Area<3>> = Box::default();
    class(&boxed, S_VISSR, 40, [5, 5]);
}

/// Many threads take, publish and release at once: no slot is lent to two, and no
/// line changes while somebody holds it.
#[test]
fn many_feeders_at_once() {
    static AREA: Area<5> = Area::new();
    thread::scope(|scope| {
        for mark in 1..=6 {
            scope.spawn(move || {
                let mut lines = 0;
                while lines < 60 {
                    let Ok(mut filling) = AREA.take() else {
                        thread::yield_now();
                        continue;
                    };
                    filling.bytes_mut().fill(mark);
                    assert!(filling.bytes().iter().all(|byte| *byte == mark));
                    let (preview, capture) = filling.publish().unwrap();
                    preview.release();
                    assert!(capture.line().iter().all(|byte| *byte == mark));
                    lines += 1;
                }
            });
        }
    });
    assert_eq!(AREA.desk().last, 360);
}
