//! The desk: one area of 2 to 8 slots, a line each, for a feeder that fills them
//! and two who read, preview and capture.
//!
//! [`Area`] owns the slots and lends each to whoever may touch it; the compiler
//! then sees to the rest. The calls beside it are the library's own, over the
//! record alone, for callers that keep the area themselves:
//!
//! ```
//! use hansobrik::desk::{self, Consumer, Slot};
//! use hansobrik::{Refusal, LINE_BYTES};
//!
//! # fn main() -> Result<(), Refusal> {
//! let area = 2 * LINE_BYTES; // no call is lent the area: its length is enough
//! let mut desk = desk::fresh(2)?;
//!
//! let taken = desk::take(&mut desk, area)?; // the lowest slot that is free
//! assert_eq!((taken.slot, taken.serial), (0, 1));
//! // here the reader fills the slot's 44,356 bytes
//! desk::publish(&mut desk, area, taken.slot, taken.serial)?;
//!
//! let bytes = desk::seen(&desk, area, Consumer::Preview, 0, 1)?;
//! assert_eq!(bytes, 0..LINE_BYTES);
//! desk::release(&mut desk, area, Consumer::Preview, 0, 1)?;
//! let twice = desk::release(&mut desk, area, Consumer::Preview, 0, 1);
//! assert_eq!(twice, Err(Refusal::NO_HOLD));
//!
//! desk::release(&mut desk, area, Consumer::Capture, 0, 1)?;
//! assert_eq!(desk.slots[0], Slot::Free);
//! # Ok(())
//! # }
//! ```

mod area;

pub use area::{Area, Filling, Hold};

use core::ops::Range;

use crate::raw;
use crate::refusal::{unless, Refusal};
use crate::sizes::{CAPTURE, FILLING, FREE, HELD, PREVIEW};

/// Who holds a published line.
#[derive(Clone, Copy, Debug, PartialEq, Eq, Hash)]
pub enum Consumer {
    Preview,
    Capture,
}

impl Consumer {
    /// The number by which a consumer crosses.
    fn number(self) -> u8 {
        match self {
            Consumer::Preview => PREVIEW,
            Consumer::Capture => CAPTURE,
        }
    }
}

/// A slot: it is in one of these states, and in no two.
#[derive(Clone, Copy, Debug, Default, PartialEq, Eq)]
pub enum Slot {
    #[default]
    Free,
    /// The feeder's, under this serial.
    Filling(u32),
    /// A line of the two, or of the one who has not released it. Held by nobody
    /// it is impossible.
    Held {
        serial: u32,
        preview: bool,
        capture: bool,
    },
}

/// Who has which slot of an area.
#[derive(Clone, Copy, Debug, Default, PartialEq, Eq)]
pub struct Desk {
    /// How many slots there are, 2 to 8. Those from here on do not exist: nobody
    /// looks at them.
    pub count: u32,
    /// The serial number given last; 0 before the first.
    pub last: u32,
    pub slots: [Slot; 8],
}

/// What the feeder got.
#[derive(Clone, Copy, Debug, PartialEq, Eq)]
pub struct Taken {
    pub slot: usize,
    pub serial: u32,
}

impl From<Slot> for raw::DeskSlot {
    fn from(slot: Slot) -> raw::DeskSlot {
        let (serial, used, holders) = match slot {
            Slot::Free => (0, FREE, 0),
            Slot::Filling(serial) => (serial, FILLING, 0),
            Slot::Held {
                serial,
                preview,
                capture,
            } => {
                let preview = u16::from(preview) * u16::from(PREVIEW);
                let capture = u16::from(capture) * u16::from(CAPTURE);
                (serial, HELD, preview + capture)
            }
        };
        raw::DeskSlot {
            serial,
            used,
            holders,
        }
    }
}

impl From<raw::DeskSlot> for Slot {
    fn from(slot: raw::DeskSlot) -> Slot {
        match slot.used {
            FREE => Slot::Free,
            FILLING => Slot::Filling(slot.serial),
            _ => Slot::Held {
                serial: slot.serial,
                preview: slot.holders & u16::from(PREVIEW) != 0,
                capture: slot.holders & u16::from(CAPTURE) != 0,
            },
        }
    }
}

impl From<Desk> for raw::LineDesk {
    fn from(desk: Desk) -> raw::LineDesk {
        raw::LineDesk {
            count: desk.count,
            last: desk.last,
            slots: desk.slots.map(Into::into),
        }
    }
}

impl From<raw::LineDesk> for Desk {
    fn from(desk: raw::LineDesk) -> Desk {
        Desk {
            count: desk.count,
            last: desk.last,
            slots: desk.slots.map(Into::into),
        }
    }
}

/// The record after a call, which a refused one leaves as it was.
fn after(desk: &mut Desk, refused: u8, given: raw::LineDesk) -> Result<(), Refusal> {
    unless(refused, ())?;
    *desk = given.into();
    Ok(())
}

/// An empty desk of so many slots: no serial is given yet, every slot is free.
/// Refused with OUT_OF_RANGE.
pub fn fresh(count: u32) -> Result<Desk, Refusal> {
    // SAFETY: numbers only.
    let a = unsafe { raw::hansobrik_fresh_desk(count) };
    unless(a.refused, a.desk.into())
}

/// The lowest free slot for the next line, filling from now on under the next
/// serial number: 1, 2, .. up to 2^32-1, none twice. `area` is how many bytes the
/// slots have together, the desk's count times [`LINE_BYTES`](crate::LINE_BYTES)
/// or more. Refused with OUT_OF_RANGE, STATE, SHORT_INPUT, NO_SERIAL, NO_SLOT.
///
/// A desk is impossible, STATE, where a slot below its count is filling or held
/// under serial 0, or under one above `last`, or under that of another such slot,
/// or where it is held by nobody.
pub fn take(desk: &mut Desk, area: usize) -> Result<Taken, Refusal> {
    // SAFETY: numbers only.
    let a = unsafe { raw::hansobrik_take((*desk).into(), area) };
    after(desk, a.refused, a.desk)?;
    Ok(Taken {
        slot: a.slot,
        serial: a.serial,
    })
}

/// The slot holds its whole line: from now on preview and capture both hold it.
/// Refused with OUT_OF_RANGE, STATE, SHORT_INPUT, and with NO_HOLD where it is not
/// filling under this serial.
pub fn publish(desk: &mut Desk, area: usize, slot: usize, serial: u32) -> Result<(), Refusal> {
    // SAFETY: numbers only.
    let a = unsafe { raw::hansobrik_publish((*desk).into(), area, slot, serial) };
    after(desk, a.refused, a.desk)
}

/// The consumer holds the slot no longer; where nobody else does it is free.
/// Refused with OUT_OF_RANGE, STATE, SHORT_INPUT, and with NO_HOLD where the
/// consumer does not hold it under this serial: each hold is released once.
pub fn release(
    desk: &mut Desk,
    area: usize,
    consumer: Consumer,
    slot: usize,
    serial: u32,
) -> Result<(), Refusal> {
    // SAFETY: numbers only.
    let a =
        unsafe { raw::hansobrik_release((*desk).into(), area, consumer.number(), slot, serial) };
    after(desk, a.refused, a.desk)
}

/// The bytes of the area that a holder may read. Refused as [`release`] is.
pub fn seen(
    desk: &Desk,
    area: usize,
    consumer: Consumer,
    slot: usize,
    serial: u32,
) -> Result<Range<usize>, Refusal> {
    // SAFETY: numbers only.
    let a = unsafe { raw::hansobrik_seen((*desk).into(), area, consumer.number(), slot, serial) };
    unless(a.refused, a.from..a.to)
}
