//! Document 02, T-06: "A lent area has 2 to 8 slots of one line each, numbered
//! from 0. The feeder takes a free slot, the lowest, and gets its next serial
//! number with it; it fills the slot with the reader (no desk call writes the
//! area) and, once the reader says the line is complete, publishes it by slot and
//! serial. ... The slot is then held by preview and capture both. Each reads the
//! part it holds and releases its own hold by slot and serial. A slot is free
//! again when neither holds it. ... Serial numbers run from 1 to 2^32-1 and never
//! repeat. Refusals: 19 for a slot number or a count out of range, tested first,
//! then 12 for an impossible desk (a busy slot with serial 0 or one not yet given,
//! a serial in two busy slots, a held slot without holder) and 2 for a short area;
//! 18 for a take with serials used up; 16 for a take exactly when serials remain
//! and no slot is free; 17 for a hold that isn't there, or a publish of a slot not
//! being filled under that serial."
//!
//! The desk here is three lists of what is true: which slot is being filled under
//! which serial, which slot has which line in it, and who holds what. A slot is
//! free where neither of the first two has it. No call is lent the area: its
//! length is enough.

use std::collections::{BTreeMap, BTreeSet};

use crate::format::LINE_BYTES;
use crate::refusal::{self, refuse_if, Refusal};

/// "2 to 8 slots".
pub const FEWEST_SLOTS: usize = 2;
pub const MOST_SLOTS: usize = 8;

/// "Serial numbers run from 1 to 2^32-1".
pub const LAST_SERIAL: u64 = 4_294_967_295;

/// The two consumers. Nobody ever holds under another number.
pub const PREVIEW: usize = 1;
pub const CAPTURE: usize = 2;

/// A slot and a serial number.
pub type Place = (usize, u64);

/// The desk. The caller keeps it and may make it up.
#[derive(Clone, Debug, Default, PartialEq, Eq)]
pub struct Desk {
    /// How many slots there are.
    pub count: usize,
    /// The serial number that was given last; 0 before the first.
    pub last: u64,
    /// Slots that are being filled.
    pub filling: BTreeSet<Place>,
    /// Slots with a whole line in them that somebody still has to release.
    pub lines: BTreeSet<Place>,
    /// Who holds which of these.
    pub holds: BTreeSet<(usize, Place)>,
}

impl Desk {
    /// The slots that are being filled or have a line.
    fn busy(&self) -> impl Iterator<Item = Place> + '_ {
        self.filling.iter().chain(&self.lines).copied()
    }

    /// The slots that are free, the lowest first.
    pub fn free(&self) -> Vec<usize> {
        let all = 0..self.count;
        all.filter(|slot| self.busy().all(|(busy, _)| busy != *slot))
            .collect()
    }

    /// Whether anybody holds a line.
    fn has_holder(&self, place: &Place) -> bool {
        self.holds.iter().any(|(_, held)| held == place)
    }
}

/// "a busy slot with serial 0 or one not yet given, a serial in two busy slots, a
/// held slot without holder". Slots that the desk does not have are not busy.
pub fn impossible(desk: &Desk) -> bool {
    let mut times: BTreeMap<u64, usize> = BTreeMap::new();
    for (_, serial) in desk.busy() {
        *times.entry(serial).or_default() += 1;
    }
    let serial_0 = times.contains_key(&0);
    let not_yet_given = times.keys().any(|serial| *serial > desk.last);
    let in_two_slots = times.values().any(|times| *times > 1);
    let without_holder = desk.lines.iter().any(|line| !desk.has_holder(line));
    serial_0 || not_yet_given || in_two_slots || without_holder
}

/// "19 for a slot number or a count out of range, tested first". A take has no
/// slot.
pub fn in_range(count: usize, slot: Option<usize>) -> Result<(), Refusal> {
    let counts = FEWEST_SLOTS..=MOST_SLOTS;
    refuse_if(!counts.contains(&count), refusal::OUT_OF_RANGE)?;
    refuse_if(
        slot.is_some_and(|slot| slot >= count),
        refusal::OUT_OF_RANGE,
    )
}

/// What every call on a desk tests first: 19, 12, 2.
fn served(desk: &Desk, area: usize, slot: Option<usize>) -> Result<(), Refusal> {
    in_range(desk.count, slot)?;
    refuse_if(impossible(desk), refusal::STATE)?;
    refuse_if(area < desk.count * LINE_BYTES, refusal::SHORT_INPUT)
}

/// An empty desk. Refusal 19.
pub fn fresh(count: usize) -> Result<Desk, Refusal> {
    in_range(count, None)?;
    Ok(Desk {
        count,
        ..Desk::default()
    })
}

/// "The feeder takes a free slot, the lowest, and gets its next serial number with
/// it". Refusals 19, 12, 2, 18, 16.
pub fn take(desk: &mut Desk, area: usize) -> Result<Place, Refusal> {
    served(desk, area, None)?;
    refuse_if(desk.last == LAST_SERIAL, refusal::NO_SERIAL)?;
    let lowest = desk.free().first().copied().ok_or(refusal::NO_SLOT)?;

    desk.last += 1;
    let place = (lowest, desk.last);
    desk.filling.insert(place);
    Ok(place)
}

/// "once the reader says the line is complete, publishes it by slot and serial";
/// "The slot is then held by preview and capture both." Refusals 19, 12, 2, 17.
pub fn publish(desk: &mut Desk, area: usize, place: Place) -> Result<(), Refusal> {
    served(desk, area, Some(place.0))?;
    refuse_if(!desk.filling.remove(&place), refusal::NO_HOLD)?;

    desk.lines.insert(place);
    desk.holds.extend([(PREVIEW, place), (CAPTURE, place)]);
    Ok(())
}

/// "releases its own hold by slot and serial. A slot is free again when neither
/// holds it." Refusals 19, 12, 2, 17.
pub fn release(desk: &mut Desk, area: usize, consumer: usize, place: Place) -> Result<(), Refusal> {
    served(desk, area, Some(place.0))?;
    refuse_if(!desk.holds.remove(&(consumer, place)), refusal::NO_HOLD)?;

    if !desk.has_holder(&place) {
        desk.lines.remove(&place);
    }
    Ok(())
}

/// "Each reads the part it holds": its first byte in the area, and the first one
/// behind it. Refusals 19, 12, 2, 17.
pub fn seen(
    desk: &Desk,
    area: usize,
    consumer: usize,
    place: Place,
) -> Result<(usize, usize), Refusal> {
    served(desk, area, Some(place.0))?;
    refuse_if(!desk.holds.contains(&(consumer, place)), refusal::NO_HOLD)?;
    Ok(part(place.0))
}

/// The bytes of a slot in the area.
pub fn part(slot: usize) -> (usize, usize) {
    (slot * LINE_BYTES, (slot + 1) * LINE_BYTES)
}
