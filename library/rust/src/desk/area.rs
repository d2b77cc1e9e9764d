//! An area that lends its slots: to the feeder the one that it fills, to preview
//! and capture each line that they hold, and nobody else.

use core::cell::UnsafeCell;
use core::fmt;
use core::hint::spin_loop;
use core::sync::atomic::{AtomicBool, Ordering};

use super::{publish, release, take, Consumer, Desk, Slot};
use crate::refusal::Refusal;
use crate::sizes::{LEAST_SLOTS, LINE_BYTES, MOST_SLOTS};

/// An area of `SLOTS` slots, 2 to 8, with its desk. It takes no memory from
/// anywhere: a board has it as a `static`.
///
/// ```
/// use hansobrik::desk::Area;
/// use hansobrik::{joined, read, Refusal, IR_PIXELS, S_VISSR};
///
/// static AREA: Area<4> = Area::new();
///
/// # fn main() -> Result<(), Refusal> {
/// # let (mut line, mut piece) = ([0; 44_356], [0; 45_606]);
/// # hansobrik::put_pixels(S_VISSR, &mut line, 2, &[200; IR_PIXELS])?;
/// # hansobrik::put_pixels(S_VISSR, &mut line, 9, &[3; IR_PIXELS])?;
/// # hansobrik::write_line(S_VISSR, &line, &mut piece)?;
/// # let mut state = hansobrik::fresh();
/// // The feeder: a free slot, which is its own until it publishes the line in it.
/// let mut filling = AREA.take()?;
/// let answer = read(S_VISSR, 0, &mut state, &piece, filling.bytes_mut())?;
/// assert!(answer.complete);
/// let (preview, capture) = filling.publish()?;
///
/// // Each reads it where it stands, in a thread of its own or not, and says when it
/// // is done. Then the slot is free again.
/// let mut pixels = [0; IR_PIXELS];
/// joined(S_VISSR, preview.line(), 1, &mut pixels)?;
/// preview.release();
/// assert_eq!(pixels, [803; IR_PIXELS]);
/// assert_eq!(capture.line().len(), 44_356);
/// drop(capture);
/// # Ok(())
/// # }
/// ```
///
/// What is wrong does not compile. To read a line after its release:
///
/// ```compile_fail,E0505
/// # let area = hansobrik::desk::Area::<2>::new();
/// # let (preview, _capture) = area.take().unwrap().publish().unwrap();
/// let line = preview.line();
/// preview.release();
/// assert_eq!(line[0], 0);
/// ```
///
/// to release it twice:
///
/// ```compile_fail,E0382
/// # let area = hansobrik::desk::Area::<2>::new();
/// # let (preview, _capture) = area.take().unwrap().publish().unwrap();
/// preview.release();
/// preview.release();
/// ```
///
/// to publish it twice:
///
/// ```compile_fail,E0382
/// # let area = hansobrik::desk::Area::<2>::new();
/// # let filling = area.take().unwrap();
/// let once = filling.publish();
/// let twice = filling.publish();
/// ```
///
/// to write in a line that others read:
///
/// ```compile_fail,E0594
/// # let area = hansobrik::desk::Area::<2>::new();
/// # let (preview, _capture) = area.take().unwrap().publish().unwrap();
/// preview.line()[0] = 1;
/// ```
///
/// or, for the feeder, to keep its bytes when it has published them:
///
/// ```compile_fail,E0505
/// # let area = hansobrik::desk::Area::<2>::new();
/// # let mut filling = area.take().unwrap();
/// let bytes = filling.bytes_mut();
/// let held = filling.publish();
/// bytes[0] = 1;
/// ```
///
/// Nor does an area of fewer slots than two or of more than eight:
///
/// ```compile_fail,E0080
/// let area = hansobrik::desk::Area::<9>::new();
/// ```
///
/// The library's calls decide all of it, one at a time: a lock of one flag stands
/// around the record, and only around these calls. Nobody waits for it to read or
/// to write the bytes of a slot. Where it is taken the others spin for the length
/// of a call; where one processor has tasks of several priorities, or an
/// interrupt is to call, that can last for ever. There use the calls of
/// [`desk`](super) behind a lock of the system's own.
pub struct Area<const SLOTS: usize> {
    kept: Kept,
    slots: [Bytes; SLOTS],
}

/// The bytes of a slot. Who may touch them the desk says.
struct Bytes(UnsafeCell<[u8; LINE_BYTES]>);

// SAFETY: `Bytes` is private, and its cell is opened in `Filling` and `Hold` alone.
// A slot has at most one `Filling`, made where the desk says that it was free, and
// then no `Hold`; it has `Hold`s, which only read, from the publish that ends the
// `Filling` on, and a take gives it again only when the desk has the release of
// both. Each of these steps is a call under the lock, so that what one thread did
// to the bytes before its step is done when another's step comes.
unsafe impl Sync for Bytes {}

/// The desk behind its lock.
struct Kept {
    locked: AtomicBool,
    record: UnsafeCell<Record>,
    /// Bytes of all slots together.
    area: usize,
}

// SAFETY: the record is opened in `Kept::with` alone, by whoever turned `locked`
// from false to true, until it turns it back: by one thread at a time.
unsafe impl Sync for Kept {}

struct Record {
    desk: Desk,
    /// Bit i: there is a `Filling` of slot i.
    lent: u8,
}

impl Kept {
    /// Does something with the record while nobody else does.
    fn with<T>(&self, each: impl FnOnce(&mut Record, usize) -> T) -> T {
        let weak = AtomicBool::compare_exchange_weak;
        while weak(
            &self.locked,
            false,
            true,
            Ordering::Acquire,
            Ordering::Relaxed,
        )
        .is_err()
        {
            spin_loop();
        }
        // SAFETY: the lock is ours, so that nobody else has a reference to the
        // record; ours ends before the lock is given back. Nothing in `each` comes
        // back here.
        let out = each(unsafe { &mut *self.record.get() }, self.area);
        self.locked.store(false, Ordering::Release);
        out
    }
}

impl<const SLOTS: usize> Area<SLOTS> {
    /// An empty area: every slot is free. The record is what [`fresh`](super::fresh)
    /// gives, written out so that a `static` can have it.
    pub const fn new() -> Area<SLOTS> {
        const { assert!(SLOTS >= LEAST_SLOTS && SLOTS <= MOST_SLOTS) };
        let desk = Desk {
            count: SLOTS as u32,
            last: 0,
            slots: [Slot::Free; 8],
        };
        Area {
            kept: Kept {
                locked: AtomicBool::new(false),
                record: UnsafeCell::new(Record { desk, lent: 0 }),
                area: SLOTS * LINE_BYTES,
            },
            slots: [const { Bytes(UnsafeCell::new([0; LINE_BYTES])) }; SLOTS],
        }
    }

    /// The lowest free slot, for the next line. Refused with NO_SERIAL, NO_SLOT;
    /// then the feeder offers the reader nothing until a slot is free.
    pub fn take(&self) -> Result<Filling<'_>, Refusal> {
        let taken = self.kept.with(|record, area| {
            let taken = take(&mut record.desk, area)?;
            record.lent |= 1 << taken.slot;
            Ok(taken)
        })?;
        self.lent(taken.slot, taken.serial)
            .ok_or(Refusal::OUT_OF_RANGE)
    }

    /// A slot that was taken and then let go without a publish: of several the one
    /// with the lowest serial. Nothing un-takes a slot, so that its line goes on
    /// here.
    pub fn filling(&self) -> Option<Filling<'_>> {
        let (serial, slot) = self.kept.with(|record, _| {
            let slots = record.desk.slots.iter().enumerate().take(SLOTS);
            let let_go = slots.filter_map(|(slot, of)| match of {
                Slot::Filling(serial) if record.lent & 1 << slot == 0 => Some((*serial, slot)),
                _ => None,
            });
            let (serial, slot) = let_go.min()?;
            record.lent |= 1 << slot;
            Some((serial, slot))
        })?;
        self.lent(slot, serial)
    }

    /// A copy of the desk as it stands, to look at.
    pub fn desk(&self) -> Desk {
        self.kept.with(|record, _| record.desk)
    }

    /// There is always such a slot: the desk has no other.
    fn lent(&self, slot: usize, serial: u32) -> Option<Filling<'_>> {
        let bytes = self.slots.get(slot)?;
        Some(Filling {
            place: Place {
                kept: &self.kept,
                bytes,
                slot,
                serial,
            },
        })
    }
}

impl<const SLOTS: usize> Default for Area<SLOTS> {
    fn default() -> Area<SLOTS> {
        Area::new()
    }
}

impl<const SLOTS: usize> fmt::Debug for Area<SLOTS> {
    fn fmt(&self, f: &mut fmt::Formatter<'_>) -> fmt::Result {
        self.desk().fmt(f)
    }
}

/// A slot, and the serial under which somebody has it.
#[derive(Clone, Copy)]
struct Place<'a> {
    kept: &'a Kept,
    bytes: &'a Bytes,
    slot: usize,
    serial: u32,
}

/// A slot that the feeder fills, its own until it publishes the line in it.
///
/// Where one is dropped without that, the slot stays taken, with the bytes in it:
/// nothing un-takes it. [`Area::filling`] gives it again. One that is forgotten,
/// as with `mem::forget`, stays taken for good.
pub struct Filling<'a> {
    place: Place<'a>,
}

impl<'a> Filling<'a> {
    pub fn slot(&self) -> usize {
        self.place.slot
    }

    pub fn serial(&self) -> u32 {
        self.place.serial
    }

    /// What stands in the slot.
    pub fn bytes(&self) -> &[u8] {
        // SAFETY: the slot is filling and this is its one `Filling`, which is
        // borrowed for as long as the bytes are, so that nobody writes meanwhile.
        unsafe { &*self.place.bytes.0.get() }
    }

    /// The same, for the reader to write in.
    pub fn bytes_mut(&mut self) -> &mut [u8] {
        // SAFETY: as above; and it is borrowed mutably, so that nobody reads
        // meanwhile either.
        unsafe { &mut *self.place.bytes.0.get() }
    }

    /// The slot holds its whole line: a hold for preview, and one for capture. It
    /// is not refused: the slot is being filled, and under this serial. Where a
    /// refusal came all the same, nothing would be held.
    pub fn publish(self) -> Result<(Hold<'a>, Hold<'a>), Refusal> {
        let place = self.place;
        place
            .kept
            .with(|record, area| publish(&mut record.desk, area, place.slot, place.serial))?;
        let held_by = |consumer| Hold { place, consumer };
        Ok((held_by(Consumer::Preview), held_by(Consumer::Capture)))
    }
}

/// The slot has no `Filling` now. Behind a publish it is held, and nobody can have
/// released it yet: the holds are not handed out before this.
impl Drop for Filling<'_> {
    fn drop(&mut self) {
        let slot = self.place.slot;
        self.place
            .kept
            .with(|record, _| record.lent &= !(1 << slot));
    }
}

impl fmt::Debug for Filling<'_> {
    fn fmt(&self, f: &mut fmt::Formatter<'_>) -> fmt::Result {
        f.debug_struct("Filling")
            .field("slot", &self.slot())
            .field("serial", &self.serial())
            .finish_non_exhaustive()
    }
}

/// A whole line that a consumer holds, until its own release: what the other one
/// does changes nothing here. One that is dropped is released.
pub struct Hold<'a> {
    place: Place<'a>,
    consumer: Consumer,
}

impl Hold<'_> {
    pub fn slot(&self) -> usize {
        self.place.slot
    }

    pub fn serial(&self) -> u32 {
        self.place.serial
    }

    pub fn consumer(&self) -> Consumer {
        self.consumer
    }

    /// The line, 44,356 bytes.
    pub fn line(&self) -> &[u8] {
        // SAFETY: the slot is held, by this `Hold` too, which is borrowed for as
        // long as the line is: no take gives the slot before it is released, so
        // that nobody writes meanwhile.
        unsafe { &*self.place.bytes.0.get() }
    }

    /// Done with the line.
    pub fn release(self) {}
}

/// The release. It is not refused: nobody else has this hold, and this is its end.
impl Drop for Hold<'_> {
    fn drop(&mut self) {
        let Place { slot, serial, .. } = self.place;
        let _ = self
            .place
            .kept
            .with(|record, area| release(&mut record.desk, area, self.consumer, slot, serial));
    }
}

impl fmt::Debug for Hold<'_> {
    fn fmt(&self, f: &mut fmt::Formatter<'_>) -> fmt::Result {
        f.debug_struct("Hold")
            .field("consumer", &self.consumer())
            .field("slot", &self.slot())
            .field("serial", &self.serial())
            .finish_non_exhaustive()
    }
}
