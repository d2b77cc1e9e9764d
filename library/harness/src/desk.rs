//! A desk as the numbers of a call: any that the header's widths allow, possible
//! or not.

use second::desk;
use second::format::LINE_BYTES;

/// The numbers of a desk: count, last serial, three of each slot.
pub const NUMBERS: usize = 2 + 3 * 8;

// Of a slot.
pub const SERIAL: usize = 0;
pub const USED: usize = 1;
pub const HOLDERS: usize = 2;

// What a slot is used for.
pub const FREE: u64 = 0;
pub const FILLING: u64 = 1;
pub const HELD: u64 = 2;

// As a consumer one of them, as holders their sum.
pub const PREVIEW: u64 = 1;
pub const CAPTURE: u64 = 2;
pub const BOTH: u64 = 3;

/// The counts that are served, and the last serial: document 02.
pub const COUNTS: [u64; 7] = [2, 3, 4, 5, 6, 7, 8];
pub const LAST_SERIAL: u64 = u32::MAX as u64;

/// Marks that say nothing, some only by their upper byte.
pub const WRONG_USED: [u64; 7] = [3, 4, 255, 256, 258, 0x8001, 0xFFFF];
pub const WRONG_HOLDERS: [u64; 7] = [4, 5, 255, 256, 258, 0x8003, 0xFFFF];

/// In the header's order.
#[derive(Clone, Debug, Default, PartialEq, Eq)]
pub struct Desk {
    pub count: u64,
    pub last: u64,
    pub slots: [[u64; 3]; 8],
}

impl Desk {
    /// The first numbers of a list.
    pub fn of(numbers: &[u64]) -> Desk {
        let slots = &numbers[2..NUMBERS];
        Desk {
            count: numbers[0],
            last: numbers[1],
            slots: std::array::from_fn(|i| std::array::from_fn(|j| slots[3 * i + j])),
        }
    }

    pub fn numbers(&self) -> Vec<u64> {
        [&[self.count, self.last], self.slots.as_flattened()].concat()
    }

    /// Bytes that the slots need.
    pub fn area(&self) -> u64 {
        self.count * LINE_BYTES as u64
    }

    /// The slots below the count, so far as a record has them.
    pub fn own(&self) -> &[[u64; 3]] {
        &self.slots[..(self.count as usize).min(8)]
    }

    /// A mark below the count that says nothing.
    pub fn has_wrong_mark(&self) -> bool {
        let wrong =
            |[_, used, holders]: &[u64; 3]| *used > HELD || (*used == HELD && *holders > BOTH);
        self.own().iter().any(wrong)
    }
}

/// What the marks of a desk say, as the second decoder has it. A mark that says
/// nothing is left out.
impl From<&Desk> for desk::Desk {
    fn from(of: &Desk) -> desk::Desk {
        let mut desk = desk::Desk {
            count: of.count as usize,
            last: of.last,
            ..desk::Desk::default()
        };
        for (slot, &[serial, used, holders]) in of.own().iter().enumerate() {
            let place = (slot, serial);
            match used {
                FILLING => _ = desk.filling.insert(place),
                HELD => {
                    desk.lines.insert(place);
                    let by = [PREVIEW, CAPTURE].into_iter().filter(|c| holders & c != 0);
                    desk.holds.extend(by.map(|c| (c as usize, place)));
                }
                _ => (),
            }
        }
        desk
    }
}
