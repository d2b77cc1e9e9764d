//! Buffers in guarded memory. Before and behind a buffer stand canaries, bytes
//! that no call may change; and the memory is fenced, with the buffer right
//! against the fence now and then, so that a call that only looks outside is
//! found too.

use std::ops::Range;

use crate::call::{Call, Lent, Outcome};
use crate::fence::{Fenced, PAGE};

const CANARY: usize = 64;

fn canary(place: usize) -> u8 {
    0xA5 ^ (place % 251) as u8
}

/// A buffer that stands in guarded memory.
pub struct Guarded {
    fenced: Fenced,
    start: usize,
    bytes: usize,
    words: bool,
    null: bool,
}

impl Guarded {
    pub fn new() -> Guarded {
        Guarded {
            fenced: Fenced::new(PAGE),
            start: 0,
            bytes: 0,
            words: false,
            null: false,
        }
    }

    /// Puts a buffer into the memory: in its middle at any address, or right
    /// at its end or its start, as the turn says. An empty one is a null
    /// pointer now and then.
    pub fn put(&mut self, lent: &Lent, turn: usize) {
        self.words = matches!(lent, Lent::Words(_));
        self.bytes = lent.count() * if self.words { 2 } else { 1 };
        self.null = self.bytes == 0 && turn % 2 == 1;
        if self.fenced.room() < self.bytes + 4 * CANARY {
            self.fenced = Fenced::new(self.bytes + 4 * CANARY);
        }
        let shift = (turn / 4 % 16) & if self.words { 14 } else { 15 };
        self.start = match turn % 4 {
            0 => self.fenced.room() - self.bytes,
            1 => 0,
            _ => CANARY + shift,
        };
        let (before, behind) = self.canaries();
        let (start, bytes) = (self.start, self.bytes);
        let memory = self.fenced.bytes();
        for place in before.chain(behind) {
            memory[place] = canary(place);
        }
        let buffer = &mut memory[start..start + bytes];
        match lent {
            Lent::Bytes(bytes) => buffer.copy_from_slice(bytes),
            Lent::Words(words) => {
                for (two, word) in buffer.chunks_mut(2).zip(words) {
                    two.copy_from_slice(&word.to_ne_bytes());
                }
            }
        }
    }

    /// The places of the canaries, so far as the memory goes.
    fn canaries(&self) -> (Range<usize>, Range<usize>) {
        let end = self.start + self.bytes;
        (
            self.start.saturating_sub(CANARY)..self.start,
            end..self.fenced.room().min(end + CANARY),
        )
    }

    pub fn canaries_stand(&mut self) -> bool {
        let (before, behind) = self.canaries();
        let memory = self.fenced.bytes();
        before.chain(behind).all(|at| memory[at] == canary(at))
    }

    /// What stands in the buffer now.
    pub fn lent(&mut self) -> Lent {
        let (start, bytes, words) = (self.start, self.bytes, self.words);
        let buffer = &self.fenced.bytes()[start..start + bytes];
        match words {
            false => Lent::Bytes(buffer.to_vec()),
            true => {
                let pairs = buffer.chunks(2);
                let words = pairs.map(|two| u16::from_ne_bytes([two[0], two[1]]));
                Lent::Words(words.collect())
            }
        }
    }

    /// The pointer to hand on.
    pub fn bytes(&self) -> *mut u8 {
        match self.null {
            true => std::ptr::null_mut(),
            // SAFETY: the start lies in the memory, or at its end.
            false => unsafe { self.fenced.memory().add(self.start) },
        }
    }

    pub fn words(&self) -> *mut u16 {
        self.bytes().cast()
    }

    /// How many elements.
    pub fn count(&self) -> usize {
        self.bytes / if self.words { 2 } else { 1 }
    }
}

impl Default for Guarded {
    fn default() -> Guarded {
        Guarded::new()
    }
}

/// What came of a call whose buffers stand in these guards.
pub fn outcome(call: &Call, numbers: Vec<u64>, guards: &mut [Guarded]) -> Outcome {
    let parts = call.row().lent;
    let changed = (0..parts.len()).find(|&i| !guards[i].canaries_stand());
    Outcome {
        numbers,
        lent: guards[..parts.len()]
            .iter_mut()
            .map(Guarded::lent)
            .collect(),
        harm: changed.map(|i| format!("a canary of {} changed", parts[i].what)),
    }
}
