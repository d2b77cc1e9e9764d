//! Formats, the scrambling register, SYNC.

use super::{Asked, Maker};
use crate::call::{Call, Lent};
use crate::faults::Faults;
use crate::rows::Name;

/// Bytes of SYNC; of a format that is none, any number will do.
fn sync_bytes(format: u64) -> usize {
    match format {
        2 => 2_500,
        _ => 1_250,
    }
}

impl Maker {
    pub fn format_call(&mut self, faults: &Faults) -> Asked {
        let format = self.format(faults);
        Asked::planned(Call::new(Name::Format, &[format], vec![]), faults)
    }

    /// A register of fifteen bits, or over that.
    pub fn register(&mut self, over: bool) -> u64 {
        let low = match self.dice.under(4) {
            0 => self.dice.pick(&[0, 1, 0x2000, 0x4000, 0x6000, 0x7FFF]),
            _ => self.dice.number() & 0x7FFF,
        };
        low | u64::from(over) << 15
    }

    pub fn stepped(&mut self, faults: &Faults) -> Asked {
        let register = self.register(faults.has(12));
        Asked::planned(Call::new(Name::Stepped, &[register], vec![]), faults)
    }

    pub fn step(&mut self, faults: &Faults) -> Asked {
        let register = self.register(faults.has(12)) as u16;
        let lent = vec![Lent::Words(vec![register])];
        Asked::planned(Call::new(Name::Step, &[], lent), faults)
    }

    pub fn put_sync(&mut self, faults: &Faults) -> Asked {
        let format = self.format(faults);
        let lent = vec![self.out(sync_bytes(format), faults.has(3))];
        Asked::planned(Call::new(Name::PutSync, &[format], lent), faults)
    }
}
