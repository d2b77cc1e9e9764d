//! Numbers at the front of a buffer.

use super::{Asked, Maker};
use crate::call::{Call, Lent};
use crate::faults::Faults;
use crate::rows::Name;

/// The sizes n of the three forms.
pub const INTEGER: [u64; 4] = [1, 2, 3, 4];
pub const BCD: [u64; 6] = [1, 2, 3, 4, 5, 6];
pub const R: [u64; 2] = [4, 6];

impl Maker {
    /// A size that is served, or one that is not: near the served ones, huge,
    /// or one whose low half alone would be served.
    pub fn size(&mut self, served: &[u64], wrong: bool) -> u64 {
        let size = self.dice.pick(served);
        if !wrong {
            return size;
        }
        loop {
            let near = self.dice.under(10) as u64;
            let huge = u64::MAX - self.dice.under(8) as u64;
            let any = self.dice.of_any_length(64);
            let wrong = self
                .dice
                .pick(&[near, near, 255, 256 + size, (1 << 32) + size, huge, any]);
            if !served.contains(&wrong) {
                return wrong;
            }
        }
    }

    /// Decimal places that are served, or not.
    pub fn places(&mut self, wrong: bool) -> u64 {
        match (wrong, self.dice.under(4)) {
            (false, _) => self.dice.under(16) as u64,
            (true, 0) => self.dice.byte().max(16).into(),
            (true, _) => self.dice.pick(&[16, 16, 17, 255]),
        }
    }

    /// Size and places of an R number; with the fault 10 one is wrong, or both.
    pub fn r_form(&mut self, faults: &Faults) -> (u64, u64) {
        let (size, places) = self.short_ones(faults.has(10));
        (self.size(&R, size), self.places(places))
    }

    /// The bytes of a number: noise, or all zeros or ones, or but for the sign.
    pub fn number_bytes(&mut self, count: usize) -> Vec<u8> {
        let mut bytes = match self.dice.under(6) {
            0 => vec![0; count],
            1 => vec![0xFF; count],
            _ => self.noise(count),
        };
        if let (Some(first), true) = (bytes.first_mut(), self.dice.one_in(3)) {
            *first ^= 0x80;
        }
        bytes
    }

    /// The bytes of which a number of this size is read, or too few. Of a size
    /// that is not served, any few.
    fn bytes_for(&mut self, size: u64, faults: &Faults) -> Vec<u8> {
        let needed = size.clamp(1, 8) as usize;
        let count = match self.length(needed, faults.has(2)) {
            long if long > 64 => 64,
            count => count,
        };
        self.number_bytes(count)
    }

    pub fn read_integer(&mut self, faults: &Faults) -> Asked {
        let n = self.size(&INTEGER, faults.has(10));
        let lent = vec![Lent::Bytes(self.bytes_for(n, faults))];
        Asked::planned(Call::new(Name::ReadInteger, &[n], lent), faults)
    }

    /// Bytes of two digits each; with the fault 7 one of the digits is over 9.
    pub fn digits(&mut self, bytes: &mut [u8], wrong: bool) {
        for byte in bytes.iter_mut() {
            *byte = (self.dice.pick(&[0, 1, 9, 9, 5]) << 4) | self.dice.under(10) as u8;
        }
        if wrong && !bytes.is_empty() {
            let place = self.a_place_in(bytes.len());
            let digit = self.dice.between(10, 15) as u8;
            let byte = &mut bytes[place];
            *byte = match self.dice.one_in(2) {
                true => *byte & 0x0F | digit << 4,
                false => *byte & 0xF0 | digit,
            };
        }
    }

    pub fn read_bcd(&mut self, faults: &Faults) -> Asked {
        let n = self.size(&BCD, faults.has(10));
        let mut bytes = self.bytes_for(n, faults);
        // digits behind the number may be anything
        let read = bytes.len().min(n as usize);
        self.digits(&mut bytes[..read], faults.has(7));
        let lent = vec![Lent::Bytes(bytes)];
        Asked::planned(Call::new(Name::ReadBcd, &[n], lent), faults)
    }

    pub fn read_r(&mut self, name: Name, faults: &Faults) -> Asked {
        let (n, m) = self.r_form(faults);
        let lent = vec![Lent::Bytes(self.bytes_for(n, faults))];
        Asked::planned(Call::new(name, &[n, m], lent), faults)
    }

    /// A magnitude that n bytes hold, or one over it.
    fn magnitude(&mut self, n: u64, over: bool) -> u64 {
        let limit = match n {
            4 => 1 << 31,
            6 => 1 << 47,
            // no such number: there is nothing to be over
            _ => return self.dice.of_any_length(64),
        };
        let within = self.dice.number() % limit;
        let beyond = limit | self.dice.of_any_length(64);
        match over {
            true => self.dice.pick(&[limit, limit, limit + 1, u64::MAX, beyond]),
            false => self.dice.pick(&[0, 1, limit - 1, within, within, within]),
        }
    }

    pub fn put_real(&mut self, faults: &Faults) -> Asked {
        let negative = self.dice.under(2) as u64;
        let (n, m) = self.r_form(faults);
        let magnitude = self.magnitude(n, faults.has(11));
        let lent = vec![self.out(n.clamp(1, 8) as usize, faults.has(3))];
        let numbers = [negative, magnitude, n, m];
        Asked::planned(Call::new(Name::PutReal, &numbers, lent), faults)
    }
}
