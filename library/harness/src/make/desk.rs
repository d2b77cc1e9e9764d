//! Desks: those that calls lead to, possible ones that none lead to, with anything
//! in the numbers that say nothing, and impossible ones, each clause of refusal 12
//! by itself and at its edge.

use super::{Asked, Maker};
use crate::call::Call;
use crate::desk::{Desk, BOTH, CAPTURE, FILLING, FREE, HELD, HOLDERS, PREVIEW, SERIAL, USED};
use crate::desk::{COUNTS, LAST_SERIAL, NUMBERS, WRONG_HOLDERS, WRONG_USED};
use crate::faults::Faults;
use crate::rows::{Name, ROWS};

/// A clause of refusal 12.
#[derive(Clone, Copy)]
enum Clause {
    SerialZero,
    NotYetGiven,
    InTwoSlots,
    NoHolder,
    Used,
    Holders,
}

const CLAUSES: [Clause; 6] = [
    Clause::SerialZero,
    Clause::NotYetGiven,
    Clause::InTwoSlots,
    Clause::NoHolder,
    Clause::Used,
    Clause::Holders,
];

impl Maker {
    /// A serial that was given and that no slot below the count has.
    fn unused_serial(&mut self, desk: &Desk) -> u64 {
        loop {
            let any = 1 + self.dice.number() % desk.last;
            let low = 1 + self.dice.under(12) as u64;
            let serial = self.dice.pick(&[any, any, low.min(desk.last), desk.last]);
            let is_used = |slot: &[u64; 3]| slot[USED] != FREE && slot[SERIAL] == serial;
            if !desk.own().iter().any(is_used) {
                return serial;
            }
        }
    }

    /// A slot of a possible desk that is used for this.
    pub fn a_slot(&mut self, desk: &Desk, used: u64) -> [u64; 3] {
        match used {
            FREE => [0, FREE, 0],
            FILLING => [self.unused_serial(desk), FILLING, 0],
            _ => {
                let holders = self.dice.pick(&[PREVIEW, CAPTURE, BOTH]);
                [self.unused_serial(desk), HELD, holders]
            }
        }
    }

    /// How many serials were given: few, any, or nearly all. Enough for every slot.
    fn a_last(&mut self) -> u64 {
        let any = 10 + self.dice.number() % (LAST_SERIAL - 20);
        let few = 9 + self.dice.under(12) as u64;
        let many = LAST_SERIAL - 1 - self.dice.under(3) as u64;
        self.dice.pick(&[few, few, any, many])
    }

    /// A possible desk, every slot by itself.
    pub fn a_desk(&mut self) -> Desk {
        let mut desk = Desk {
            count: self.dice.pick(&COUNTS),
            last: self.a_last(),
            ..Desk::default()
        };
        for slot in 0..desk.count as usize {
            let used = self.dice.pick(&[FREE, FILLING, HELD, HELD]);
            desk.slots[slot] = self.a_slot(&desk, used);
        }
        desk
    }

    /// Any numbers where they say nothing: of a free slot, of a filling one's
    /// holders, of slots from the count on. Often they look as if they did.
    pub fn litter(&mut self, desk: &mut Desk) {
        let count = desk.count.min(8) as usize;
        for slot in 0..8 {
            let other = self.dice.under(count.max(1));
            let serial = desk.slots[other][SERIAL];
            let any = self.dice.of_any_length(32);
            let serial = self.dice.pick(&[serial, serial, desk.last, 0, any]);
            let holders = self.dice.of_any_length(16);
            let holders = self.dice.pick(&[0, PREVIEW, BOTH, holders]);
            let used = self.dice.of_any_length(16);
            let used = self.dice.pick(&[FREE, FILLING, HELD, used]);
            if slot >= count {
                desk.slots[slot] = [serial, used, holders];
            } else if desk.slots[slot][USED] == FREE {
                desk.slots[slot] = [serial, FREE, holders];
            } else if desk.slots[slot][USED] == FILLING {
                desk.slots[slot][HOLDERS] = holders;
            }
        }
    }

    /// Makes a possible desk impossible, by one clause.
    fn spoil_desk(&mut self, desk: &mut Desk, clause: Clause) {
        let count = desk.count as usize;
        let slot = self.dice.under(count);
        let used = self.dice.pick(&[FILLING, HELD]);
        desk.slots[slot] = [0, FREE, 0];
        let right = self.a_slot(desk, used);
        desk.slots[slot] = match clause {
            Clause::SerialZero => [0, used, right[HOLDERS]],
            Clause::NotYetGiven => {
                desk.last = desk.last.min(LAST_SERIAL - 1);
                let over = desk.last + 1;
                let any = over + self.dice.number() % (LAST_SERIAL - desk.last);
                [self.dice.pick(&[over, over, any]), used, right[HOLDERS]]
            }
            Clause::InTwoSlots => {
                let other = (slot + 1 + self.dice.under(count - 1)) % count;
                if desk.slots[other][USED] == FREE {
                    let used = self.dice.pick(&[FILLING, HELD]);
                    desk.slots[other] = self.a_slot(desk, used);
                }
                [desk.slots[other][SERIAL], used, right[HOLDERS]]
            }
            Clause::NoHolder => [right[SERIAL], HELD, 0],
            Clause::Used => {
                let any = 3 + self.dice.number() % 0xFFFD;
                let wrong = self.dice.pick(&WRONG_USED);
                [right[SERIAL], self.dice.pick(&[wrong, wrong, any]), BOTH]
            }
            Clause::Holders => {
                let any = 4 + self.dice.number() % 0xFFFC;
                let wrong = self.dice.pick(&WRONG_HOLDERS);
                [right[SERIAL], HELD, self.dice.pick(&[wrong, wrong, any])]
            }
        };
    }

    /// A count that is not served, some by its upper bytes alone.
    fn wrong_count(&mut self) -> u64 {
        let any = 9 + self.dice.number() % (LAST_SERIAL - 9);
        let low = self.dice.pick(&COUNTS);
        let far = self.dice.pick(&[1 << 8, 1 << 16, 1 << 31]) + low;
        self.dice.pick(&[0, 1, 9, 10, far, LAST_SERIAL, any])
    }

    /// A slot that the desk does not have, some by its upper bytes alone.
    fn wrong_slot(&mut self, desk: &Desk, slot: u64) -> u64 {
        let past = self.dice.between(desk.count as usize, 9) as u64;
        let far = self.dice.pick(&[1 << 8, 1 << 32, 1 << 63]) + slot;
        let any = desk.count + self.dice.number() % (u64::MAX - desk.count);
        self.dice
            .pick(&[desk.count, desk.count, past, far, u64::MAX, any])
    }

    /// The desk with the faults that it may have beside its slot, and the area.
    fn judged_desk(&mut self, mut desk: Desk, faults: &Faults) -> (Desk, u64) {
        if faults.has(12) {
            let clause = self.dice.pick(&CLAUSES);
            let clause = match clause {
                Clause::NotYetGiven if faults.has(18) => Clause::SerialZero,
                other => other,
            };
            self.spoil_desk(&mut desk, clause);
        }
        let needed = desk.area() as usize;
        let area = self.length(needed, faults.has(2)) as u64;
        let long = self.dice.pick(&[u64::MAX, 1 << 32, 8 * 44_356]);
        let area = match !faults.has(2) && self.dice.one_in(8) {
            true => long.max(area),
            false => area,
        };
        if self.dice.one_in(2) {
            self.litter(&mut desk);
        }
        (desk, area)
    }

    pub fn fresh_desk(&mut self, faults: &Faults) -> Asked {
        let count = match faults.has(19) {
            true => self.wrong_count(),
            false => self.dice.pick(&COUNTS),
        };
        Asked::planned(Call::new(Name::FreshDesk, &[count], vec![]), faults)
    }

    pub fn take(&mut self, faults: &Faults) -> Asked {
        let mut desk = self.a_desk();
        if faults.has(18) {
            desk.last = LAST_SERIAL;
        }
        let count = desk.count as usize;
        for slot in 0..count {
            let busy = self.dice.pick(&[FILLING, HELD]);
            if faults.has(16) && desk.slots[slot][USED] == FREE {
                desk.slots[slot] = self.a_slot(&desk, busy);
            }
        }
        if !faults.has(16) {
            let free = self.dice.under(count);
            desk.slots[free] = [0, FREE, 0];
        }
        let (mut desk, area) = self.judged_desk(desk, faults);
        if faults.has(19) {
            desk.count = self.wrong_count();
        }
        let numbers = [desk.numbers(), vec![area]].concat();
        Asked::planned(Call::new(Name::Take, &numbers, vec![]), faults)
    }

    /// Publish, release and seen: a slot that is right for it or not.
    pub fn of_a_slot(&mut self, name: Name, faults: &Faults) -> Asked {
        let mut desk = self.a_desk();
        let slot = self.dice.under(desk.count as usize);
        let mut consumer = self.dice.pick(&[PREVIEW, CAPTURE]);
        desk.slots[slot] = [0, FREE, 0];
        let right = match name {
            Name::Publish => self.a_slot(&desk, FILLING),
            _ => {
                let holders = self.dice.pick(&[consumer, BOTH]);
                [self.unused_serial(&desk), HELD, holders]
            }
        };
        desk.slots[slot] = right;
        let mut serial = right[SERIAL];
        if faults.has(17) {
            (serial, consumer) = self.no_hold(&mut desk, name, slot, serial, consumer);
        }
        let (mut desk, area) = self.judged_desk(desk, faults);
        let mut slot = slot as u64;
        if faults.has(19) {
            match self.dice.one_in(3) {
                true => desk.count = self.wrong_count(),
                false => slot = self.wrong_slot(&desk, slot),
            }
        }
        let behind = match name {
            Name::Publish => vec![area, slot, serial],
            _ => vec![area, consumer, slot, serial],
        };
        let numbers = [desk.numbers(), behind].concat();
        Asked::planned(Call::new(name, &numbers, vec![]), faults)
    }

    /// Takes away what the call is about: by the serial, by what the slot is used
    /// for, or by the consumer. The serial and the consumer that it asks for then.
    fn no_hold(
        &mut self,
        desk: &mut Desk,
        name: Name,
        slot: usize,
        serial: u64,
        consumer: u64,
    ) -> (u64, u64) {
        let other = CAPTURE + PREVIEW - consumer;
        let of = &mut desk.slots[slot];
        match (self.dice.under(4), name) {
            (0, _) => {
                let near = serial ^ 1 << self.dice.under(32);
                let next = (serial + 1) & LAST_SERIAL;
                (self.dice.pick(&[next, serial - 1, 0, near]), consumer)
            }
            (1, _) => {
                // free, with the serial that it had
                *of = [serial, FREE, self.dice.pick(&[0, consumer, BOTH])];
                (serial, consumer)
            }
            (_, Name::Publish) => {
                *of = [serial, HELD, self.dice.pick(&[PREVIEW, CAPTURE, BOTH])];
                (serial, consumer)
            }
            (2, _) => {
                match self.dice.one_in(2) {
                    true => *of = [serial, HELD, other],
                    false => *of = [serial, FILLING, BOTH],
                }
                (serial, consumer)
            }
            _ => {
                let any = self.other_than(&[PREVIEW, CAPTURE]);
                (serial, self.dice.pick(&[0, 3, any]))
            }
        }
    }

    /// A desk that may be one or the other: a possible one in which some numbers
    /// are exchanged for any; and any behind it, often near its own.
    pub fn wild_desk(&mut self, name: Name) -> Vec<u64> {
        let mut desk = self.a_desk();
        if self.dice.one_in(2) {
            self.litter(&mut desk);
        }
        let slot = self.dice.under(8);
        let serial = desk.slots[slot][SERIAL];
        let near = [desk.area(), slot as u64, serial, self.dice.under(4) as u64];
        let mut numbers = desk.numbers();
        let row = ROWS[name as usize].numbers;
        for _ in 0..self.dice.under(3) {
            let place = self.dice.under(NUMBERS);
            let (what, bits) = row[place];
            let any = self.wild_number(what, bits);
            numbers[place] = self.dice.pick(&[any, any & 3, any & 15]);
        }
        for (what, bits) in &row[NUMBERS..] {
            let own = match *what {
                "area" => near[0],
                "slot" => near[1],
                "serial" => near[2],
                _ => near[3],
            };
            let any = self.wild_number(what, *bits);
            numbers.push(self.dice.pick(&[own, own, own, own, any]));
        }
        numbers
    }
}
