//! Records of the reader: those that a reading makes, possible ones that none
//! makes, and impossible ones, each clause of refusal 12 by itself and at its
//! edge.

use second::bits;
use second::format::INFORMATION_BITS;
use second::ice;
use second::scramble::tail;

use super::Maker;

/// The record's fields, in the header's order when they are handed in.
#[derive(Clone, Copy, Debug, Default)]
pub struct Record {
    pub position: u64,
    pub search: u64,
    pub register: u64,
    pub in_line: u64,
    pub search_count: u64,
    pub unread: u64,
    pub unread_count: u64,
    pub waiting: u64,
    pub waiting_count: u64,
}

impl Record {
    pub fn numbers(&self) -> [u64; 9] {
        [
            self.position,
            self.search,
            self.register,
            self.in_line,
            self.search_count,
            self.unread,
            self.unread_count,
            self.waiting,
            self.waiting_count,
        ]
    }
}

impl Maker {
    /// A value of so many bits, often all ones.
    fn bits_of(&mut self, count: u64) -> u64 {
        let ones = (1 << count) - 1;
        match self.dice.one_in(4) {
            true => ones,
            false => self.dice.number() & ones,
        }
    }

    /// Between lines. Position and register have no meaning there, and may be
    /// anything that 12 lets pass.
    pub fn between_lines(&mut self) -> Record {
        let mut record = Record::default();
        if self.dice.one_in(4) {
            return record;
        }
        record.search_count = self.dice.pick(&[0, 1, 32, 62, 63, 64]);
        if record.search_count == 64 {
            record.search_count = self.dice.under(64) as u64;
        }
        record.search = self.bits_of(record.search_count);
        record.unread_count = self.dice.under(8) as u64;
        record.unread = self.bits_of(record.unread_count);
        if self.dice.one_in(3) {
            record.position = self.position();
            record.register = self.register(false);
        }
        record
    }

    /// A line bit: the first ones, the last ones, or any.
    pub fn position(&mut self) -> u64 {
        let position = match self.dice.under(8) {
            0 => self.dice.under(20),
            1..=4 => INFORMATION_BITS - 1 - self.dice.under(200),
            5 => INFORMATION_BITS - 1 - self.dice.under(8),
            _ => self.dice.under(INFORMATION_BITS),
        };
        position as u64
    }

    /// In a line. The search has no meaning there.
    pub fn inside_a_line(&mut self) -> Record {
        let position = self.position();
        let mut record = Record {
            position,
            in_line: 1,
            waiting_count: position % 8,
            ..Record::default()
        };
        record.waiting = self.bits_of(record.waiting_count);
        record.register = match self.dice.one_in(2) {
            true => self.pool.register(position as usize),
            false => self.register(false),
        };
        if self.dice.one_in(3) {
            record.search_count = self.dice.under(64) as u64;
            record.search = self.bits_of(record.search_count);
        }
        record
    }

    /// The tail with some wrong bits: often as many as the setting lets pass, or
    /// one more.
    fn wrong_tail(&mut self, setting: usize) -> Vec<u8> {
        let any = self.dice.between(0, 9);
        let wrong = self
            .dice
            .pick(&[0, setting, setting, setting + 1, setting + 1, any]);
        let mut tail = tail().to_vec();
        for place in ice::places(wrong, tail.len(), self.dice.random()) {
            tail[place] ^= 1;
        }
        tail
    }

    /// A record and a piece with the tail or nearly the tail somewhere in its
    /// remembered bits, its unread bits and the piece. Now and then another one
    /// follows, which is nearer or is not; or the first bits of a tail with
    /// which everything starts are missing.
    pub fn at_a_tail(&mut self, setting: usize) -> (Record, Vec<u8>) {
        let before = self.dice.pick(&[0, 0, 1, 7, 8, 30, 63, 64, 200]);
        let mut all = self.dice.random().bits(before);
        all.extend(self.wrong_tail(setting));
        if before == 0 && self.dice.one_in(3) {
            all.drain(..self.dice.between(1, 6));
        }
        if self.dice.one_in(4) {
            let between = self.dice.between(0, 70);
            all.extend(self.dice.random().bits(between));
            all.extend(self.wrong_tail(setting));
        }
        let behind = self.dice.between(13, 128);
        all.extend(self.dice.random().bits(behind));

        let remembered = self.dice.pick(&[0, 1, 31, 62, 63, 63, 63]);
        let unread = self.dice.under(8);
        let (search, rest) = all.split_at(remembered);
        let (unread, piece) = rest.split_at(unread);
        let record = Record {
            search: bits::number(search),
            search_count: search.len() as u64,
            unread: bits::number(unread),
            unread_count: unread.len() as u64,
            ..Record::default()
        };
        (record, bits::to_bytes(piece))
    }

    /// Makes a possible record impossible, by one clause in most cases. The
    /// last change breaks its clause whatever those before it did.
    pub fn make_impossible(&mut self, record: &mut Record) {
        let clauses = match self.dice.one_in(4) {
            true => self.dice.between(2, 4),
            false => 1,
        };
        for _ in 0..clauses {
            self.break_clause(record);
        }
    }

    fn break_clause(&mut self, record: &mut Record) {
        match self.dice.under(10) {
            0 => {
                let far = self.dice.of_any_length(63) + INFORMATION_BITS as u64;
                let edge = INFORMATION_BITS as u64;
                record.position = self.dice.pick(&[edge, edge, edge + 1, u64::MAX, far]);
                if record.in_line == 1 {
                    record.waiting_count = record.position % 8;
                    record.waiting = 0;
                }
            }
            1 => record.search_count = self.dice.pick(&[64, 64, 65, 127, 128, 255]),
            2 => record.register = self.register(true),
            3 => {
                record.search_count = record.search_count.min(63);
                let over = 1 << record.search_count;
                record.search = self.dice.pick(&[over, over, u64::MAX]);
            }
            4 => {
                record.unread_count = record.unread_count.min(7);
                let over = 1 << record.unread_count;
                record.unread = self.dice.pick(&[over, over, 255]);
            }
            5 => {
                record.waiting_count = record.waiting_count.min(7);
                let over = 1 << record.waiting_count;
                record.waiting = self.dice.pick(&[over, over, 255]);
            }
            6 => record.unread_count = self.dice.pick(&[8, 8, 9, 63, 64, 65, 128, 255]),
            7 if record.in_line == 1 => {
                let wrong = record.waiting_count + self.dice.pick(&[1, 2, 7, 8, 56, 64]);
                record.waiting_count = wrong % 256;
                if wrong % 256 == record.position % 8 {
                    record.waiting_count = 255;
                }
            }
            7 => record.waiting_count = self.dice.pick(&[1, 1, 7, 8, 64, 255]),
            8 if record.in_line == 1 => {
                record.unread_count = self.dice.between(1, 7) as u64;
                record.unread = 0;
            }
            _ => {
                let flag = self.dice.byte().max(2);
                record.in_line = self.dice.pick(&[2, 2, 3, 128, 254, 255, flag]).into();
            }
        }
    }
}
