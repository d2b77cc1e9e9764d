//! Reports: those that lines make, possible ones that none make, and impossible
//! ones, each clause of refusal 12 by itself and at its edge.

use super::{Asked, Maker};
use crate::call::Call;
use crate::faults::Faults;
use crate::report::{Report, ACCEPTED, COUNT, FILLER, ID, PRESENT, REMAINDER, SUM};
use crate::report::{LINE_FILLER, LINE_PIXELS, LINE_SUM, MOST_LINES, WRONG_MARKS};
use crate::rows::Name;

/// A clause of refusal 12.
#[derive(Clone, Copy)]
enum Clause {
    OverTheLimit,
    OneOff,
    Wrapping,
    Filler,
    Count,
    Sum,
    Mark,
}

const CLAUSES: [Clause; 7] = [
    Clause::OverTheLimit,
    Clause::OneOff,
    Clause::Wrapping,
    Clause::Filler,
    Clause::Count,
    Clause::Sum,
    Clause::Mark,
];

impl Maker {
    /// A number up to this one: often just as much, or nothing.
    fn up_to(&mut self, most: u64) -> u64 {
        let any = self.dice.number() % (most + 1);
        self.dice
            .pick(&[any, any, any, most, most, most.saturating_sub(1), 0])
    }

    /// A possible report of so many lines, each of its numbers by itself: what no
    /// lines lead to is served too.
    fn possible_report(&mut self, lines: u64) -> Report {
        let mut report = Report::accepted(lines);
        for sector in &mut report.sectors {
            let refused = self.up_to(lines);
            let id = self.up_to(refused);
            *sector = [
                lines - refused,
                refused - id,
                id,
                self.up_to(LINE_FILLER * lines),
            ];
        }
        for channel in &mut report.channels {
            let (least, largest) = (self.a_pixel(), self.a_pixel());
            let present = self.dice.under(2) as u64;
            let count = self.up_to(LINE_PIXELS * lines);
            *channel = [count, self.up_to(LINE_SUM * lines), least, largest, present];
        }
        report
    }

    /// A least or largest, also over ten bits.
    fn a_pixel(&mut self) -> u64 {
        let any = self.dice.number();
        self.dice.pick(&[
            0,
            1_023,
            1_024,
            0xFFFF,
            any & 0x3FF,
            any & 0x3FF,
            any & 0xFFFF,
        ])
    }

    /// How many lines a report has: up to so many, often few.
    fn some_lines(&mut self, most: u64) -> u64 {
        let few = self.dice.under(6) as u64;
        self.up_to(most).min(self.dice.pick(&[most, most, few]))
    }

    /// A possible report of at most so many lines: that of no line, one that the
    /// pool's lines make, or one by its numbers.
    pub fn report_up_to(&mut self, most: u64) -> Report {
        let lines = self.some_lines(most);
        match self.dice.under(8) {
            0 => Report::default(),
            1..=3 => self.pool.report(lines.min(5), &mut self.dice),
            _ => self.possible_report(lines),
        }
    }

    /// Makes a possible report impossible, by one clause.
    fn spoil_report(&mut self, report: &mut Report, clause: Clause) {
        let sector = self.a_place_in(12);
        let channel = self.a_place_in(4);
        let lines = report.lines;
        let over = |most: u64| [most + 1, most + 1, u64::MAX];
        match clause {
            Clause::OverTheLimit => {
                let over = self
                    .dice
                    .pick(&[100_001, 100_001, 100_002, 1 << 32, 1 << 63, u64::MAX]);
                // what was added up still does
                for sector in &mut report.sectors {
                    sector[ACCEPTED] = over - sector[REMAINDER] - sector[ID];
                }
                report.lines = over;
            }
            Clause::OneOff => {
                let place = self.dice.pick(&[ACCEPTED, REMAINDER, ID]);
                let count = &mut report.sectors[sector][place];
                *count = match *count > 0 && self.dice.one_in(2) {
                    true => *count - 1,
                    false => *count + 1,
                };
            }
            Clause::Wrapping => {
                // together the lines, where a sum is cut to 64 bits
                let (a, b) = (self.dice.number() | 1 << 63, self.dice.number() | 1 << 63);
                let c = lines.wrapping_sub(a).wrapping_sub(b);
                let [one, other, third] = self.dice.pick(&[
                    [a, b, c],
                    [c, a, b],
                    [b, c, a],
                    [u64::MAX, lines + 1, 0],
                    [lines + 1, 0, u64::MAX],
                ]);
                let filler = report.sectors[sector][FILLER];
                report.sectors[sector] = [one, other, third, filler];
            }
            Clause::Filler => {
                report.sectors[sector][FILLER] = self.dice.pick(&over(LINE_FILLER * lines));
            }
            Clause::Count => {
                report.channels[channel][COUNT] = self.dice.pick(&over(LINE_PIXELS * lines));
            }
            Clause::Sum => {
                report.channels[channel][SUM] = self.dice.pick(&over(LINE_SUM * lines));
            }
            Clause::Mark => {
                let any = 2 + self.dice.number() % (u64::from(u32::MAX) - 1);
                let wrong = self.dice.pick(&WRONG_MARKS);
                report.channels[channel][PRESENT] = self.dice.pick(&[wrong, wrong, any]);
            }
        }
    }

    /// The same by one clause, now and then by a second one.
    fn impossible_report(&mut self, mut report: Report) -> Report {
        let clause = self.dice.pick(&CLAUSES);
        // beside the limit none: what so many lines allow may be over 64 bits
        if self.dice.one_in(4) && !matches!(clause, Clause::OverTheLimit) {
            let other = self.dice.pick(&CLAUSES[4..]);
            self.spoil_report(&mut report, other);
        }
        self.spoil_report(&mut report, clause);
        report
    }

    pub fn with_line(&mut self, faults: &Faults) -> Asked {
        let format = self.format(faults);
        let mut report = match faults.has(15) {
            true => self.possible_report(MOST_LINES),
            false => self.report_up_to(MOST_LINES - 1),
        };
        if faults.has(12) {
            report = self.impossible_report(report);
        }
        let mut line = self.good_line(format);
        for sector in 1..=12 {
            let number = self.dice.pick(&[0, 0, 0, 5, 6]);
            self.judged(&mut line, sector, number);
        }
        let numbers = [&[format], &report.numbers()[..]].concat();
        let lent = vec![self.fitted(line, faults.has(2))];
        Asked::planned(Call::new(Name::WithLine, &numbers, lent), faults)
    }

    pub fn together(&mut self, faults: &Faults) -> Asked {
        let (mut first, mut second) = match faults.has(15) {
            true => {
                let lines = self.some_lines(MOST_LINES - 1) + 1;
                let just = MOST_LINES + 1 - lines;
                let more = just + self.up_to(MOST_LINES - just);
                let others = self.dice.pick(&[just, just, more]);
                (self.possible_report(lines), self.possible_report(others))
            }
            false => {
                let first = self.report_up_to(MOST_LINES);
                let rest = MOST_LINES - first.lines;
                let second = match self.dice.one_in(3) {
                    true => self.possible_report(rest),
                    false => self.report_up_to(rest),
                };
                (first, second)
            }
        };
        if self.dice.one_in(2) {
            std::mem::swap(&mut first, &mut second);
        }
        let (wrong_first, wrong_second) = self.short_ones(faults.has(12));
        if wrong_first {
            first = self.impossible_report(first);
        }
        if wrong_second {
            second = self.impossible_report(second);
        }
        let numbers = [first.numbers(), second.numbers()].concat();
        Asked::planned(Call::new(Name::Together, &numbers, vec![]), faults)
    }

    /// A report that may be one or the other: a possible one in which some numbers
    /// are exchanged for any.
    pub fn wild_report(&mut self) -> Vec<u64> {
        let mut numbers = self.report_up_to(MOST_LINES).numbers();
        let row = crate::rows::ROWS[Name::Together as usize].numbers;
        for _ in 0..self.dice.under(3) {
            let place = self.dice.under(numbers.len());
            let (what, bits) = row[place];
            numbers[place] = self.wild_number(what, bits);
        }
        numbers
    }
}
