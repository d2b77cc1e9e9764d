//! What the calls are made of, prepared once: good lines of both cards, noise to
//! cut from, and what is needed to damage a sector in a known way quickly.

use second::bits::{self, bit, set_bit};
use second::damage;
use second::format::{self, INFORMATION_BITS, LINE_BYTES};
use second::pattern;
use second::report;
use second::scramble::after_sync;
use second::sectors::{self, Sector, CHECK_BITS, FILLER_BITS, SECTORS};

use crate::dice::Dice;
use crate::report::Report;

const NOISE: usize = 1 << 18;

/// The formats.
pub const FORMATS: [usize; 3] = [1, 2, 3];

/// Whether a format's check starts from ones: which of the two cards it is from.
pub fn from_ones(format: usize) -> bool {
    format == 3
}

pub struct Pool {
    noise: Vec<u8>,
    /// Plain lines whose twelve sectors are accepted: of the card whose check
    /// starts from 0, and of the one whose check starts from ones.
    good: [Vec<Vec<u8>>; 2],
    /// Reports of one line each, some of them with damage.
    reports: Vec<report::Report>,
    /// Fifteen ones, then the scrambling bits after SYNC.
    scrambling: Vec<u8>,
    /// For each sector and each bit of its ID, the change of the check word
    /// that goes with a change of the bit. The check is linear: changes that
    /// are made together add up by exclusive or.
    id_checks: Vec<Vec<u16>>,
    /// For each sector, the change of the check word from one card to the other,
    /// which is the same whatever the sector holds.
    card_checks: Vec<u16>,
}

/// The place of a sector's first check bit.
fn check_start(sector: &Sector) -> usize {
    sector.filler_start() - CHECK_BITS
}

fn turn_over(line: &mut [u8], place: usize) {
    set_bit(line, place, 1 - bit(line, place));
}

fn id_checks(sector: &Sector) -> Vec<u16> {
    let id_bits = sector.id().len();
    let of_bit = |place: usize| {
        let mut id_and_data = vec![0; id_bits + sector.data_bits()];
        id_and_data[place] = 1;
        sectors::check_word(0, &id_and_data)
    };
    (0..id_bits).map(of_bit).collect()
}

fn card_check(sector: &Sector) -> u16 {
    let zeros = vec![0; sector.id().len() + sector.data_bits()];
    sectors::check_word(0xFFFF, &zeros)
}

/// A line whose sectors hold these data, in a format.
fn line_of(format: usize, mut data: impl FnMut(usize) -> Vec<u8>) -> Vec<u8> {
    let mut line = vec![0; LINE_BYTES];
    for sector in 1..=12 {
        let bytes = data(SECTORS[sector - 1].data_bytes());
        sectors::put_data(format, &mut line, sector, &bytes).expect("a sector");
    }
    line
}

/// Changes the check word of a sector by this one.
fn change_check(line: &mut [u8], sector: &Sector, word: u16) {
    for place in 0..CHECK_BITS {
        if word >> (CHECK_BITS - 1 - place) & 1 == 1 {
            turn_over(line, check_start(sector) + place);
        }
    }
}

impl Pool {
    pub fn new(dice: &mut Dice) -> Pool {
        let noise = dice.random().bytes(NOISE);
        let mut good = [vec![], vec![]];
        for format in FORMATS {
            let good = &mut good[usize::from(from_ones(format))];
            good.push(line_of(format, |count| vec![0; count]));
            good.push(line_of(format, |count| vec![0xFF; count]));
            for _ in 0..4 {
                good.push(line_of(format, |count| dice.random().bytes(count)));
            }
            for tables in [0, 0, 0, 1, 1] {
                let k = dice.under(20_000) as u64;
                good.push(pattern::line(format, k, tables).expect("a format"));
            }
        }
        let one = |format, line: &[u8]| report::with_line(format, &report::Report::default(), line);
        let mut reports = Vec::new();
        for k in 0..4 {
            let format = FORMATS[k % 3];
            let line = damage::damaged_line(format, k as u64).expect("a format");
            reports.push(one(format, &line).expect("a line"));
        }
        for line in &good[0][..2] {
            reports.push(one(1, line).expect("a line"));
        }
        let mut scrambling = vec![1; 15];
        scrambling.extend(after_sync(INFORMATION_BITS));
        Pool {
            noise,
            good,
            reports,
            scrambling,
            id_checks: SECTORS.iter().map(id_checks).collect(),
            card_checks: SECTORS.iter().map(card_check).collect(),
        }
    }

    /// Some bytes.
    pub fn noise(&self, count: usize, dice: &mut Dice) -> Vec<u8> {
        let start = dice.under(NOISE - count);
        self.noise[start..start + count].to_vec()
    }

    /// A plain line whose twelve sectors are accepted in a format.
    pub fn good(&self, format: usize, dice: &mut Dice) -> Vec<u8> {
        let good = &self.good[usize::from(from_ones(format))];
        good[dice.under(good.len())].clone()
    }

    /// The report of so many lines of the pool.
    pub fn report(&self, lines: u64, dice: &mut Dice) -> Report {
        let mut all = report::Report::default();
        for _ in 0..lines {
            let one = &self.reports[dice.under(self.reports.len())];
            all = report::together(&all, one).expect("few lines");
        }
        Report::from(&all)
    }

    /// The scrambling register before a line bit.
    pub fn register(&self, position: usize) -> u64 {
        bits::number(&self.scrambling[position..position + 15])
    }

    /// Damage that the check notices: one bit, or some within sixteen.
    pub fn break_check(&self, line: &mut [u8], sector: usize, dice: &mut Dice) {
        let sector = &SECTORS[sector - 1];
        let last = sector.filler_start() - 1;
        let first = dice.between(sector.start, last);
        turn_over(line, first);
        if dice.one_in(2) {
            for place in first + 1..last.min(first + 15) {
                if dice.one_in(2) {
                    turn_over(line, place);
                }
            }
        }
    }

    /// Another ID, with the check word that goes with it.
    pub fn break_id(&self, line: &mut [u8], sector: usize, dice: &mut Dice) {
        let checks = &self.id_checks[sector - 1];
        let sector = &SECTORS[sector - 1];
        let change = match dice.one_in(2) {
            true => 1 << dice.under(checks.len()),
            false => dice.between(1, (1 << checks.len()) - 1),
        };
        let mut word = 0;
        for (place, check) in checks.iter().enumerate() {
            if change >> place & 1 == 1 {
                turn_over(line, sector.start + place);
                word ^= check;
            }
        }
        change_check(line, sector, word);
    }

    /// The same sector from the other card, which is refused with 5.
    pub fn change_card(&self, line: &mut [u8], sector: usize) {
        change_check(line, &SECTORS[sector - 1], self.card_checks[sector - 1]);
    }

    /// Set filler bits: the first, the last, all, or some.
    pub fn set_filler(&self, line: &mut [u8], sector: usize, dice: &mut Dice) {
        let start = SECTORS[sector - 1].filler_start();
        let places: Vec<usize> = match dice.under(6) {
            0 => vec![0],
            1 => vec![FILLER_BITS - 1],
            2 => (0..FILLER_BITS).collect(),
            _ => (0..dice.between(1, 40))
                .map(|_| dice.under(FILLER_BITS))
                .collect(),
        };
        for place in places {
            set_bit(line, start + place, 1);
        }
    }

    /// Bits turned over anywhere in a line.
    pub fn flip(&self, line: &mut [u8], flips: usize, dice: &mut Dice) {
        for _ in 0..flips {
            turn_over(line, dice.under(INFORMATION_BITS));
        }
    }
}

/// The right check word in a format for whatever ID and data the sector DOC has.
/// It starts with the line and its parts are whole bytes. Of a format that is
/// none, any start value will do.
pub fn seal(format: usize, line: &mut [u8]) {
    let check = check_start(&SECTORS[0]);
    let start = format::format(format).map_or(0, |format| format.check_start);
    let word = sectors::check_word(start, &bits::part(line, 0, check));
    line[check / 8..check / 8 + 2].copy_from_slice(&word.to_be_bytes());
}
