//! Tails that end at each bit of a byte, at every setting, and searches that begin
//! with any number of bits: a search that takes whole bytes goes wrong where a
//! tail could end in one.
//!
//! Such a search asks of the bits before a byte whether a tail can end in it. At
//! setting 0 it may look for the seven ones that are then the last of them; at the
//! others it may count the bits that differ where the tails of several ends say
//! the same. So the wrong bits of a tail stand in those places alone, or nowhere
//! in them; and there is what nearly looks like a tail.

use second::bits;
use second::format::LINE_BYTES;
use second::ice::places;
use second::lines::{after_first_tail, LARGEST_SETTING};
use second::scramble::{sync, tail, turn, TAIL_BITS};

use super::reading::Reading;
use crate::bench::{Bench, Difference};
use crate::dice::Dice;
use crate::make::{Maker, Record};
use crate::pool::FORMATS;

/// Bits that a search begins with: none, up to where a byte more may complete 64,
/// and as many as are remembered at most.
const BEGUN: [usize; 9] = [0, 1, 54, 55, 56, 57, 62, 63, 63];

/// Bits in front of a tail, and up to seven more: more than a search begins with.
const FRONT: usize = 80;

/// Wrong bits at most of what is near to a tail.
const MOST_NEAR: usize = 20;

/// Bytes of a line behind a tail: whole words and single bytes.
const LINE: usize = 21;

/// What stands in front of a tail.
#[derive(Clone, Copy, Debug, PartialEq, Eq)]
enum Front {
    Sync,
    Noise,
    /// Bytes of ones, and bytes of seven ones: in each a search may see the end of
    /// a tail.
    Ones,
    SevenOnes,
    /// A tail that is wrong only where nobody may look before it has ended.
    Near,
}

const FRONTS: [Front; 5] = [
    Front::Sync,
    Front::Noise,
    Front::Ones,
    Front::SevenOnes,
    Front::Near,
];

/// Where the wrong bits of a tail stand.
#[derive(Clone, Copy, Debug, PartialEq, Eq)]
enum Wrong {
    Inside,
    Outside,
    Anywhere,
}

const WRONGS: [Wrong; 3] = [Wrong::Inside, Wrong::Outside, Wrong::Anywhere];

/// The places of a tail that ends at this bit of a byte, 1 to 8, at which every
/// tail that ends in the byte at an odd bit, or at an even one, whichever this one
/// does, has the same bit. All of them are before the byte.
pub fn agreed(end: usize) -> Vec<usize> {
    let ends = match end % 2 {
        1 => [1, 3, 5, 7],
        _ => [2, 4, 6, 8],
    };
    let same = |place: &usize| {
        ends.iter().all(|other| {
            let theirs = (place + end)
                .checked_sub(*other)
                .and_then(|p| tail().get(p));
            theirs == Some(&tail()[*place])
        })
    };
    (0..TAIL_BITS - end).filter(same).collect()
}

/// A tail with so many wrong bits, ending at this bit of a byte.
fn wrong_tail(dice: &mut Dice, end: usize, wrong: usize, stand: Wrong) -> Vec<u8> {
    let (inside, all) = (agreed(end), 0..TAIL_BITS);
    let may: Vec<usize> = match stand {
        Wrong::Inside => inside,
        Wrong::Outside => all.filter(|place| !inside.contains(place)).collect(),
        Wrong::Anywhere => all.collect(),
    };
    let mut bits = tail().to_vec();
    for i in places(wrong, may.len(), dice.random()) {
        bits[may[i]] ^= 1;
    }
    bits
}

/// So many bits in front of a tail. The piece begins with one of their places, and
/// this is that place by eight.
fn front(dice: &mut Dice, kind: Front, setting: usize, count: usize, edge: usize) -> Vec<u8> {
    match kind {
        Front::Sync => sync(count + TAIL_BITS)[..count].to_vec(),
        Front::Noise => dice.random().bits(count),
        Front::Ones => vec![1; count],
        Front::SevenOnes => (0..count).map(|i| u8::from(i % 8 != edge)).collect(),
        Front::Near => {
            let end = dice.between(1, 8);
            let wrong = dice.between(setting + 1, MOST_NEAR);
            let near = wrong_tail(dice, end, wrong, Wrong::Outside);
            let behind = (count + 16 - edge - end) % 8;
            let before = dice.random().bits(count - TAIL_BITS - behind);
            [before, near, dice.random().bits(behind)].concat()
        }
    }
}

/// A search over bits: those that it remembers, those that are unread, and a
/// piece.
struct Search {
    setting: usize,
    remembered: usize,
    unread: usize,
    /// The last bits are a line's first.
    bits: Vec<u8>,
    /// Where the line begins, what its bytes are, and whether it must be found.
    place: usize,
    line: Vec<u8>,
    sure: bool,
}

impl Search {
    /// Over these bits, and behind them a line.
    fn new(maker: &mut Maker, setting: usize, begun: [usize; 2], mut bits: Vec<u8>) -> Search {
        let [remembered, unread] = begun;
        let place = bits.len();
        let line = maker.noise(LINE);
        bits.extend(turn(&bits::from_bytes(&line)));
        let over = (bits.len() - remembered - unread) % 8;
        bits.truncate(bits.len() - over);
        Search {
            setting,
            remembered,
            unread,
            bits,
            place,
            line,
            sure: false,
        }
    }

    /// The line begins where the plain definition says, and the making where that
    /// is sure; its bytes are those sent.
    fn play(&self, bench: &mut Bench, maker: &mut Maker) -> Result<(), Difference> {
        let (search, rest) = self.bits.split_at(self.remembered);
        let (unread, piece) = rest.split_at(self.unread);
        let record = Record {
            search: bits::number(search),
            search_count: search.len() as u64,
            unread: bits::number(unread),
            unread_count: unread.len() as u64,
            ..Record::default()
        };
        let piece = bits::to_bytes(piece);
        let (first, last) = piece.split_at(maker.dice.between(1, piece.len()));
        let format = maker.dice.pick(&FORMATS);
        let buffer = maker.noise(LINE_BYTES);
        let reading = Reading::new(bench, maker, format, self.setting);
        let mut reading = reading.at(&record.numbers(), buffer);
        reading.feed(first)?;
        if !last.is_empty() {
            reading.feed(last)?;
        }
        let found = reading.line_bits().map(|bits| self.bits.len() - bits);
        let defined = after_first_tail(self.setting, &self.bits, 0);
        let known = if self.sure { Some(self.place) } else { defined };
        let whole = (self.bits.len() - self.place) / 8;
        let sent = reading.line()[..whole] == self.line[..whole];
        match found == defined && found == known && (sent || found != Some(self.place)) {
            true => Ok(()),
            false => Err(Difference(format!(
                "{} bits remembered, {} unread, setting {}: a line from bit {found:?} on, by the \
                 definition {defined:?}, made for {known:?}; or other bytes of it",
                self.remembered, self.unread, self.setting
            ))),
        }
    }
}

/// Tails that end at this bit of a byte, with as many wrong bits as count and with
/// one more. Behind a SYNC the first ones must be found: every window before the
/// tail is further from it than two settings.
fn tails(
    bench: &mut Bench,
    maker: &mut Maker,
    setting: usize,
    end: usize,
) -> Result<(), Difference> {
    for kind in FRONTS {
        for stand in WRONGS {
            for more in [0, 1] {
                let begun = [maker.dice.pick(&BEGUN), maker.dice.under(8)];
                let edge = (begun[0] + begun[1]) % 8;
                let count = FRONT + (edge + end) % 8;
                let before = front(&mut maker.dice, kind, setting, count, edge);
                let tail = wrong_tail(&mut maker.dice, end, setting + more, stand);
                let mut search = Search::new(maker, setting, begun, [before, tail].concat());
                search.sure = kind == Front::Sync && more == 0;
                search.play(bench, maker)?;
            }
        }
    }
    Ok(())
}

/// The tail from the start of the search on, which must be found, and without its
/// first bit; so many of its bits are remembered.
fn starts(bench: &mut Bench, maker: &mut Maker, remembered: usize) -> Result<(), Difference> {
    for unread in 0..8 {
        for missing in [0, 1] {
            let setting = maker.dice.between(0, LARGEST_SETTING);
            let bits = tail()[missing..].to_vec();
            let mut search = Search::new(maker, setting, [remembered, unread], bits);
            search.sure = missing == 0;
            search.play(bench, maker)?;
        }
    }
    Ok(())
}

/// One setting.
pub fn at(setting: usize, bench: &mut Bench, maker: &mut Maker) -> Result<(), Difference> {
    (1..=8).try_for_each(|end| tails(bench, maker, setting, end))
}

pub fn run(bench: &mut Bench, maker: &mut Maker) -> Result<(), Difference> {
    for setting in 0..=LARGEST_SETTING {
        at(setting, bench, maker)?;
    }
    (0..TAIL_BITS).try_for_each(|remembered| starts(bench, maker, remembered))
}
