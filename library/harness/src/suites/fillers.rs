//! Fillers of which the count of set bits is known from their making, between
//! neighbours that are all zeros or all ones. The second decoder has to give
//! that count, and the library.
//!
//! A count by whole words goes wrong where its pieces meet: the bits up to the
//! first byte edge, words of eight bytes, and the rest. So single bits stand
//! at the edges of each piece, and each piece has every count of set bits.

use std::collections::BTreeSet;
use std::ops::Range;

use second::bits::set_bit;
use second::format::LINE_BYTES;
use second::sectors::{FILLER_BITS, SECTORS};

use crate::bench::{Bench, Difference};
use crate::call::{Call, Lent};
use crate::dice::Dice;
use crate::make::Maker;
use crate::rows::Name;

const FORMATS: [u64; 3] = [1, 2, 3];

/// What all bytes around a filler are.
const AROUND: [u8; 2] = [0x00, 0xFF];

const WORD_BITS: usize = 64;

/// Places at the end of a filler that are all tried: the rest, under eight
/// bytes, and some of the word before it.
const LAST: usize = 70;

/// Places by the dice, and fillers by the dice of each kind.
const DRAWN_PLACES: usize = 16;
const DRAWN_FILLERS: usize = 3;

/// The place of a filler's first bit.
fn start(sector: usize) -> usize {
    SECTORS[sector - 1].filler_start()
}

/// The pieces of a sector's filler, none of them empty.
pub fn pieces(sector: usize) -> Vec<Range<usize>> {
    let head = start(sector).next_multiple_of(8) - start(sector);
    let mut edges = BTreeSet::from([0, FILLER_BITS]);
    edges.extend((head..FILLER_BITS).step_by(WORD_BITS));
    let edges = Vec::from_iter(edges);
    edges.windows(2).map(|two| two[0]..two[1]).collect()
}

/// Sets so many of the bits, each choice as likely as another.
fn set_some(bits: &mut [u8], count: usize, dice: &mut Dice) {
    let (all, mut left) = (bits.len(), count);
    for (place, bit) in bits.iter_mut().enumerate() {
        if dice.under(all - place) < left {
            *bit = 1;
            left -= 1;
        }
    }
}

/// One sector's filler.
pub struct Filler<'a> {
    pub bench: &'a mut Bench,
    pub dice: &'a mut Dice,
    pub sector: usize,
}

impl Filler<'_> {
    /// What every run has the time for.
    pub fn edges(&mut self) -> Result<(), Difference> {
        self.whole()?;
        self.neighbours()?;
        for place in self.places() {
            let format = self.dice.pick(&FORMATS);
            self.one_bit(place, &[format])?;
        }
        self.all_pieces()?;
        self.drawn()
    }

    /// Every place, and every count of set bits in each piece alone.
    pub fn every(&mut self) -> Result<(), Difference> {
        for place in 0..FILLER_BITS {
            self.one_bit(place, &FORMATS)?;
        }
        for piece in pieces(self.sector) {
            for count in 0..=piece.len() {
                let mut filler = [0; FILLER_BITS];
                set_some(&mut filler[piece.clone()], count, self.dice);
                let (format, around) = (self.dice.pick(&FORMATS), self.dice.pick(&AROUND));
                self.counted(&self.line(&filler, around), count, &[format])?;
            }
        }
        Ok(())
    }

    /// A line of equal bytes, but for the filler.
    fn line(&self, filler: &[u8], around: u8) -> Vec<u8> {
        let mut line = vec![around; LINE_BYTES];
        for (place, &bit) in filler.iter().enumerate() {
            set_bit(&mut line, start(self.sector) + place, bit);
        }
        line
    }

    /// The filler of this line has so many set bits.
    pub fn counted(
        &mut self,
        line: &[u8],
        count: usize,
        formats: &[u64],
    ) -> Result<(), Difference> {
        for &format in formats {
            let lent = vec![Lent::Bytes(line.to_vec())];
            let call = Call::new(Name::Filler, &[format, self.sector as u64], lent);
            let found = self.bench.call(call).and_then(|outcome| {
                let words = format!("{:?}, made for {count}", outcome.numbers);
                match outcome.numbers[..] == [0, count as u64] {
                    true => Ok(()),
                    false => Err(Difference(format!("the second decoder answers {words}"))),
                }
            });
            found.map_err(|difference| self.shown(difference, line))?;
        }
        Ok(())
    }

    /// A difference with the bytes that matter, for whoever has to make the
    /// call again: those of the filler, and one on each side.
    fn shown(&self, difference: Difference, line: &[u8]) -> Difference {
        let first = start(self.sector) / 8 - 1;
        let bytes = line[first..].iter().take(FILLER_BITS / 8 + 3);
        let bytes: Vec<String> = bytes.map(|byte| format!("{byte:02x}")).collect();
        let bytes = bytes.join(" ");
        Difference(format!("{}\n  from byte {first} on: {bytes}", difference.0))
    }

    /// Everything but the filler, and nothing but the filler; in a buffer that
    /// ends with the line, as the last filler does, and in longer ones with
    /// ones behind. Four calls each, since every fourth one has its buffer
    /// right at the end of the memory.
    fn whole(&mut self) -> Result<(), Difference> {
        for (bit, around, count) in [(0, 0xFF, 0), (1, 0x00, FILLER_BITS)] {
            for behind in [0, 1, 7, 8, 9] {
                let mut line = self.line(&[bit; FILLER_BITS], around);
                line.resize(LINE_BYTES + behind, 0xFF);
                self.counted(&line, count, &[1, 2, 3, 1])?;
            }
        }
        Ok(())
    }

    /// The bit right before the filler and the one right behind it, alone set
    /// and alone clear. Behind the last filler it is the first behind the line.
    fn neighbours(&mut self) -> Result<(), Difference> {
        for place in [start(self.sector) - 1, start(self.sector) + FILLER_BITS] {
            for (bit, others, count) in [(1, 0x00, 0), (0, 0xFF, FILLER_BITS)] {
                let mut line = vec![others; LINE_BYTES + 1];
                set_bit(&mut line, place, bit);
                self.counted(&line, count, &FORMATS)?;
            }
        }
        Ok(())
    }

    /// One bit of the filler set, and one clear, between zeros and between ones.
    fn one_bit(&mut self, place: usize, formats: &[u64]) -> Result<(), Difference> {
        for (bit, count) in [(1, 1), (0, FILLER_BITS - 1)] {
            let mut filler = [1 - bit; FILLER_BITS];
            filler[place] = bit;
            for around in AROUND {
                self.counted(&self.line(&filler, around), count, formats)?;
            }
        }
        Ok(())
    }

    /// The first byte and the last bits, both ends of each piece, and some
    /// places by the dice.
    fn places(&mut self) -> BTreeSet<usize> {
        let mut places = BTreeSet::from_iter((0..8).chain(FILLER_BITS - LAST..FILLER_BITS));
        for piece in pieces(self.sector) {
            places.extend([piece.start, piece.end - 1]);
        }
        places.extend((0..DRAWN_PLACES).map(|_| self.dice.under(FILLER_BITS)));
        places
    }

    /// Every piece with a count of its own, all in one filler. After 65 turns
    /// each has had every count that it can have.
    fn all_pieces(&mut self) -> Result<(), Difference> {
        for turn in 0..=WORD_BITS {
            let mut filler = [0; FILLER_BITS];
            let mut all = 0;
            for (i, piece) in pieces(self.sector).into_iter().enumerate() {
                let count = (turn + 7 * i) % (piece.len() + 1);
                set_some(&mut filler[piece], count, self.dice);
                all += count;
            }
            let around = AROUND[turn % 2];
            self.counted(&self.line(&filler, around), all, &FORMATS)?;
        }
        Ok(())
    }

    /// Fillers by the dice: any, thin ones and dense ones.
    fn drawn(&mut self) -> Result<(), Difference> {
        for around in AROUND {
            for _ in 0..DRAWN_FILLERS {
                let few = self.dice.of_any_length(11) as usize;
                for count in [self.dice.between(0, FILLER_BITS), few, FILLER_BITS - few] {
                    let mut filler = [0; FILLER_BITS];
                    set_some(&mut filler, count, self.dice);
                    self.counted(&self.line(&filler, around), count, &FORMATS)?;
                }
            }
        }
        Ok(())
    }
}

/// The fillers of all sectors: around their edges, and for a long run also
/// everywhere.
pub fn run(bench: &mut Bench, maker: &mut Maker, everywhere: bool) -> Result<(), Difference> {
    let dice = &mut maker.dice;
    for sector in 1..=SECTORS.len() {
        let (bench, dice) = (&mut *bench, &mut *dice);
        let mut filler = Filler {
            bench,
            dice,
            sector,
        };
        filler.edges()?;
        if everywhere {
            filler.every()?;
        }
    }
    Ok(())
}
