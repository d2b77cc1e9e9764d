//! Counts of a filler's set bits, right ones and wrong ones.

use second::bits::{bit, number, part};
use second::format::LINE_BYTES;

use super::{start, OFFSETS};

/// A filler as a count by words sees it; places count from its first bit.
pub struct Seen<'a> {
    line: &'a [u8],
    start: isize,
    /// Bits up to the first byte edge.
    head: isize,
    /// Whole words behind it.
    words: isize,
}

impl Seen<'_> {
    pub fn of(line: &[u8], sector: usize) -> Seen<'_> {
        let head = (8 - OFFSETS[sector - 1] as isize) % 8;
        Seen {
            line,
            start: start(sector) as isize,
            head,
            words: (2_048 - head) / 64,
        }
    }

    /// Set bits from a place to before another; none stand behind the buffer.
    fn ones(&self, from: isize, to: isize) -> usize {
        let end = (self.start + to).min(8 * self.line.len() as isize);
        let set = |place: &isize| bit(self.line, *place as usize) == 1;
        (self.start + from..end).filter(set).count()
    }

    /// A count by words, each read so many bits early.
    fn by_words(&self, early: isize, count: impl Fn(u64) -> u32) -> usize {
        let (first, end) = (self.head, self.head + 64 * self.words);
        let mut all = self.ones(0, first) + self.ones(end, 2_048);
        for place in (first..end).step_by(64) {
            let place = self.start + place - early;
            all += count(number(&part(self.line, place as usize, 64))) as usize;
        }
        all
    }

    /// All but one of the words.
    fn without(&self, word: isize) -> usize {
        let first = self.head + 64 * word;
        self.ones(0, first) + self.ones(first + 64, 2_048)
    }

    /// Whether the last bit of a word is the only one that is set, or clear.
    fn is_alone(&self, bit: usize) -> bool {
        let place = self.head + 6 * 64 - 1;
        let others = self.ones(0, place) + self.ones(place + 1, 2_048);
        self.ones(place, place + 1) == bit && others == 2_047 * (1 - bit)
    }
}

const TWO: u64 = 0x5555_5555_5555_5555;
const FOUR: u64 = 0x3333_3333_3333_3333;
const EIGHT: u64 = 0x0F0F_0F0F_0F0F_0F0F;

/// Set bits added up in pairs, fours and eights, under these masks.
fn masked(word: u64, two: u64, four: u64, eight: u64) -> u32 {
    let twos = (word & two) + (word >> 1 & two);
    let fours = (twos & four) + (twos >> 2 & four);
    let eights = (fours & eight) + (fours >> 4 & eight);
    eights.to_be_bytes().into_iter().map(u32::from).sum()
}

pub type Count = fn(&Seen) -> usize;

pub const RIGHT: [Count; 3] = [
    |s| s.ones(0, 2_048),
    |s| s.by_words(0, u64::count_ones),
    |s| s.by_words(0, |w| masked(w, TWO, FOUR, EIGHT)),
];

/// Wrong in every sector; the last four only where a bit stands alone.
pub const WRONG: [(&str, Count); 22] = [
    ("the bit before too", |s| s.ones(-1, 2_048)),
    ("the bit behind too", |s| s.ones(0, 2_049)),
    ("without the first bit", |s| s.ones(1, 2_048)),
    ("without the last bit", |s| s.ones(0, 2_047)),
    ("a bit early", |s| s.ones(-1, 2_047)),
    ("a bit late", |s| s.ones(1, 2_049)),
    ("a byte early", |s| s.ones(-8, 2_040)),
    ("a byte late", |s| s.ones(8, 2_056)),
    ("as late as the buffer is longer", |s| {
        let late = 8 * (s.line.len() - LINE_BYTES) as isize;
        s.ones(late, 2_048 + late)
    }),
    ("without the first word", |s| s.without(0)),
    ("without a word", |s| s.without(17)),
    ("a word too few", |s| s.without(s.words - 1)),
    ("words of the byte before", |s| {
        s.by_words(8, u64::count_ones)
    }),
    ("words a bit early", |s| s.by_words(1, u64::count_ones)),
    ("a full word is none", |s| {
        s.by_words(0, |w| w.count_ones() % 64)
    }),
    ("a mask of pairs", |s| {
        s.by_words(0, |w| masked(w, TWO - 1, FOUR, EIGHT))
    }),
    ("a mask of fours", |s| {
        s.by_words(0, |w| masked(w, TWO, FOUR - (2 << 32), EIGHT))
    }),
    ("a mask of eights", |s| {
        s.by_words(0, |w| masked(w, TWO, FOUR, EIGHT - (4 << 56)))
    }),
    ("a lone bit is lost", |s| {
        s.ones(0, 2_048) - usize::from(s.is_alone(1))
    }),
    ("a lone gap is lost", |s| {
        s.ones(0, 2_048) + usize::from(s.is_alone(0))
    }),
    ("a lone bit before too", |s| {
        s.ones(-isize::from(s.ones(-8, 2_048) == 1), 2_048)
    }),
    ("a lone bit behind too", |s| {
        s.ones(0, 2_048 + isize::from(s.ones(0, 2_056) == 1))
    }),
];

/// Wrong where the filler starts inside a byte.
pub const WRONG_INSIDE: [(&str, Count); 4] = [
    ("the first byte whole", |s| s.ones(s.head - 8, 2_048)),
    ("the last byte whole", |s| s.ones(0, 2_048 + s.head)),
    ("without the head", |s| s.ones(s.head, 2_048)),
    ("without the rest", |s| s.ones(0, s.head + 64 * s.words)),
];
