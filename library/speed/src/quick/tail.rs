//! The search for a tail: bytes in which none can end are taken whole.

use crate::words::steps;

/// The last 64 bits of SYNC, the first highest.
pub const TAIL: u64 = 0x4bbb_b999_9555_7fff;

/// Of the remembered bits, those of which the tail says the same wherever it ends
/// at the 1st, 3rd, 5th or 7th bit of the next byte; and, of the bits moved up by
/// one, at the others.
const PLACES: u64 = 0x0015_5400_007f_eafe;

/// As many bits as are remembered at most, and all of them.
const MOST: u8 = 63;
const ALL: u64 = u64::MAX >> 1;

/// What came of a search.
#[derive(Debug, PartialEq, Eq)]
pub enum Sought {
    /// The bytes taken, and how many low bits of this one, the last, are unread.
    Found { taken: usize, left: u32, byte: u8 },
    /// What is remembered.
    Nothing { count: u8, search: u64 },
}

pub fn counts(setting: u8, window: u64) -> bool {
    match setting {
        0 => window == TAIL,
        _ => steps(window ^ TAIL) <= setting.into(),
    }
}

/// Whether no window that ends in the next byte can count, by the 63 bits before
/// it. The tail ends with fifteen ones, seven of which are then here.
fn cannot_end_next(setting: u8, search: u64) -> bool {
    let far = |bits: u64| steps((bits ^ TAIL >> 1) & PLACES) > setting.into();
    match setting {
        0 => search & 0x7f != 0x7f,
        _ => far(search) && far(search << 1),
    }
}

/// Seeks in the low bits of a byte, so many, and in the piece behind them, after
/// the bits that are remembered.
pub fn seek(setting: u8, piece: &[u8], remembered: (u8, u64), unread: (u32, u8)) -> Sought {
    let (mut count, mut search) = remembered;
    let (mut left, mut byte) = unread;
    let mut taken = 0;
    loop {
        while left > 0 {
            left -= 1;
            let window = search << 1 | u64::from(byte >> left & 1);
            if count < MOST {
                count += 1;
            } else if counts(setting, window) {
                return Sought::Found { taken, left, byte };
            }
            search = window & ALL;
        }
        if count == MOST {
            (taken, search) = pass_over(setting, piece, taken, search);
        }
        let Some(&next) = piece.get(taken) else {
            return Sought::Nothing { count, search };
        };
        taken += 1;
        if count < MOST - 7 {
            search = search << 8 | u64::from(next);
            count += 8;
        } else {
            (left, byte) = (8, next);
        }
    }
}

/// Takes bytes whole up to one in which a tail may end.
fn pass_over(setting: u8, piece: &[u8], mut taken: usize, mut search: u64) -> (usize, u64) {
    while taken < piece.len() && cannot_end_next(setting, search) {
        search = (search << 8 | u64::from(piece[taken])) & ALL;
        taken += 1;
    }
    (taken, search)
}

#[cfg(test)]
mod tests {
    use super::*;
    use second::bits;
    use second::damage::Random;
    use second::scramble::tail;

    #[test]
    fn the_tail_and_what_it_says_at_every_end() {
        assert_eq!(TAIL, bits::number(tail()));
        for (mask, ends) in [(PLACES, [1, 3, 5, 7]), (PLACES >> 1, [2, 4, 6, 8])] {
            for end in ends {
                assert_eq!((TAIL >> end ^ TAIL >> ends[0]) & mask, 0);
                // a window that ends there has these bits still
                assert_eq!(mask >> (64 - end), 0);
            }
        }
    }

    /// Whatever ends in the next byte, with as many wrong bits as may be, is not
    /// passed over: all of them in the mask, none of them, or any.
    #[test]
    fn no_tail_is_passed_over() {
        let mut random = Random::new(1);
        for setting in 0..=6_u8 {
            for end in 1..=8 {
                for turn in 0..3_000 {
                    let mask = match (turn % 3, end % 2) {
                        (0, 1) => PLACES << end,
                        (0, _) => PLACES >> 1 << end,
                        (1, 1) => !(PLACES << end),
                        (1, _) => !(PLACES >> 1 << end),
                        _ => u64::MAX,
                    };
                    let mut window = TAIL;
                    while steps(window ^ TAIL) < setting.into() {
                        window ^= 1 << random.under(64) & mask;
                    }
                    // what is remembered when the byte comes in whose bit ends it
                    let before = u64::from(random.number()) << (64 - end);
                    let search = (window >> end | before) & ALL;
                    assert!(!cannot_end_next(setting, search));
                }
            }
        }
    }
}
