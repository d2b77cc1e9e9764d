//! The suite of the fillers: it goes by the table's places, it tries what it
//! says, and every wrong count is noticed, in each sector by itself.

mod counts;

use std::cell::RefCell;
use std::collections::BTreeSet;
use std::rc::Rc;

use counts::{Count, Seen, RIGHT, WRONG, WRONG_INSIDE};
use harness::bench::{Bench, Difference};
use harness::dice::Dice;
use harness::expected::expected;
use harness::suites::fillers::{pieces, Filler};
use second::bits::{ones, part};
use second::format::LINE_BYTES;
use second::sectors::{FILLER_BITS, SECTORS};

/// At which bit of a byte the fillers of the sectors 1 to 12 start: the start
/// of the sector and the bits before its filler, which are 18,360 in the
/// sectors 1 to 4, 55,012 in 5 to 8, 4,614 in 9 to 11 and 22,942 in 12.
const OFFSETS: [usize; 12] = [0, 0, 0, 0, 4, 0, 4, 0, 6, 4, 2, 0];

fn start(sector: usize) -> usize {
    SECTORS[sector - 1].filler_start()
}

#[test]
fn five_fillers_start_inside_a_byte() {
    for sector in 1..=12 {
        assert_eq!(start(sector) % 8, OFFSETS[sector - 1], "sector {sector}");
    }
    // and the last one ends with the line
    assert_eq!(start(12) + 2_048, 8 * 44_356);
}

/// 32 words; or a head up to the byte edge, 31 words and the rest.
#[test]
fn the_pieces_are_head_words_and_rest() {
    for sector in 1..=12 {
        let lengths: Vec<usize> = pieces(sector).iter().map(|piece| piece.len()).collect();
        let wanted = match 8 - OFFSETS[sector - 1] {
            8 => vec![64; 32],
            head => [vec![head], vec![64; 31], vec![64 - head]].concat(),
        };
        assert_eq!(lengths, wanted, "sector {sector}");
        let mut end = 0;
        for piece in pieces(sector) {
            assert_eq!(piece.start, end);
            end = piece.end;
        }
    }
}

/// What the suite says of a way; as in every run, or also as in a long one.
fn said_of(sector: usize, long: bool, bench: &mut Bench) -> Result<(), Difference> {
    let mut filler = Filler {
        bench,
        dice: &mut Dice::new(16),
        sector,
    };
    filler.edges()?;
    match long {
        true => filler.every(),
        false => Ok(()),
    }
}

/// A filler that was asked for: the format, a byte of its neighbours, its bits.
type Asked = (u64, u8, Vec<u8>);

fn asked(sector: usize, long: bool) -> Vec<Asked> {
    let asked = Rc::new(RefCell::new(Vec::new()));
    let kept = asked.clone();
    let mut bench = Bench::of(move |call| {
        let line = call.lent[0].bytes();
        let filler = part(line, start(sector), FILLER_BITS);
        kept.borrow_mut().push((call.numbers[0], line[0], filler));
        expected(call)
    });
    said_of(sector, long, &mut bench).expect("nothing is wrong");
    asked.take()
}

/// How many counts the pieces of the fillers had, all of them together; of a
/// piece alone where the others are to be empty.
fn counts(sector: usize, asked: &[Asked], alone: bool) -> usize {
    let mut counts = BTreeSet::new();
    for (_, _, filler) in asked {
        for piece in pieces(sector) {
            let count = ones(&filler[piece.clone()]);
            if !alone || count == ones(filler) {
                counts.insert((piece.start, count));
            }
        }
    }
    counts.len()
}

#[test]
fn each_piece_has_every_count() {
    // 32 words; and in sector 11 a head of 6 bits, 31 words and a rest of 58
    assert_eq!(counts(1, &asked(1, false), false), 32 * 65);
    assert_eq!(counts(11, &asked(11, false), false), 7 + 31 * 65 + 59);
}

#[test]
fn a_long_run_tries_every_place_and_each_piece_alone() {
    let asked = asked(9, true);
    let mut single = BTreeSet::new();
    for (format, around, filler) in &asked {
        for (bit, count) in [(1, 1), (0, 2_047)] {
            if ones(filler) == count {
                let place = filler.iter().position(|&other| other == bit);
                single.insert((place, bit, around, format));
            }
        }
    }
    // each place set and clear, between zeros and ones, in three formats
    assert_eq!(single.len(), 2_048 * 2 * 2 * 3);
    // a head of 2 bits, 31 words and a rest of 62
    assert_eq!(counts(9, &asked, true), 3 + 31 * 65 + 63);
}

/// A bench with a way that counts so.
fn counting(sector: usize, count: Count) -> Bench {
    Bench::of(move |call| {
        let mut outcome = expected(call);
        outcome.numbers[1] = count(&Seen::of(call.lent[0].bytes(), sector)) as u64;
        outcome
    })
}

#[test]
fn every_wrong_count_is_noticed() {
    for sector in 1..=12 {
        let inside = WRONG_INSIDE.iter().filter(|_| OFFSETS[sector - 1] != 0);
        for (what, count) in WRONG.iter().chain(inside) {
            let said = said_of(sector, false, &mut counting(sector, *count));
            let words = match said {
                Ok(()) => panic!("sector {sector}: {what}, and nothing is said"),
                Err(Difference(words)) => words,
            };
            assert!(words.contains("the way tested: count is "), "{words}");
            assert!(words.contains("\n  from byte "), "{words}");
        }
    }
}

#[test]
fn a_right_count_is_not() {
    for sector in [1, 9] {
        for count in RIGHT {
            let said = said_of(sector, false, &mut counting(sector, count));
            said.expect("nothing is wrong");
        }
    }
}

/// The count known from the making is held to the second decoder's.
#[test]
fn the_second_decoder_may_be_wrong() {
    let mut filler = Filler {
        bench: &mut Bench::of(expected),
        dice: &mut Dice::new(17),
        sector: 9,
    };
    let line = [0xFF; LINE_BYTES];
    assert!(filler.counted(&line, 2_048, &[1]).is_ok());
    let Difference(words) = filler.counted(&line, 2_047, &[1]).expect_err("one less");
    let said = "the second decoder answers [0, 2048], made for 2047\n";
    assert!(words.starts_with(said), "{words}");
}
