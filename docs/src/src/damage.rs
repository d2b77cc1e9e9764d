//! Recordings that are good, damaged, shifted, cut and worse, made from a
//! number alone, so that every run makes the same ones.
//!
//! The paper: "whole-line vectors and an independent second decoder are run
//! and compared".

use crate::bits;
use crate::format::{format, INFORMATION_BITS};
use crate::pattern;
use crate::refusal::Refusal;
use crate::scramble::tail;
use crate::sectors::{check_word, CHECK_BITS, FILLER_BITS, SECTORS};

/// A small pseudo-random generator: x becomes
/// 6364136223846793005 x + 1442695040888963407 modulo 2^64, and the upper 32
/// bits of the new x are the number given.
#[derive(Clone, Debug)]
pub struct Random {
    x: u64,
}

impl Random {
    pub fn new(seed: u64) -> Random {
        Random { x: seed }
    }

    pub fn number(&mut self) -> u32 {
        self.x = self
            .x
            .wrapping_mul(6_364_136_223_846_793_005)
            .wrapping_add(1_442_695_040_888_963_407);
        (self.x >> 32) as u32
    }

    /// A number under `limit`: the rest of the next number by it.
    pub fn under(&mut self, limit: usize) -> usize {
        self.number() as usize % limit
    }

    /// A byte: the top eight bits of the next number.
    pub fn byte(&mut self) -> u8 {
        (self.number() >> 24) as u8
    }

    pub fn bytes(&mut self, count: usize) -> Vec<u8> {
        (0..count).map(|_| self.byte()).collect()
    }

    /// Bits, each the top bit of a next number.
    pub fn bits(&mut self, count: usize) -> Vec<u8> {
        (0..count).map(|_| (self.number() >> 31) as u8).collect()
    }
}

fn wire(format_number: usize, k: u64) -> Vec<u8> {
    let line = pattern::line(format_number, k, 0).expect("the pattern serves formats 1, 2 and 3");
    pattern::on_the_wire(format_number, &line).expect("a whole line")
}

/// Lines of the test pattern, one behind the other.
pub fn good(format_number: usize, lines: u64) -> Vec<u8> {
    (0..lines).flat_map(|k| wire(format_number, k)).collect()
}

/// `flips` bits turned over, at places drawn one by one.
pub fn flipped(mut recording: Vec<u8>, flips: usize, random: &mut Random) -> Vec<u8> {
    for _ in 0..flips {
        let place = random.under(8 * recording.len());
        bits::turn_over(&mut recording, place);
    }
    recording
}

/// `by` noise bits put in front, so that lines begin and end inside bytes; the
/// last byte is filled with noise.
pub fn shifted(recording: &[u8], by: usize, random: &mut Random) -> Vec<u8> {
    let mut all = random.bits(by);
    all.extend(bits::from_bytes(recording));
    let filling = (8 - all.len() % 8) % 8;
    all.extend(random.bits(filling));
    bits::to_bytes(&all)
}

/// Cut off somewhere in its last line.
pub fn truncated(format_number: usize, lines: u64, random: &mut Random) -> Vec<u8> {
    let mut recording = good(format_number, lines);
    let lost = 1 + random.under(format(format_number).expect("1, 2 or 3").wire_bytes);
    recording.truncate(recording.len() - lost);
    recording
}

/// Begun somewhere in its first line.
pub fn begun_late(format_number: usize, lines: u64, random: &mut Random) -> Vec<u8> {
    let lost = 1 + random.under(format(format_number).expect("1, 2 or 3").wire_bytes);
    good(format_number, lines).split_off(lost)
}

/// Noise before, between and behind the lines, at any bit.
pub fn noise_between(format_number: usize, lines: u64, random: &mut Random) -> Vec<u8> {
    let mut all = Vec::new();
    for k in 0..lines {
        let noise = random.under(5_000);
        all.extend(random.bits(noise));
        all.extend(bits::from_bytes(&wire(format_number, k)));
    }
    let noise = 8_000 - all.len() % 8;
    all.extend(random.bits(noise));
    bits::to_bytes(&all)
}

/// A tail at any bit of noise: the 354,848 noise bits behind it are a line,
/// with hardly a sector accepted. A good line follows.
pub fn tail_in_noise(format_number: usize, random: &mut Random) -> Vec<u8> {
    let before = random.under(3_000);
    let behind = random.under(3_000);
    let mut all = random.bits(before);
    all.extend(tail());
    all.extend(random.bits(INFORMATION_BITS + behind));
    all.extend(bits::from_bytes(&wire(format_number, 0)));
    let filling = 8 - all.len() % 8;
    all.extend(random.bits(filling));
    bits::to_bytes(&all)
}

/// A recording of three lines whose first has the tail once more in its
/// information bits. "Nothing else is sought inside a line."
pub fn tail_in_line(format_number: usize, random: &mut Random) -> Vec<u8> {
    let mut recording = good(format_number, 3);
    let sync_bits = format(format_number).expect("1, 2 or 3").sync_bits;
    let place = sync_bits + random.under(INFORMATION_BITS - tail().len());
    for (i, &bit) in tail().iter().enumerate() {
        bits::set_bit(&mut recording, place + i, bit);
    }
    recording
}

/// The same, but begun behind the first line's SYNC: now the tail inside the
/// line is the first one, and what follows it is a line that was never sent.
pub fn tail_in_line_begun_late(format_number: usize, random: &mut Random) -> Vec<u8> {
    let sync_bytes = format(format_number).expect("1, 2 or 3").sync_bits / 8;
    tail_in_line(format_number, random).split_off(sync_bytes)
}

/// How many kinds of recording [`make`] knows.
pub const KINDS: usize = 10;

/// A recording of a kind, 0 to 9, and the kind's name.
pub fn make(kind: usize, format_number: usize, random: &mut Random) -> (&'static str, Vec<u8>) {
    match kind {
        0 => ("good", good(format_number, 3)),
        1 => {
            let flips = 1 + random.under(200);
            let recording = good(format_number, 3);
            ("flipped", flipped(recording, flips, random))
        }
        2 => {
            let by = random.under(8);
            let recording = good(format_number, 2);
            ("shifted", shifted(&recording, by, random))
        }
        3 => ("truncated", truncated(format_number, 2, random)),
        4 => ("begun late", begun_late(format_number, 3, random)),
        5 => ("noise between", noise_between(format_number, 2, random)),
        6 => ("tail in noise", tail_in_noise(format_number, random)),
        7 => ("tail in a line", tail_in_line(format_number, random)),
        8 => (
            "tail in a line, begun late",
            tail_in_line_begun_late(format_number, random),
        ),
        9 => ("noise", random.bytes(20_000)),
        _ => panic!("there are ten kinds"),
    }
}

/// The place of a sector's first check bit.
fn check_place(number: usize) -> usize {
    SECTORS[number - 1].filler_start() - CHECK_BITS
}

/// Turns over the last data bit of a sector, which is then refused with 5.
pub fn wrong_check(line: &mut [u8], number: usize) {
    bits::turn_over(line, check_place(number) - 1);
}

/// Turns over the first ID bit of a sector and makes its check word right again,
/// in a format: it is then refused with 6.
pub fn wrong_id(format_number: usize, line: &mut [u8], number: usize) -> Result<(), Refusal> {
    let start = SECTORS[number - 1].start;
    bits::turn_over(line, start);
    let id_and_data = bits::part(line, start, check_place(number) - start);
    let word = check_word(format(format_number)?.check_start, &id_and_data);
    for (i, bit) in bits::of_number(word.into(), CHECK_BITS)
        .into_iter()
        .enumerate()
    {
        bits::set_bit(line, check_place(number) + i, bit);
    }
    Ok(())
}

/// Whether the recording of `second damaged N FORMAT` has a wrong check in
/// sector s of line k, ...
pub fn has_wrong_check(k: u64, s: usize) -> bool {
    let of_ir3 = [4, 11][(k % 2) as usize];
    s == of_ir3 || (k + s as u64).is_multiple_of(5)
}

/// ... and whether it has a wrong ID there.
pub fn has_wrong_id(k: u64, s: usize) -> bool {
    !has_wrong_check(k, s) && (k + s as u64).is_multiple_of(7)
}

/// How many filler bits are set there: none to three.
pub fn filler_set(k: u64, s: usize) -> usize {
    (k + s as u64) as usize % 4
}

/// Line k, from 0, of the recording of `second damaged N FORMAT`: the pattern's,
/// with damage that goes by k and by the sector s, 1 to 12.
///
/// - A wrong check, so that it is refused with 5, where k + s is a multiple of
///   5; and where k is even in IR3 upper, where k is odd in IR3 lower. So IR3
///   has no pair, and no pixels, in any line.
/// - A wrong ID with the check word that goes with it, so that it is refused
///   with 6, where k + s is a multiple of 7 and the check is right.
/// - (k + s) mod 4 set filler bits, whatever else is wrong: the first, the last,
///   one in the middle, in this order.
pub fn damaged_line(format_number: usize, k: u64) -> Result<Vec<u8>, Refusal> {
    let mut line = pattern::line(format_number, k, 0)?;
    for s in 1..=SECTORS.len() {
        if has_wrong_check(k, s) {
            wrong_check(&mut line, s);
        }
        if has_wrong_id(k, s) {
            wrong_id(format_number, &mut line, s)?;
        }
        for place in [0, FILLER_BITS - 1, FILLER_BITS / 2]
            .into_iter()
            .take(filler_set(k, s))
        {
            bits::set_bit(&mut line, SECTORS[s - 1].filler_start() + place, 1);
        }
    }
    Ok(line)
}

/// A recording cut into pieces at random. A piece has at most `longest` bytes
/// and may be empty.
pub fn cut<'a>(recording: &'a [u8], longest: usize, random: &mut Random) -> Vec<&'a [u8]> {
    let mut pieces = Vec::new();
    let mut rest = recording;
    while !rest.is_empty() {
        let length = random.under(longest + 1).min(rest.len());
        let (piece, behind) = rest.split_at(length);
        pieces.push(piece);
        rest = behind;
    }
    pieces
}
