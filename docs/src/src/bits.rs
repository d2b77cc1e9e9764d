//! "bytes of a recording, most significant bit first"
//!
//! A list of bits is a `Vec<u8>` that holds only 0 and 1. Wherever bits stand
//! for a number, the first bit is the highest.

/// The bit at a place of a byte slice, counted from 0.
pub fn bit(bytes: &[u8], place: usize) -> u8 {
    (bytes[place / 8] >> (7 - place % 8)) & 1
}

/// Changes the bit at a place of a byte slice and no other.
pub fn set_bit(bytes: &mut [u8], place: usize, value: u8) {
    let mask = 0x80 >> (place % 8);
    if value == 1 {
        bytes[place / 8] |= mask;
    } else {
        bytes[place / 8] &= !mask;
    }
}

/// Turns over the bit at a place of a byte slice, and no other.
pub fn turn_over(bytes: &mut [u8], place: usize) {
    set_bit(bytes, place, 1 - bit(bytes, place));
}

/// `count` bits of a byte slice from place `start` on.
pub fn part(bytes: &[u8], start: usize, count: usize) -> Vec<u8> {
    (start..start + count)
        .map(|place| bit(bytes, place))
        .collect()
}

/// All the bits of a byte slice.
pub fn from_bytes(bytes: &[u8]) -> Vec<u8> {
    part(bytes, 0, 8 * bytes.len())
}

/// Bits to bytes; a last group of fewer than eight gets low zero bits.
pub fn to_bytes(bits: &[u8]) -> Vec<u8> {
    let mut bytes = vec![0; bits.len().div_ceil(8)];
    for (place, &value) in bits.iter().enumerate() {
        set_bit(&mut bytes, place, value);
    }
    bytes
}

/// The number that at most 64 bits stand for, first bit highest.
pub fn number(bits: &[u8]) -> u64 {
    bits.iter()
        .fold(0, |value, &bit| 2 * value + u64::from(bit))
}

/// The last `count` bits of a number, highest first.
pub fn of_number(value: u64, count: usize) -> Vec<u8> {
    (0..count)
        .rev()
        .map(|place| (value >> place & 1) as u8)
        .collect()
}

/// How many of the bits are set.
pub fn ones(bits: &[u8]) -> usize {
    bits.iter().filter(|&&bit| bit == 1).count()
}

/// In how many places two lists of the same length differ.
pub fn differences(one: &[u8], other: &[u8]) -> usize {
    assert_eq!(one.len(), other.len(), "lists of the same length");
    one.iter().zip(other).filter(|(a, b)| a != b).count()
}

/// Bits from the paper's print, as "00010001".
pub fn from_text(text: &str) -> Vec<u8> {
    text.bytes().map(|letter| letter - b'0').collect()
}

/// Bits as the paper prints them.
pub fn to_text(bits: &[u8]) -> String {
    bits.iter().map(|&bit| char::from(b'0' + bit)).collect()
}
