//! "Scrambling bits. Each bit is the exclusive or of the bits 14 and 15 places
//! earlier. SYNC ends with fifteen ones; this fixes all of it, going backward.
//! ... The bits go on after SYNC over information and dummy without a restart."
//!
//! "Byte complementing inverts every second group of eight bits, the 2nd, 4th
//! and so on, counted from the first information bit through the dummy. SYNC
//! has none. It is applied before scrambling on writing, after it on reading."

use std::sync::OnceLock;

use crate::bits;
use crate::format::{format, INFORMATION_BITS, LINE_BYTES};
use crate::refusal::{self, refuse_if, Refusal};

/// "The tail is the last 64 bits of SYNC."
pub const TAIL_BITS: usize = 64;

/// The scrambling register just after SYNC: its last fifteen bits, all ones.
pub const AFTER_SYNC: u16 = 0x7FFF;

/// A SYNC of `length` bits, at least fifteen.
///
/// The rule says `bit[i+15] = bit[i+1] xor bit[i]`, so `bit[i]` is
/// `bit[i+15] xor bit[i+1]`: from the fifteen ones at the end, backward.
pub fn sync(length: usize) -> Vec<u8> {
    let mut sync = vec![1; length];
    for i in (0..length - 15).rev() {
        sync[i] = sync[i + 15] ^ sync[i + 1];
    }
    sync
}

/// The tail. A SYNC is fixed going backward from its end, so the last 64 bits
/// of a SYNC of either length are the SYNC of length 64.
pub fn tail() -> &'static [u8] {
    static TAIL: OnceLock<Vec<u8>> = OnceLock::new();
    TAIL.get_or_init(|| sync(TAIL_BITS))
}

/// The first `count` scrambling bits after SYNC, straight from the rule.
pub fn after_sync(count: usize) -> Vec<u8> {
    let mut sequence = vec![1; 15];
    for n in 15..15 + count {
        sequence.push(sequence[n - 14] ^ sequence[n - 15]);
    }
    sequence.split_off(15)
}

/// The bit that follows the fifteen bits of a register.
///
/// The register holds the last fifteen bits as they came, first bit highest:
/// bit 14 is fifteen places back, bit 13 is fourteen places back.
pub fn next_bit(register: u16) -> u8 {
    ((register >> 14 ^ register >> 13) & 1) as u8
}

/// "The scrambling register is one small state that the caller lends and that
/// a step changes in place, giving a bit." Refusal 12 for "a scrambling
/// register over 15 bits".
pub fn step(register: &mut u16) -> Result<u8, Refusal> {
    refuse_if(*register > 0x7FFF, refusal::STATE)?;
    let bit = next_bit(*register);
    *register = (*register << 1 | u16::from(bit)) & 0x7FFF;
    Ok(bit)
}

/// Whether the bit at this place, counted from the first information bit,
/// lies in a 2nd, 4th, ... group of eight. 1 if so.
pub fn complement(place: usize) -> u8 {
    (place / 8 % 2) as u8
}

/// Information and dummy between plain and wire.
///
/// Complementing and scrambling are both an exclusive or with a bit that only
/// the place decides, so one function goes either way.
pub fn turn(bits: &[u8]) -> Vec<u8> {
    after_sync(bits.len())
        .iter()
        .zip(bits)
        .enumerate()
        .map(|(place, (scrambling, bit))| bit ^ complement(place) ^ scrambling)
        .collect()
}

/// The 354,848 wire bits of a line's information, made plain.
pub fn plain_from_wire(wire: &[u8]) -> Vec<u8> {
    turn(wire)
}

/// One line on the wire as bits: SYNC, then information and dummy.
pub fn wire_line(sync_bits: usize, information: &[u8], dummy_bits: usize) -> Vec<u8> {
    let mut plain = information.to_vec();
    plain.extend(vec![0; dummy_bits]);

    let mut wire = sync(sync_bits);
    wire.extend(turn(&plain));
    wire
}

/// "plain lines to a recording, one line a call": the first 44,356 bytes of
/// `line` to the first 45,606 or 49,500 bytes of `out`. Gives the bytes
/// written. Refusals 1, 2, 3.
pub fn write_line(number: usize, line: &[u8], out: &mut [u8]) -> Result<usize, Refusal> {
    let format = format(number)?;
    refuse_if(line.len() < LINE_BYTES, refusal::SHORT_INPUT)?;
    refuse_if(out.len() < format.wire_bytes, refusal::SHORT_OUTPUT)?;

    let information = bits::part(line, 0, INFORMATION_BITS);
    let wire = wire_line(format.sync_bits, &information, format.dummy_bits);
    out[..format.wire_bytes].copy_from_slice(&bits::to_bytes(&wire));
    Ok(format.wire_bytes)
}
