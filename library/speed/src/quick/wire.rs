//! SYNC and a line on the wire.

use super::mix::by_words;
use second::format::{format, Format, LINE_BYTES};
use second::refusal::{self, refuse_if, Refusal};

/// The register before the first bit of SYNC, such that fifteen ones end it.
pub fn before_sync(format: &Format) -> u16 {
    match format.sync_bits {
        10_000 => 0x339f,
        _ => 0x61df,
    }
}

/// SYNC has no complement: what a complement makes zeros of is put first.
fn sync(format: &Format, out: &mut [u8]) {
    for (i, byte) in out.iter_mut().enumerate() {
        *byte = if i % 2 == 0 { 0x00 } else { 0xff };
    }
    by_words(out, 0, format.sync_bits, 0, before_sync(format));
}

/// SYNC at the front of `out`; how many bytes. Refusals 1, 3.
#[inline(never)]
pub fn put_sync(number: u8, out: &mut [u8]) -> Result<usize, Refusal> {
    let format = format(number.into())?;
    let bytes = format.sync_bits / 8;
    refuse_if(out.len() < bytes, refusal::SHORT_OUTPUT)?;
    sync(&format, &mut out[..bytes]);
    Ok(bytes)
}

/// One plain line on the wire at the front of `out`; how many bytes. Refusals
/// 1, 2, 3.
#[inline(never)]
pub fn write_line(number: u8, line: &[u8], out: &mut [u8]) -> Result<usize, Refusal> {
    let format = format(number.into())?;
    refuse_if(line.len() < LINE_BYTES, refusal::SHORT_INPUT)?;
    refuse_if(out.len() < format.wire_bytes, refusal::SHORT_OUTPUT)?;
    let (before, behind) = out[..format.wire_bytes].split_at_mut(format.sync_bits / 8);
    sync(&format, before);
    let (information, dummy) = behind.split_at_mut(LINE_BYTES);
    information.copy_from_slice(&line[..LINE_BYTES]);
    dummy.fill(0);
    by_words(behind, 0, 8 * behind.len(), 0, 0x7fff);
    Ok(format.wire_bytes)
}

#[cfg(test)]
mod tests {
    use super::*;
    use second::bits;
    use second::damage::Random;
    use second::scramble;

    /// In outputs of their lengths and in longer ones, which keep what is
    /// behind.
    #[test]
    fn as_the_second_decoder() {
        let mut random = Random::new(1);
        for number in [1, 2, 3] {
            let format = format(number.into()).unwrap();
            let line = random.bytes(LINE_BYTES + 1);
            for more in [0, 1, 9] {
                let mut out = random.bytes(format.wire_bytes + more);
                let mut other = out.clone();
                let count = scramble::write_line(number.into(), &line, &mut other);
                assert_eq!(write_line(number, &line, &mut out), count);
                assert!(out == other);

                let bytes = format.sync_bits / 8;
                let mut out = random.bytes(bytes + more);
                let behind = out[bytes..].to_vec();
                assert_eq!(put_sync(number, &mut out), Ok(bytes));
                assert!(out[..bytes] == bits::to_bytes(&scramble::sync(format.sync_bits)));
                assert!(out[bytes..] == behind);
            }
        }
    }

    /// The format before the line, the line before the output; nothing changes.
    #[test]
    fn refusals() {
        let (line, mut out) = ([0; LINE_BYTES], [7; 49_500]);
        for number in [0, 4, 255] {
            assert_eq!(put_sync(number, &mut out[..0]), Err(1));
            assert_eq!(write_line(number, &line[1..], &mut out[..0]), Err(1));
        }
        assert_eq!(put_sync(1, &mut out[..1_249]), Err(3));
        assert_eq!(put_sync(2, &mut out[..2_499]), Err(3));
        assert_eq!(write_line(1, &line[1..], &mut out[..0]), Err(2));
        assert_eq!(write_line(1, &line, &mut out[..45_605]), Err(3));
        assert_eq!(write_line(2, &line, &mut out[..49_499]), Err(3));
        assert!(out.iter().all(|&byte| byte == 7));
    }
}
