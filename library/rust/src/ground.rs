//! The version; formats, the scrambling register, SYNC.

use crate::raw;
use crate::refusal::{unless, Refusal};

/// A format: what the check of its sectors starts from, the bits of the three
/// parts of one line on the wire, and the bytes of them all.
#[derive(Clone, Copy, Debug, PartialEq, Eq)]
pub struct Format {
    pub number: u8,
    /// 0, in format 3 0xFFFF.
    pub check_start: u16,
    pub sync_bits: usize,
    pub information_bits: usize,
    pub dummy_bits: usize,
    pub bytes: usize,
}

/// One step of the scrambling register: the bit that it gave and the register
/// after it.
#[derive(Clone, Copy, Debug, PartialEq, Eq)]
pub struct Step {
    pub bit: u8,
    pub register: u16,
}

fn step_of(answer: raw::StepAnswer) -> Result<Step, Refusal> {
    unless(
        answer.refused,
        Step {
            bit: answer.bit,
            register: answer.register,
        },
    )
}

/// The version of the archive as one number: ten thousand times its first part,
/// a hundred times its second, its third. It is this crate's own.
pub fn version() -> u32 {
    // SAFETY: it takes nothing.
    unsafe { raw::hansobrik_version() }
}

/// The lengths of a format, and the start value of its check. Refused with
/// FORMAT.
pub fn format(format: u8) -> Result<Format, Refusal> {
    // SAFETY: numbers only.
    let a = unsafe { raw::hansobrik_format(format) };
    unless(
        a.refused,
        Format {
            number: a.number,
            check_start: a.check_start,
            sync_bits: a.sync_bits,
            information_bits: a.information_bits,
            dummy_bits: a.dummy_bits,
            bytes: a.bytes,
        },
    )
}

/// One step of the scrambling register, by value. Refused with STATE for a
/// register over fifteen bits.
pub fn stepped(register: u16) -> Result<Step, Refusal> {
    // SAFETY: numbers only.
    step_of(unsafe { raw::hansobrik_stepped(register) })
}

/// The same of a register that changes in place; a refused one stays as it
/// was.
pub fn step(register: &mut u16) -> Result<Step, Refusal> {
    // SAFETY: the register is one number that nobody else looks at meanwhile.
    step_of(unsafe { raw::hansobrik_step(register) })
}

/// SYNC at the front of `out`; how many bytes. Refused with FORMAT,
/// SHORT_OUTPUT.
pub fn put_sync(format: u8, out: &mut [u8]) -> Result<usize, Refusal> {
    // SAFETY: the pointer and the count are those of one slice.
    let a = unsafe { raw::hansobrik_put_sync(format, out.as_mut_ptr(), out.len()) };
    unless(a.refused, a.count)
}
