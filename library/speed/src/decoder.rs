//! The calls that are timed, as both decoders have them. Each work is written
//! once over this, so that both do the same.

use crate::input::Input;

/// What a decoder has made so far, to compare the two.
#[derive(Debug, PartialEq)]
pub struct Made {
    pub line: Vec<u8>,
    pub joined: Vec<u16>,
    pub strip: Vec<u8>,
    pub wire: Vec<u8>,
    pub assemblies: [hansobrik::Assembly; 5],
    pub blocks: Vec<Vec<u8>>,
}

impl Made {
    /// Buffers of every size that a call needs, filled with something that no
    /// call needs.
    pub fn new() -> Made {
        Made {
            line: vec![0xA5; hansobrik::LINE_BYTES],
            joined: vec![0xA5A5; hansobrik::IR_PIXELS],
            strip: vec![0xA5; hansobrik::STRIP_BYTES],
            wire: vec![0xA5; hansobrik::WIRE_BYTES_2],
            assemblies: [hansobrik::fresh_assembly(); 5],
            blocks: [
                hansobrik::MAPPING_BYTES,
                hansobrik::ORBIT_BYTES,
                hansobrik::MANAM_BYTES,
                hansobrik::CALIBRATION_1_BYTES,
                hansobrik::CALIBRATION_2_BYTES,
            ]
            .map(|size| vec![0xA5; size])
            .to_vec(),
        }
    }
}

/// What is between plain lines and the wire.
pub trait Wire {
    fn made(&mut self) -> &mut Made;

    /// A recording begins.
    fn begin(&mut self);

    /// One call of the reader: bytes taken, and whether a line is complete.
    fn read(&mut self, setting: u8, piece: &[u8]) -> (usize, bool);

    // The line that was read last, or SYNC alone: how many bytes.
    fn write_line(&mut self) -> usize;
    fn put_sync(&mut self) -> usize;
}

pub trait Decoder: Wire {
    // Of the line that was read last.
    fn accepted(&mut self, sector: u8) -> bool;
    fn filler(&mut self, sector: u8) -> usize;
    fn joined(&mut self, channel: u8);
    fn strip(&mut self);
    fn position(&mut self) -> i32;
    fn hundredths(&mut self) -> u16;
    fn add_segment(&mut self, block: u8) -> bool;

    /// Every sector from 2 on.
    fn put_pixels(&mut self, input: &Input);
}
