//! Decoders for the wire alone, in Rust: three functions, and what they work on.

use crate::decoder::{Made, Wire};
use crate::{plain, quick};
use second::reader::{Answer, State};
use second::refusal::Refusal;

type Read = fn(u8, u8, &mut State, &[u8], &mut [u8]) -> Result<Answer, Refusal>;
type WriteLine = fn(u8, &[u8], &mut [u8]) -> Result<usize, Refusal>;
type PutSync = fn(u8, &mut [u8]) -> Result<usize, Refusal>;

pub struct Alone {
    format: u8,
    state: State,
    made: Made,
    read: Read,
    write_line: WriteLine,
    put_sync: PutSync,
}

impl Alone {
    /// The library's algorithm.
    pub fn quick(format: u8) -> Alone {
        Alone {
            format,
            state: State::default(),
            made: Made::new(),
            read: quick::read,
            write_line: quick::write_line,
            put_sync: quick::put_sync,
        }
    }

    /// Bit by bit in a loop.
    pub fn plain(format: u8) -> Alone {
        Alone {
            read: plain::read,
            write_line: plain::write_line,
            put_sync: plain::put_sync,
            ..Alone::quick(format)
        }
    }
}

const GOOD: &str = "a good line";

impl Wire for Alone {
    fn made(&mut self) -> &mut Made {
        &mut self.made
    }

    fn begin(&mut self) {
        self.state = State::default();
    }

    fn read(&mut self, setting: u8, piece: &[u8]) -> (usize, bool) {
        let line = &mut self.made.line;
        let answer = (self.read)(self.format, setting, &mut self.state, piece, line);
        let answer = answer.expect(GOOD);
        (answer.taken, answer.complete)
    }

    fn write_line(&mut self) -> usize {
        let made = &mut self.made;
        (self.write_line)(self.format, &made.line, &mut made.wire).expect(GOOD)
    }

    fn put_sync(&mut self) -> usize {
        (self.put_sync)(self.format, &mut self.made.wire).expect(GOOD)
    }
}
