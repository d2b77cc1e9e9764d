//! One call of the library as data: what is handed in, and what came of it.
//!
//! Every way to make a call, through Rust, through C or by the second decoder,
//! is a function of one type, from a [`Call`] to its [`Outcome`].

use crate::rows::{Name, Row, REGISTER_LENT, ROWS};

/// A buffer that is lent to a call.
#[derive(Clone, Debug, PartialEq, Eq)]
pub enum Lent {
    Bytes(Vec<u8>),
    /// Numbers of sixteen bits. A register that is lent is one of them.
    Words(Vec<u16>),
}

impl Lent {
    /// How many elements.
    pub fn count(&self) -> usize {
        match self {
            Lent::Bytes(bytes) => bytes.len(),
            Lent::Words(words) => words.len(),
        }
    }

    /// The bytes of a buffer of bytes.
    pub fn bytes(&self) -> &[u8] {
        match self {
            Lent::Bytes(bytes) => bytes,
            Lent::Words(_) => panic!("a buffer of bytes is asked for"),
        }
    }

    pub fn bytes_mut(&mut self) -> &mut Vec<u8> {
        match self {
            Lent::Bytes(bytes) => bytes,
            Lent::Words(_) => panic!("a buffer of bytes is asked for"),
        }
    }

    /// The numbers of a buffer of numbers.
    pub fn words(&self) -> &[u16] {
        match self {
            Lent::Words(words) => words,
            Lent::Bytes(_) => panic!("a buffer of numbers is asked for"),
        }
    }

    pub fn words_mut(&mut self) -> &mut Vec<u16> {
        match self {
            Lent::Words(words) => words,
            Lent::Bytes(_) => panic!("a buffer of numbers is asked for"),
        }
    }
}

/// What is handed to a call.
#[derive(Clone, Debug, PartialEq, Eq)]
pub struct Call {
    pub name: Name,
    /// The numbers in the header's order, a record's fields one by one.
    pub numbers: Vec<u64>,
    /// The buffers in the header's order.
    pub lent: Vec<Lent>,
}

impl Call {
    /// A call as its row says; every number fits the width that the header
    /// declares, so that nothing is cut off on the way.
    pub fn new(name: Name, numbers: &[u64], lent: Vec<Lent>) -> Call {
        let row = &ROWS[name as usize];
        assert_eq!(numbers.len(), row.numbers.len(), "numbers of {}", row.text);
        for (number, (what, bits)) in numbers.iter().zip(row.numbers) {
            assert!(*bits == 64 || number >> bits == 0, "{}: {what}", row.text);
        }
        assert_eq!(lent.len(), row.lent.len(), "buffers of {}", row.text);
        for (buffer, part) in lent.iter().zip(row.lent) {
            let words = matches!(buffer, Lent::Words(_));
            assert_eq!(words, part.words, "{}: {}", row.text, part.what);
        }
        Call {
            name,
            numbers: numbers.to_vec(),
            lent,
        }
    }

    pub fn row(&self) -> &'static Row {
        &ROWS[self.name as usize]
    }

    /// The answer of this call where it is refused: the number and 0
    /// elsewhere, but what a caller keeps comes back as it was handed in.
    pub fn refused(&self, number: u8) -> Vec<u64> {
        let row = self.row();
        let mut fields = vec![0; row.fields.len()];
        fields[0] = u64::from(number);
        let kept = &self.handed()[row.kept.number..][..row.kept.count];
        fields[row.kept.field..][..row.kept.count].copy_from_slice(kept);
        fields
    }

    /// The numbers handed in, and behind them a register that is lent.
    fn handed(&self) -> Vec<u64> {
        let mut numbers = self.numbers.clone();
        for (buffer, part) in self.lent.iter().zip(self.row().lent) {
            if *part == REGISTER_LENT {
                numbers.push(buffer.words()[0].into());
            }
        }
        numbers
    }
}

/// What came of a call.
#[derive(Clone, Debug, PartialEq, Eq)]
pub struct Outcome {
    /// The fields of the answer in the header's order: a bool as 0 or 1, a
    /// signed number in two's complement of 64 bits, an f64 as its bits.
    pub numbers: Vec<u64>,
    /// All the buffers after the call, those too that are only read.
    pub lent: Vec<Lent>,
    /// What was done that no call may do, as a changed canary.
    pub harm: Option<String>,
}

impl Outcome {
    /// The number of the refusal; 0 for an answer, and for the four calls that
    /// cannot refuse.
    pub fn refused(&self, row: &Row) -> u8 {
        match row.refusals {
            [] => 0,
            _ => self.numbers[0] as u8,
        }
    }
}
