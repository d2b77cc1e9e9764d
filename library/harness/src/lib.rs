//! Every call of the library beside the second decoder.
//!
//! A call is data ([`call`]). It is made through Rust ([`direct`], the raw
//! declarations and the safe functions), through C ([`through_c`]) and by the
//! second decoder ([`expected`]); [`bench`] compares what comes of it. The
//! calls come from chance ([`make`]) and from fixed suites ([`suites`]).

pub mod call;
pub mod desk;
pub mod names;
pub mod report;
pub mod rows;
mod shapes;

pub mod direct;
pub mod expected;
pub mod fence;
pub mod guard;
pub mod through_c;

pub mod bench;
pub mod compare;
pub mod tally;

pub mod dice;
pub mod faults;
pub mod make;
pub mod pool;

pub mod suites;
