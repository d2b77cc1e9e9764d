//! How long the library's calls take, beside the second decoder doing the same
//! work and beside a copy of the same number of bytes; the reader at its
//! settings; the count of filler bits, and descrambling, beside the same in Rust;
//! the report of a line beside the checks that it makes; and what the desk costs
//! a line. Tables in Markdown.
//!
//! `library/speed/before` runs it with the feature `before`: then the tables
//! also have the times of the library at an earlier commit.

mod alone;
mod decoder;
mod descrambling;
mod desk;
mod filler;
mod growth;
mod input;
mod library;
mod ours;
mod plain;
mod quick;
mod report;
mod settings;
mod table;
mod theirs;
mod timing;
mod words;
mod work;

fn main() {
    table::print();
    growth::print();
    settings::print();
    filler::print();
    descrambling::print();
    report::print();
    desk::print();
}
