//! The second decoder: S-VISSR 2.0 and HiRID lines, bit by bit.
//!
//! Document 01 ("S-VISSR 2.0 and HiRID lines: build description and exact
//! rules") asks that "whole-line vectors and an independent second decoder
//! are run and compared". This is that second decoder. It is written from
//! document 01, with document 02's T-01 (wrong bits in the tail), T-02 (tables
//! of two revisions), T-04 (the longitudes of HiRID), T-05 (the report of a
//! pass), T-06 (the desk) and T-11 (a check that starts from ones), and where they
//! are silent from docs/DECISIONS.md, so that there its agreement is no evidence
//! ("The second decoder" there has the places). It shares no code with the crates
//! that it is compared with. It is meant to be held beside the paper and found
//! right by reading: lists of bits, short functions, no tricks. Speed does not
//! matter.
//!
//! Not the paper's are the training pattern ([`pattern`]), the damage done to
//! recordings ([`damage`], [`ice`]), the rows of text ([`fields`]) and the
//! timetable of a class ([`class`]).
//!
//! Every call that can refuse gives `Result<_, Refusal>`; `Err(number)` stands
//! for the paper's "returns its number and 0 elsewhere". A refused call leaves
//! its state and its buffers as they were.
//!
//! Ordinal numbers (format, setting, sector, channel, block, level, row, column)
//! are `usize`, so that every wrong number can be asked for.

#![forbid(unsafe_code)]

pub mod refusal;

pub mod bits;
pub mod format;
pub mod scramble;

pub mod lines;
pub mod reader;

pub mod sectors;

pub mod numbers;

pub mod blocks;
pub mod document;

pub mod report;

pub mod desk;

pub mod class;
pub mod damage;
pub mod fields;
pub mod ice;
pub mod listing;
pub mod pattern;
pub mod vectors;
