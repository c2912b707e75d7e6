//! A plain implementation of its own, written from document 01, its list of open points and document 02,
//! to compare the engine with.

pub mod aldebaran;
pub mod casebook;
pub mod cut;
pub mod fitted;
pub mod formula;
pub mod generate;
pub mod half;
pub mod hex;
pub mod label;
pub mod quotient;
pub mod random;
pub mod run;
pub mod sheet;
pub mod splitting;
pub mod stored;
pub mod table;
pub mod verdict;

/// A refusal is its number only.
pub type Refusal = u8;
