//! The casebook: five records in order, read whole or refused, and written from parts.

use std::ops::Range;

use crate::formula::{self, read_formula, QUESTION_NODES};
use crate::label::check_k;
use crate::run::{self, read_run};
use crate::table::{self, read_table};
use crate::Refusal;

/// A casebook that was read: k, and where the bodies of records 1 to 5 lie.
#[derive(Clone, PartialEq, Eq, Debug)]
pub struct Casebook {
    pub k: u8,
    pub bodies: [Range<usize>; 5],
}

/// The parts of a casebook, each as its record's body.
#[derive(Clone, PartialEq, Eq, Debug)]
pub struct Parts {
    pub k: u8,
    pub left: Vec<u8>,
    pub right: Vec<u8>,
    pub run: Vec<u8>,
    pub question: Vec<u8>,
}

/// The longest lengths of the five records, in their order.
const LONGEST_RECORDS: [usize; 5] = [
    3,
    table::LONGEST,
    table::LONGEST,
    run::LONGEST,
    formula::LONGEST,
];

/// The bytes of the longest casebook: a record has two more than its length says.
pub const LONGEST: usize = longest();

const fn longest() -> usize {
    let mut bytes = 0;
    let mut record = 0;
    while record < LONGEST_RECORDS.len() {
        bytes += 2 + LONGEST_RECORDS[record];
        record += 1;
    }
    bytes
}

/// Whether a record of this kind may have this length (kind and body counted).
pub fn fits(kind: u16, length: usize) -> bool {
    match kind {
        1 => length == 3,
        2 | 3 => table::fits(length),
        4 => run::fits(length),
        5 => formula::fits(length),
        _ => false,
    }
}

/// Steps over the record at `at`, judging header (1), kind (2), length (3), body (1), and gives where its body lies.
fn record(bytes: &[u8], at: usize, due: u16) -> Result<Range<usize>, Refusal> {
    let header = bytes.get(at..at + 4).ok_or(1)?;
    let length = u16::from_le_bytes([header[0], header[1]]) as usize;
    let kind = u16::from_le_bytes([header[2], header[3]]);
    if kind != due {
        return Err(2);
    }
    if !fits(kind, length) {
        return Err(3);
    }
    let end = at + 2 + length;
    if end > bytes.len() {
        return Err(1);
    }
    Ok(at + 4..end)
}

/// Reads a casebook: record by record, then 11.
pub fn read(bytes: &[u8]) -> Result<Casebook, Refusal> {
    let first = record(bytes, 0, 1)?;
    let k = bytes[first.start];
    check_k(k)?;
    let second = record(bytes, first.end, 2)?;
    let left = read_table(&bytes[second.clone()], k)?;
    let third = record(bytes, second.end, 3)?;
    let right = read_table(&bytes[third.clone()], k)?;
    let fourth = record(bytes, third.end, 4)?;
    read_run(&bytes[fourth.clone()], &left, &right)?;
    let fifth = record(bytes, fourth.end, 5)?;
    read_formula(&bytes[fifth.clone()], k, QUESTION_NODES)?;
    if fifth.end < bytes.len() {
        return Err(11);
    }
    let bodies = [first, second, third, fourth, fifth];
    Ok(Casebook { k, bodies })
}

impl Casebook {
    /// Copies the parts out of the bytes that were read.
    pub fn parts(&self, bytes: &[u8]) -> Parts {
        let body = |record: usize| bytes[self.bodies[record].clone()].to_vec();
        Parts {
            k: self.k,
            left: body(1),
            right: body(2),
            run: body(3),
            question: body(4),
        }
    }
}

/// Writes a casebook for an output of `room` bytes: the parts' numbers in record order, then 18.
pub fn write(parts: &Parts, room: usize) -> Result<Vec<u8>, Refusal> {
    check_k(parts.k)?;
    let left = read_table(&parts.left, parts.k)?;
    let right = read_table(&parts.right, parts.k)?;
    read_run(&parts.run, &left, &right)?;
    read_formula(&parts.question, parts.k, QUESTION_NODES)?;
    let bytes = parts.to_bytes();
    if bytes.len() > room {
        return Err(18);
    }
    Ok(bytes)
}

impl Parts {
    /// The number of the log's steps, as far as its bytes go.
    pub fn steps(&self) -> usize {
        self.run.len().saturating_sub(2) / 3
    }

    /// The five records of these parts one after the other, unjudged.
    pub fn to_bytes(&self) -> Vec<u8> {
        let bodies = [
            &[self.k][..],
            &self.left,
            &self.right,
            &self.run,
            &self.question,
        ];
        let mut bytes = Vec::new();
        for (body, kind) in bodies.iter().zip(1u16..) {
            bytes.extend((body.len() as u16 + 2).to_le_bytes());
            bytes.extend(kind.to_le_bytes());
            bytes.extend(*body);
        }
        bytes
    }
}
