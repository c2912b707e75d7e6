//! Refusals, by the numbers of documents 01 (1 to 18) and 02 (from 19 on) and in their words.

use crate::bare::LinesAnswer;
use std::error::Error;
use std::fmt;

/// A refusal of the engine, which is its number only.
///
/// ```
/// let refusal = yenuslap::read_casebook(b"").unwrap_err();
/// assert_eq!(refusal.number(), 1);
/// assert_eq!(refusal.to_string(), "refusal 1: the bytes end before the question record is complete");
/// ```
#[derive(Clone, Copy, PartialEq, Eq, PartialOrd, Ord, Hash, Debug)]
pub struct Refusal(u32);

impl Refusal {
    /// The refusal's number in document 01 or 02.
    pub fn number(self) -> u32 {
        self.0
    }

    /// What the document says of this number.
    pub fn meaning(self) -> &'static str {
        match self.0 {
            1 => "the bytes end before the question record is complete",
            2 => "not the kind due",
            3 => "length not in the table of records",
            4 => "k over 15",
            5 => "n is 0 or over 64, or a row holds a state or label out of range",
            6 => "row not above the one before, or given twice in a text",
            7 => "a ninth row from one state",
            8 => "a start state out of range, or a step not real",
            9 => "formula not one whole tree, operator over 8, label over 2k, or a label byte set where none belongs",
            10 => "forward nesting over 4",
            11 => "bytes after the question record",
            12 => "point beyond the run",
            13 => "over 65,535 splittings",
            14 => "splitting number not below the count",
            15 => "a half is no run of its table",
            16 => "halves don't match",
            17 => "the quotient's tree has over 4,096 nodes",
            18 => "lent output shorter than the answer",
            19 => "a missing header or a line not of the Aldebaran text form",
            20 => "a header whose row count differs from the lines, or a first state not below the states",
            21 => "a label not spelled as one",
            _ => "a number that the documents do not have",
        }
    }
}

impl fmt::Display for Refusal {
    fn fmt(&self, f: &mut fmt::Formatter<'_>) -> fmt::Result {
        write!(f, "refusal {}: {}", self.0, self.meaning())
    }
}

impl Error for Refusal {}

/// Takes the engine's answer apart: the number in the upper half, the value in the lower.
pub(crate) fn value_or_refusal(answer: u64) -> Result<usize, Refusal> {
    match (answer >> 32) as u32 {
        0 => Ok(answer as u32 as usize),
        number => Err(Refusal(number)),
    }
}

/// The same of the answer of a cut: a part that is empty is refusal 12, its only one.
pub(crate) fn length_or_refusal(length: usize) -> Result<usize, Refusal> {
    match length {
        0 => Err(Refusal(12)),
        length => Ok(length),
    }
}

/// The same of the answer for lines: how many, and how many bytes.
pub(crate) fn lines_or_refusal(answer: LinesAnswer) -> Result<[usize; 2], Refusal> {
    match answer.refusal {
        0 => Ok([answer.lines as usize, answer.bytes as usize]),
        number => Err(Refusal(number as u32)),
    }
}

#[cfg(test)]
mod tests {
    use super::*;
    use std::collections::HashSet;

    /// Every number of the documents has a sentence of its own, and no other number has one.
    #[test]
    fn each_number_has_its_sentence() {
        let sentences: HashSet<&str> = (1..=21).map(|n| Refusal(n).meaning()).collect();
        assert_eq!(sentences.len(), 21);
        assert!(!sentences.contains(Refusal(0).meaning()));
        assert_eq!(Refusal(22).meaning(), Refusal(0).meaning());
    }

    /// The sentence shows its number first.
    #[test]
    fn display_shows_number_and_meaning() {
        assert_eq!(Refusal(12).to_string(), "refusal 12: point beyond the run");
    }

    /// The number is the upper half of the answer, the value the lower.
    #[test]
    fn answers_are_taken_apart() {
        assert_eq!(value_or_refusal(0), Ok(0));
        assert_eq!(value_or_refusal(0xffff_ffff), Ok(0xffff_ffff));
        assert_eq!(value_or_refusal(18 << 32), Err(Refusal(18)));
    }

    /// An empty part is refused, and no other: not even one whose length is a refusal in other answers.
    #[test]
    fn answers_of_cuts_are_taken_apart() {
        assert_eq!(length_or_refusal(0), Err(Refusal(12)));
        assert_eq!(length_or_refusal(1), Ok(1));
        assert_eq!(length_or_refusal((1 << 32) + 1), Ok((1 << 32) + 1));
    }

    /// Lines come before bytes, and a number hides both.
    #[test]
    fn answers_for_lines_are_taken_apart() {
        let mut answer = LinesAnswer {
            refusal: 0,
            lines: 4,
            bytes: 60,
        };
        assert_eq!(lines_or_refusal(answer), Ok([4, 60]));
        answer.refusal = 18;
        assert_eq!(lines_or_refusal(answer), Err(Refusal(18)));
    }
}
