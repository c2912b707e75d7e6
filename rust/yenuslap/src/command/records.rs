//! The records of a casebook's file, by the lengths that stand in it.

use super::faults::Part;

/// How many bytes a record's header has: its length and its kind.
pub const HEADER: usize = 4;
/// How many bytes its length has, which the length does not count.
const LENGTH: usize = 2;

/// A record that a casebook has.
#[derive(Clone, Copy, PartialEq, Eq, Debug)]
pub struct Due {
    /// The part that is its body.
    pub part: Part,
    /// Its kind.
    pub kind: u16,
    /// Its name in a sentence.
    pub name: &'static str,
    /// The rule of its length.
    pub lengths: &'static str,
}

/// The records in their order.
pub const RECORDS: [Due; 5] = [
    due(Part::Pairs, 1, "pairs record", "3"),
    due(Part::Left, 2, "left table record", TABLE_LENGTHS),
    due(Part::Right, 3, "right table record", TABLE_LENGTHS),
    due(
        Part::Log,
        4,
        "log record",
        "4 and 3 for each step, at most 604",
    ),
    due(Part::Question, 5, "question record", "even and 4 to 130"),
];

/// The lengths of both tables.
const TABLE_LENGTHS: &str = "a multiple of 3 from 3 to 1,539";

/// A record with its kind, name and lengths.
const fn due(part: Part, kind: u16, name: &'static str, lengths: &'static str) -> Due {
    Due {
        part,
        kind,
        name,
        lengths,
    }
}

/// A record in a file, or the place where it is due.
#[derive(Clone, Copy, PartialEq, Eq, Debug)]
pub struct Record<'a> {
    /// The whole file.
    bytes: &'a [u8],
    /// What is due here.
    pub due: Due,
    /// Where it begins.
    pub start: usize,
}

impl<'a> Record<'a> {
    /// The records from the first on, each where the one before says that it ends.
    pub fn all(bytes: &'a [u8]) -> impl Iterator<Item = Record<'a>> {
        let mut start = 0;
        RECORDS.into_iter().map(move |due| {
            let record = Record { bytes, due, start };
            start = record.end();
            record
        })
    }

    /// The two bytes at a place in the file, and the number that they are; 0 past its end.
    fn number(&self, at: usize) -> u16 {
        let byte = |at: usize| self.bytes.get(at).copied().unwrap_or(0);
        u16::from_le_bytes([byte(at), byte(at + 1)])
    }

    /// The length that it gives.
    pub fn length(&self) -> u16 {
        self.number(self.start)
    }

    /// The kind that it gives.
    pub fn kind(&self) -> u16 {
        self.number(self.start + LENGTH)
    }

    /// Where it ends by the length that it gives.
    pub fn end(&self) -> usize {
        self.start + LENGTH + usize::from(self.length())
    }

    /// Where its body begins.
    pub fn body_start(&self) -> usize {
        self.start + HEADER
    }

    /// The bytes of its body that are there.
    pub fn body(&self) -> &'a [u8] {
        let end = self.end().min(self.bytes.len());
        self.bytes.get(self.body_start()..end).unwrap_or(&[])
    }
}
