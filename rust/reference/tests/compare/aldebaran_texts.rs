//! Aldebaran texts in pieces, so that each piece can be wrong, and machines of all sizes to make them of.

use std::collections::BTreeSet;
use std::fmt::Display;

use reference::generate::{random_rows, random_table, Shape};
use reference::label::MOST_PAIRS;
use reference::random::Random;
use reference::table::{Row, Table};

/// How document 02 spells the labels 0 to 30, written out by hand.
pub const SPELLINGS: [&str; 31] = [
    "i", "a1!", "a1?", "a2!", "a2?", "a3!", "a3?", "a4!", "a4?", "a5!", "a5?", "a6!", "a6?", "a7!",
    "a7?", "a8!", "a8?", "a9!", "a9?", "a10!", "a10?", "a11!", "a11?", "a12!", "a12?", "a13!",
    "a13?", "a14!", "a14?", "a15!", "a15?",
];

/// A line of a row, whatever its pieces, without line feed.
pub fn line(from: impl Display, label: impl AsRef<[u8]>, to: impl Display) -> Vec<u8> {
    let (begin, end) = (format!("({from},\""), format!("\",{to})"));
    [begin.as_bytes(), label.as_ref(), end.as_bytes()].concat()
}

/// The line of a row.
pub fn line_of(row: &Row) -> Vec<u8> {
    line(row.from, SPELLINGS[row.label as usize], row.to)
}

/// A text in pieces.
#[derive(Clone, PartialEq, Eq, Debug)]
pub struct Draft {
    pub first: String,
    pub count: String,
    pub states: String,
    /// The lines behind the header, without line feeds.
    pub lines: Vec<Vec<u8>>,
}

impl Draft {
    /// The text of a machine in row order.
    pub fn of(table: &Table, first: u8) -> Draft {
        Draft::with(
            first,
            table.states,
            table.rows.iter().map(line_of).collect(),
        )
    }

    /// The text of these lines, with their count.
    pub fn with(first: impl Display, states: impl Display, lines: Vec<Vec<u8>>) -> Draft {
        Draft {
            first: first.to_string(),
            count: lines.len().to_string(),
            states: states.to_string(),
            lines,
        }
    }

    /// Puts the lines in any order.
    pub fn shuffled(mut self, random: &mut Random) -> Draft {
        shuffle(&mut self.lines, random);
        self
    }

    /// The header, without line feed.
    pub fn header(&self) -> Vec<u8> {
        format!("des ({},{},{})", self.first, self.count, self.states).into_bytes()
    }

    /// The whole text.
    pub fn to_bytes(&self) -> Vec<u8> {
        let mut bytes = self.header();
        bytes.push(b'\n');
        for line in &self.lines {
            bytes.extend(line);
            bytes.push(b'\n');
        }
        bytes
    }
}

/// Puts items in any order.
pub fn shuffle<T>(items: &mut [T], random: &mut Random) {
    for at in (1..items.len()).rev() {
        items.swap(at, random.from_to(0, at));
    }
}

/// The machine of a seed, small, of any size or as large as can be, and its first state.
pub fn machine(seed: u64) -> (Table, u8) {
    let mut random = Random::new(seed);
    let shape = match seed % 8 {
        0..=3 => Shape::small(&mut random),
        4..=6 => Shape::any(&mut random),
        _ => Shape::maximal(MOST_PAIRS),
    };
    let table = random_table(&mut random, shape, shape.left_states);
    let first = random.byte(0, table.states - 1);
    (table, first)
}

/// A machine whose states have between one and eight rows, of all labels.
pub fn machine_with_rows(random: &mut Random, states: u8) -> (Table, u8) {
    let mut rows = Vec::new();
    for from in 0..states {
        let count = random.from_to(1, 8);
        rows.extend(random_rows(random, MOST_PAIRS, states, from, count));
    }
    (Table::new(states, rows), random.byte(0, states - 1))
}

/// So many different rows on 64 states in any order, with no heed of how many leave one state.
pub fn many_rows(count: usize, random: &mut Random) -> Vec<Row> {
    let mut numbers: Vec<usize> = (0..64 * 31 * 64).collect();
    shuffle(&mut numbers, random);
    numbers.truncate(count);
    assert_eq!(numbers.len(), count, "so many rows there are");
    numbers.into_iter().map(numbered).collect()
}

/// The row of a number below 64 * 31 * 64.
fn numbered(number: usize) -> Row {
    Row {
        from: (number / (31 * 64)) as u8,
        label: (number / 64 % 31) as u8,
        to: (number % 64) as u8,
    }
}

/// Rows that a table has not, so many, from one of its states.
pub fn fresh_rows(random: &mut Random, table: &Table, from: u8, count: usize) -> Vec<Row> {
    let mut fresh = BTreeSet::new();
    while fresh.len() < count {
        let (label, to) = (random.byte(0, 30), random.byte(0, table.states - 1));
        if !table.has(from, label, to) {
            fresh.insert(Row { from, label, to });
        }
    }
    fresh.into_iter().collect()
}
