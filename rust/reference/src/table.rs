//! Machines as tables of rows.

use crate::label::highest;
use crate::Refusal;

/// The largest number of states.
pub const MOST_STATES: u8 = 64;
/// The largest number of rows that leave one state.
pub const MOST_ROWS: usize = 8;

/// One row; the derived order compares from, label, to in that order.
#[derive(Clone, Copy, PartialEq, Eq, PartialOrd, Ord, Debug)]
pub struct Row {
    pub from: u8,
    pub label: u8,
    pub to: u8,
}

/// A machine: its states are 0 to `states` - 1.
#[derive(Clone, PartialEq, Eq, Debug)]
pub struct Table {
    pub states: u8,
    pub rows: Vec<Row>,
    /// Where the rows of each state begin, and behind the last state where all rows end.
    starts: Vec<usize>,
}

/// The longest length of a table's record.
pub const LONGEST: usize = 1539;

/// Whether a table's record may have this length (kind and body counted).
pub fn fits(length: usize) -> bool {
    (3..=LONGEST).contains(&length) && length.is_multiple_of(3)
}

/// Reads a table: 3 for its length, then n and row by row 5, 6, 7.
pub fn read_table(bytes: &[u8], k: u8) -> Result<Table, Refusal> {
    if !fits(bytes.len() + 2) {
        return Err(3);
    }
    let states = bytes[0];
    if states == 0 || states > MOST_STATES {
        return Err(5);
    }
    let mut rows = Vec::new();
    for row in bytes[1..].chunks(3) {
        let row = row_of(row);
        check_next(states, &rows, row, k)?;
        rows.push(row);
    }
    Ok(Table::new(states, rows))
}

/// The row of three bytes.
fn row_of(bytes: &[u8]) -> Row {
    Row {
        from: bytes[0],
        label: bytes[1],
        to: bytes[2],
    }
}

/// The row of a number, from 0, of any bytes: they have as many rows as three bytes each make behind the first.
pub fn row_at(bytes: &[u8], number: usize) -> Option<Row> {
    bytes.get(1..)?.chunks_exact(3).nth(number).map(row_of)
}

/// Judges the row that would come next: range (5), order (6), how many from its state (7).
fn check_next(states: u8, rows: &[Row], row: Row, k: u8) -> Result<(), Refusal> {
    if row.from >= states || row.label > highest(k) || row.to >= states {
        return Err(5);
    }
    if rows.last().is_some_and(|before| row <= *before) {
        return Err(6);
    }
    // Rows rise, so those that leave the same state are the last ones.
    let same_state = rows.iter().rev().take_while(|r| r.from == row.from);
    if same_state.count() == MOST_ROWS {
        return Err(7);
    }
    Ok(())
}

impl Table {
    /// The table of these rows, which must rise and name only its states.
    pub fn new(states: u8, rows: Vec<Row>) -> Table {
        let start = |state: u8| rows.partition_point(|row| row.from < state);
        let starts = (0..=states).map(start).collect();
        Table {
            states,
            rows,
            starts,
        }
    }

    /// The rows that leave one state of the table, in row order.
    pub fn rows_from(&self, state: u8) -> &[Row] {
        let state = state as usize;
        &self.rows[self.starts[state]..self.starts[state + 1]]
    }

    /// Whether the table has this row from one of its states.
    pub fn has(&self, from: u8, label: u8, to: u8) -> bool {
        self.rows_from(from).contains(&Row { from, label, to })
    }

    /// The table as a record's body: n, then the rows.
    pub fn to_bytes(&self) -> Vec<u8> {
        let mut bytes = vec![self.states];
        for row in &self.rows {
            bytes.extend([row.from, row.label, row.to]);
        }
        bytes
    }
}
