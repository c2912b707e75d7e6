//! A trial of `crates/ground_cases`: a public function of labels, tables, halves or machines with its arguments, how it
//! stands in the program's input, and the line that the program must print for it.

use crate::cut::{cut, Side};
use crate::half::{read_half, step_at};
use crate::label::{check_k, highest, partner, partner_among, IDLE, SILENT};
use crate::run::read_run;
use crate::table::{read_table, row_at, Row, Table};
use crate::Refusal;

/// A row's or step's number, or a point; 65,535 stands for the largest number there is.
pub type Index = u16;

/// One trial. Tables, halves and runs are any bytes, and k is any byte.
#[derive(Clone, PartialEq, Eq, Debug)]
pub enum Trial {
    /// Is k refused?
    Pairs { k: u8 },
    /// What is known of a label, alone and among those of k.
    Label { k: u8, label: u8 },
    /// The partner of each byte among the labels of k.
    Partners { k: u8 },
    /// The check of a table.
    Table { k: u8, table: Vec<u8> },
    /// The row of a number.
    Row { table: Vec<u8>, number: Index },
    /// The rows that leave a state of a sound table.
    Leaving { k: u8, table: Vec<u8>, state: u8 },
    /// Whether a sound table has a row.
    Has { k: u8, table: Vec<u8>, row: Row },
    /// The check of a table and of a half run of it.
    Half {
        k: u8,
        table: Vec<u8>,
        half: Vec<u8>,
    },
    /// The step of a number.
    Step { half: Vec<u8>, number: Index },
    /// The known half up to a point.
    Cut {
        halves: [Vec<u8>; 2],
        side: Side,
        point: Index,
    },
    /// Which half a side makes the known one.
    Known { side: Side },
    /// One check after the other, by the numbers of what they refuse; 0 where a check refuses nothing.
    Then { first: u8, second: u8 },
    /// The check of two tables and of a joint run of them.
    Joint {
        k: u8,
        left: Vec<u8>,
        right: Vec<u8>,
        run: Vec<u8>,
    },
}

/// A side's number: 1 the left, 2 the right, 0 where none is named.
fn side_number(side: Side) -> u8 {
    match side {
        Side::Unnamed => 0,
        Side::Left => 1,
        Side::Right => 2,
    }
}

/// What an index stands for.
fn wide(index: Index) -> usize {
    match index {
        Index::MAX => usize::MAX,
        small => small as usize,
    }
}

impl Trial {
    /// The trial in the program's input: the function's code, k, three numbers x, y and z, the lengths of three byte
    /// strings, two bytes each, then these strings.
    pub fn to_bytes(&self) -> Vec<u8> {
        let (code, k, [x, y, z], strings) = self.fields();
        let mut bytes = vec![code, k, x, y, z];
        for string in strings {
            bytes.extend((string.len() as u16).to_le_bytes());
        }
        bytes.extend(strings.concat());
        bytes
    }

    /// The fields of the input: code, k, the three numbers, the three strings. An index stands in y and z.
    fn fields(&self) -> (u8, u8, [u8; 3], [&[u8]; 3]) {
        let at = |x: u8, index: &Index| {
            let [y, z] = index.to_le_bytes();
            [x, y, z]
        };
        let none: &[u8] = &[];
        match self {
            Trial::Pairs { k } => (0, *k, [0; 3], [none; 3]),
            Trial::Label { k, label } => (1, *k, [*label, 0, 0], [none; 3]),
            Trial::Partners { k } => (2, *k, [0; 3], [none; 3]),
            Trial::Table { k, table } => (3, *k, [0; 3], [table, none, none]),
            Trial::Row { table, number } => (4, 0, at(0, number), [table, none, none]),
            Trial::Leaving { k, table, state } => (5, *k, [*state, 0, 0], [table, none, none]),
            Trial::Has { k, table, row } => {
                (6, *k, [row.from, row.label, row.to], [table, none, none])
            }
            Trial::Half { k, table, half } => (7, *k, [0; 3], [table, none, half]),
            Trial::Step { half, number } => (8, 0, at(0, number), [none, none, half]),
            Trial::Cut {
                halves: [left, right],
                side,
                point,
            } => (9, 0, at(side_number(*side), point), [left, right, none]),
            Trial::Known { side } => (10, 0, [side_number(*side), 0, 0], [none; 3]),
            Trial::Then { first, second } => (11, 0, [*first, *second, 0], [none; 3]),
            Trial::Joint {
                k,
                left,
                right,
                run,
            } => (12, *k, [0; 3], [left, right, run]),
        }
    }

    /// The line that the program must print: numbers and marks, one blank apart.
    pub fn line(&self) -> String {
        let fields = match self {
            Trial::Pairs { k } => vec![number_of(check_k(*k))],
            Trial::Label { k, label } => label_line(*k, *label),
            Trial::Partners { k } => (0..=255).map(|x| or_dash(partner_among(*k, x))).collect(),
            Trial::Table { k, table } => call(*k, read_table(table, *k).map(drop)),
            Trial::Row { table, number } => row_line(row_at(table, wide(*number))),
            Trial::Leaving { k, table, state } => leaving(read_table(table, *k), *state),
            Trial::Has { k, table, row } => has(read_table(table, *k), *row),
            Trial::Half { k, table, half } => call(*k, check_half(*k, table, half)),
            Trial::Step { half, number } => step_line(half, wide(*number)),
            Trial::Cut {
                halves: [left, right],
                side,
                point,
            } => counted(cut(left, right, *side, wide(*point)).unwrap_or(&[])),
            Trial::Known { side } => vec![known(*side).to_string()],
            Trial::Then { first, second } => {
                let [a, b] = [*first, *second];
                let both = if a == 0 { b } else { a };
                [a, b, both].map(|number| number.to_string()).to_vec()
            }
            Trial::Joint {
                k,
                left,
                right,
                run,
            } => call(*k, check_joint(*k, left, right, run)),
        };
        fields.join(" ")
    }
}

/// A refusal's number, 0 where nothing is refused.
fn number_of(check: Result<(), Refusal>) -> String {
    check.err().unwrap_or(0).to_string()
}

/// A label's number, or a dash for nobody.
fn or_dash(label: Option<u8>) -> String {
    label.map_or("-".to_string(), |label| label.to_string())
}

/// 1 or 0.
fn bit(holds: bool) -> String {
    (holds as u8).to_string()
}

/// Is the label silent, an idle, its partner; then among the labels of k: the highest, is it one, its partner.
fn label_line(k: u8, label: u8) -> Vec<String> {
    vec![
        bit(label == SILENT),
        bit(label == IDLE),
        or_dash(partner(label)),
        highest(k).to_string(),
        bit(label <= highest(k)),
        or_dash(partner_among(k, label)),
    ]
}

/// A check's number where k is looked at first, as in a call that takes k; then the check's own number.
fn call(k: u8, check: Result<(), Refusal>) -> Vec<String> {
    vec![number_of(check_k(k).and(check)), number_of(check)]
}

/// The table's numbers, then 15.
fn check_half(k: u8, table: &[u8], half: &[u8]) -> Result<(), Refusal> {
    let table = read_table(table, k)?;
    read_half(half, &table).map(drop)
}

/// The left table's numbers, the right's, then 3 or 8.
fn check_joint(k: u8, left: &[u8], right: &[u8], run: &[u8]) -> Result<(), Refusal> {
    let left = read_table(left, k)?;
    let right = read_table(right, k)?;
    read_run(run, &left, &right).map(drop)
}

/// 1 and the row, or a dash where there is none.
fn row_line(row: Option<Row>) -> Vec<String> {
    match row {
        Some(row) => [1, row.from, row.label, row.to]
            .map(|byte| byte.to_string())
            .to_vec(),
        None => vec!["-".to_string()],
    }
}

/// How many bytes there are, then each of them.
fn counted(bytes: &[u8]) -> Vec<String> {
    let count = [bytes.len().to_string()].into_iter();
    count
        .chain(bytes.iter().map(|byte| byte.to_string()))
        .collect()
}

/// R, then the refusal's number.
fn refused(number: Refusal) -> Vec<String> {
    vec!["R".to_string(), number.to_string()]
}

/// The rows of a sound table that leave a state, which need not be one of its states.
fn leaving(table: Result<Table, Refusal>, state: u8) -> Vec<String> {
    match table {
        Ok(table) => {
            let rows = table.rows.iter().filter(|row| row.from == state);
            let bytes = rows.flat_map(|row| [row.from, row.label, row.to]);
            counted(&bytes.collect::<Vec<u8>>())
        }
        Err(number) => refused(number),
    }
}

/// Whether a sound table has a row, of which nothing need be in range.
fn has(table: Result<Table, Refusal>, row: Row) -> Vec<String> {
    match table {
        Ok(table) => vec![bit(table.rows.contains(&row))],
        Err(number) => refused(number),
    }
}

/// 2, label and target of a move; 1 for an idle; 0 where there is no such step.
fn step_line(half: &[u8], number: usize) -> Vec<String> {
    let numbers = match step_at(half, number) {
        None => vec![0],
        Some(step) if step.label == IDLE => vec![1],
        Some(step) => vec![2, step.label, step.to],
    };
    numbers.iter().map(|number| number.to_string()).collect()
}

/// 1 where the side makes the left half the known one, 2 where it makes the right.
fn known(side: Side) -> u8 {
    if side.knows_left() {
        1
    } else {
        2
    }
}
