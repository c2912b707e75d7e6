//! Where in a refused part the fault lies. The engine is asked about beginnings of the part, and single bytes of it.

use yenuslap::Casebook;

use super::contents::{
    log, rows, start_states, states, Row, FORMULA_HEAD, IDLE_LABEL, LOG_HEAD, LOG_STEP, NODE, ROW,
    TABLE_HEAD,
};
use super::formula_faults::{formula_fault, FormulaKind};
use super::judge;
use super::statement::IDLE;
use super::words::counted;

/// The number of a part that is too long.
const UNFIT_LENGTH: u32 = 3;

/// A part of a casebook.
#[derive(Clone, Copy, PartialEq, Eq, Debug)]
pub enum Part {
    /// k.
    Pairs,
    /// The left table.
    Left,
    /// The right table.
    Right,
    /// The joint run.
    Log,
    /// The question.
    Question,
}

/// A piece of a part.
#[derive(Clone, Copy, PartialEq, Eq, Debug)]
pub enum Item {
    /// What stands before the entries: k, the number of states, the start states.
    Head,
    /// A row, step or node, counted from 1.
    Entry(usize),
    /// The part as a whole.
    Whole,
}

/// A fault: where it is, what was found there, and what the rule is.
#[derive(Clone, PartialEq, Eq, Debug)]
pub struct Fault {
    /// The part it lies in.
    pub part: Part,
    /// The piece of that part.
    pub item: Item,
    /// What was found, and the rule.
    pub sentence: String,
}

impl Part {
    /// The part's name, as it stands in a sentence.
    fn name(self) -> &'static str {
        match self {
            Part::Pairs => "pairs record",
            Part::Left => "left table",
            Part::Right => "right table",
            Part::Log => "log",
            Part::Question => "question",
        }
    }

    /// How many bytes stand before the part's entries, and how many each of them has.
    pub fn layout(self) -> (usize, usize) {
        match self {
            Part::Pairs => (1, 0),
            Part::Left | Part::Right => (TABLE_HEAD, ROW),
            Part::Log => (LOG_HEAD, LOG_STEP),
            Part::Question => (FORMULA_HEAD, NODE),
        }
    }

    /// A piece of the part in words.
    pub fn item_name(self, item: Item) -> String {
        let name = self.name();
        match (item, self) {
            (Item::Whole, _) => format!("the {name}"),
            (Item::Head, Part::Pairs) => "k".to_string(),
            (Item::Head, Part::Log) => "the log's start states".to_string(),
            (Item::Head, _) => format!("n of the {name}"),
            (Item::Entry(number), Part::Log) => format!("step {number} of the {name}"),
            (Item::Entry(number), Part::Question) => format!("node {number} of the {name}"),
            (Item::Entry(number), _) => format!("row {number} of the {name}"),
        }
    }
}

/// The first of these parts, which need not be sound, that the engine refuses, and the fault in it.
pub fn find_fault(parts: &Casebook) -> Option<Fault> {
    let (k, left, right) = (parts.k, parts.left, parts.right);
    if judge::pairs(k).is_some() {
        return Some(pairs_fault(k));
    }
    for (part, table) in [(Part::Left, left), (Part::Right, right)] {
        if let Some(number) = judge::table(k, table) {
            return Some(table_fault(k, part, table, number));
        }
    }
    if let Some(number) = judge::log(k, left, right, parts.run) {
        return Some(log_fault(parts, number));
    }
    let number = judge::question(k, parts.question)?;
    let (item, sentence) = formula_fault(k, parts.question, FormulaKind::Question, number);
    Some(Fault {
        part: Part::Question,
        item,
        sentence,
    })
}

/// The piece with which a part is first refused: the shortest beginning of whole entries that is.
pub fn first_refused(
    bytes: &[u8],
    layout: (usize, usize),
    refused: impl Fn(&[u8]) -> bool,
) -> Item {
    let (head, entry) = layout;
    let ends = (head..=bytes.len()).step_by(entry.max(1));
    let mut beginnings = ends.map(|end| &bytes[..end]);
    match beginnings.position(refused) {
        Some(0) if head > 0 => Item::Head,
        Some(number) => Item::Entry(number),
        None => Item::Whole,
    }
}

/// The fault of a number of pairs.
fn pairs_fault(k: u8) -> Fault {
    Fault {
        part: Part::Pairs,
        item: Item::Head,
        sentence: format!("there are {k} pairs; a casebook has at most 15"),
    }
}

/// The fault of a table.
fn table_fault(k: u8, part: Part, table: &[u8], number: u32) -> Fault {
    let refused = |rows: &[u8]| judge::table(k, rows) == Some(number);
    let item = first_refused(table, part.layout(), refused);
    let sentence = match item {
        Item::Entry(row) => row_sentence(k, table, row, number),
        _ => format!("n is {}; a table has 1 to 64 states", states(table)),
    };
    Fault {
        part,
        item,
        sentence,
    }
}

/// What is wrong with a row, counted from 1.
fn row_sentence(k: u8, table: &[u8], number: usize, refusal: u32) -> String {
    let row_at = |number: usize| rows(table).nth(number.checked_sub(1)?);
    match (refusal, row_at(number), row_at(number - 1)) {
        (5, Some(row), _) => row_out_of_range(k, states(table), row),
        (6, Some(row), Some(before)) => format!(
            "{row} is not above the row before it, {before}; \
             rows rise strictly by from, label and to"
        ),
        (7, Some(row), _) => ninth_row(row.from.into()),
        _ => "with this row the table is too long; its record has a length of at most 1,539".into(),
    }
}

/// A row too many from one state.
pub fn ninth_row(state: usize) -> String {
    format!("it is a ninth row from state {state}; at most 8 rows leave one state")
}

/// Which of a row's bytes is out of range: each is put into a row of its own, beside zeros that are in range.
fn row_out_of_range(k: u8, n: u8, row: Row) -> String {
    let is_row = |from, label, to| judge::table(k, &[n, from, label, to]).is_none();
    if !is_row(row.from, 0, 0) {
        state_out_of_range("from", row.from.into(), n.into())
    } else if !is_row(0, row.label, 0) {
        label_out_of_range(k, row.label)
    } else {
        state_out_of_range("to", row.to.into(), n.into())
    }
}

/// A state that the table does not have.
pub fn state_out_of_range(role: &str, state: usize, n: usize) -> String {
    let states = counted(n, "state");
    format!("{role} {state} is out of range; the table has {states}, counted from 0")
}

/// A label that k pairs do not have.
pub fn label_out_of_range(k: u8, label: u8) -> String {
    let highest = judge::highest_label(k);
    format!("label {label} is out of range; with k {k} the labels are 0 to {highest}")
}

/// The fault of a log on sound tables.
fn log_fault(parts: &Casebook, number: u32) -> Fault {
    let judged = |run: &[u8]| judge::log(parts.k, parts.left, parts.right, run);
    let refused = |run: &[u8]| judged(run) == Some(number);
    let item = first_refused(parts.run, Part::Log.layout(), refused);
    let (left, right) = start_states(parts.run);
    let sentence = match item {
        Item::Entry(_) if number == UNFIT_LENGTH => {
            "with this step the log is too long; it has at most 200 steps".to_string()
        }
        Item::Entry(step) => step_sentence(parts.run, step),
        _ if judged(&[left, 0]).is_some() => start_out_of_range("left", left, parts.left),
        _ => start_out_of_range("right", right, parts.right),
    };
    Fault {
        part: Part::Log,
        item,
        sentence,
    }
}

/// A start state that its table does not have.
fn start_out_of_range(side: &str, state: u8, table: &[u8]) -> String {
    let states = counted(states(table).into(), "state");
    format!(
        "{side} start state {state} is out of range; the {side} table has {states}, counted from 0"
    )
}

/// What is wrong with a step, counted from 1.
fn step_sentence(run: &[u8], number: usize) -> String {
    let before = log(run).take(number - 1).last();
    let (p, q) = before.map_or(start_states(run), |step| (step.left, step.right));
    let step = log(run).nth(number - 1).map_or(String::new(), |step| {
        let label = match step.label {
            IDLE_LABEL => IDLE.to_string(),
            label => format!("label {label}"),
        };
        format!("{label} from ({p}, {q}) to ({}, {})", step.left, step.right)
    });
    format!(
        "{step} is not real; neither machine makes this step alone, \
         no handshake makes it, and it is no joint idle"
    )
}
