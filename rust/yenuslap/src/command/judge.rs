//! What the engine says of one part alone: the other parts of the call are the least sound ones.

use yenuslap::{count_splittings, half_verdict, join, joint_verdict, write_casebook, Refusal};

use super::contents::IDLE_LABEL;

/// A table of one state without rows.
pub const LEAST_TABLE: [u8; 1] = [1];
/// A log without steps.
pub const LEAST_LOG: [u8; 2] = [0, 0];
/// The formula that is true.
pub const TRUE: [u8; 2] = [0, 0];
/// The most pairs, with which every label is there that a casebook may have.
const MOST_PAIRS: u8 = 15;
/// The number of a log with too many splittings, which is sound all the same.
const TOO_MANY_SPLITTINGS: u32 = 13;
/// The number of an output that is too short, which is looked at last.
const SHORT_OUTPUT: u32 = 18;

/// The number under which the number of pairs is refused.
pub fn pairs(k: u8) -> Option<u32> {
    log(k, &LEAST_TABLE, &LEAST_TABLE, &LEAST_LOG)
}

/// The number under which a table is refused.
pub fn table(k: u8, table: &[u8]) -> Option<u32> {
    log(k, table, &LEAST_TABLE, &LEAST_LOG)
}

/// The number under which a log on these tables, or one of them, is refused.
pub fn log(k: u8, left: &[u8], right: &[u8], run: &[u8]) -> Option<u32> {
    let number = number_of(count_splittings(k, left, right, run));
    number.filter(|number| *number != TOO_MANY_SPLITTINGS)
}

/// Has the log over 65,535 splittings?
pub fn has_too_many_splittings(k: u8, left: &[u8], right: &[u8], run: &[u8]) -> bool {
    number_of(count_splittings(k, left, right, run)) == Some(TOO_MANY_SPLITTINGS)
}

/// The number under which a formula of a verdict is refused.
pub fn formula(k: u8, formula: &[u8]) -> Option<u32> {
    let (table, run) = (&LEAST_TABLE, &LEAST_LOG);
    number_of(joint_verdict(k, table, table, run, formula, 0))
}

/// The number under which a casebook's question is refused: an output of no bytes is refused last.
pub fn question(k: u8, question: &[u8]) -> Option<u32> {
    let (table, run) = (&LEAST_TABLE, &LEAST_LOG);
    let number = number_of(write_casebook(k, table, table, run, question, &mut []));
    number.filter(|number| *number != SHORT_OUTPUT)
}

/// The number under which a half run of a table is refused; the table is sound.
pub fn half(k: u8, table: &[u8], half: &[u8]) -> Option<u32> {
    number_of(half_verdict(k, table, half, &TRUE, 0))
}

/// Can the label stand in a row?
pub fn is_label(k: u8, label: u8) -> bool {
    table(k, &[1, 0, label, 0]).is_none()
}

/// The highest label that a row may have; the lowest is 0.
pub fn highest_label(k: u8) -> u8 {
    let mut labels = (0..IDLE_LABEL).rev();
    labels.find(|label| is_label(k, *label)).unwrap_or(0)
}

/// Do the two labels shake hands? Two machines of one state with a row each are joined for it.
pub fn are_partners(k: u8, first: u8, second: u8) -> bool {
    let (left, right) = ([1, 0, first, 0], [1, 0, second, 0]);
    let (left_half, right_half) = ([0, first, 0], [0, second, 0]);
    let mut out = [0; 5];
    join(k, &left, &right, &left_half, &right_half, &mut out).is_ok()
}

/// Is there such an operator? With as many operands as it takes it is a formula.
pub fn is_operator(operator: u8) -> bool {
    is_node(MOST_PAIRS, operator, 0)
}

/// Does the operator take a label?
pub fn takes_label(operator: u8) -> bool {
    is_node(MOST_PAIRS, operator, 1)
}

/// Is there a formula that begins with this node?
pub fn is_node(k: u8, operator: u8, label: u8) -> bool {
    let node = [operator, label, 0, 0, 0, 0];
    [2, 4, 6]
        .iter()
        .any(|end| formula(k, &node[..*end]).is_none())
}

/// The number of a refusal.
fn number_of<T>(answer: Result<T, Refusal>) -> Option<u32> {
    answer.err().map(Refusal::number)
}
