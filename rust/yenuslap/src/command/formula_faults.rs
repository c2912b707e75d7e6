//! Where in a refused formula the fault lies.
//!
//! A beginning of a formula is in order exactly if some number of `true`s makes a formula of it, so the engine is asked
//! about such completions. Each node changes the number of operands due by at most one, so three are tried for each.

use super::contents::NODE;
use super::faults::{label_out_of_range, Item};
use super::judge::{self, TRUE};
use super::words::counted;

/// Where a formula stands, which says how many nodes it may have.
#[derive(Clone, Copy, PartialEq, Eq, Debug)]
pub enum FormulaKind {
    /// A casebook's question.
    Question,
    /// A formula that a verdict is asked for.
    Formula,
}

impl FormulaKind {
    /// The number under which the engine refuses such a formula.
    fn judge(self, k: u8, formula: &[u8]) -> Option<u32> {
        match self {
            FormulaKind::Question => judge::question(k, formula),
            FormulaKind::Formula => judge::formula(k, formula),
        }
    }

    /// The limit of nodes, in words.
    fn limit(self) -> &'static str {
        match self {
            FormulaKind::Question => "a question has at most 64 nodes",
            FormulaKind::Formula => "a formula has at most 4,096 nodes",
        }
    }
}

/// The number of a formula that is no formula.
const NO_FORMULA: u32 = 9;

/// The fault of a formula that is refused under this number: the node, and a sentence.
pub fn formula_fault(k: u8, formula: &[u8], kind: FormulaKind, number: u32) -> (Item, String) {
    let mut due = 1;
    for node in 1..=formula.len() / NODE {
        let completed = complete(k, &formula[..NODE * node], kind, due);
        match completed {
            None => {
                return (
                    Item::Entry(node),
                    node_sentence(k, formula, node, kind, due),
                )
            }
            Some((_, Some(refusal))) if refusal == number => {
                return (Item::Entry(node), too_deep())
            }
            Some((after, _)) => due = after,
        }
    }
    let due = counted(due, "operand");
    let sentence = format!("the nodes end with {due} still due; a question is one whole tree");
    (Item::Whole, sentence)
}

/// How many operands a beginning leaves due, and the number other than 9 under which it is then refused; none if no
/// completion makes a formula of it.
fn complete(
    k: u8,
    beginning: &[u8],
    kind: FormulaKind,
    due: usize,
) -> Option<(usize, Option<u32>)> {
    let around = due.saturating_sub(1)..=due + 1;
    let answers = around.map(|after| (after, kind.judge(k, &with_trues(beginning, after))));
    let mut formulas = answers.filter(|(_, number)| *number != Some(NO_FORMULA));
    formulas.next()
}

/// A beginning of a formula with so many `true`s behind it.
fn with_trues(beginning: &[u8], count: usize) -> Vec<u8> {
    [beginning, &TRUE.repeat(count)].concat()
}

/// Why a node cannot stand where it stands.
fn node_sentence(k: u8, formula: &[u8], number: usize, kind: FormulaKind, due: usize) -> String {
    let node = &formula[NODE * (number - 1)..NODE * number];
    let (operator, label) = (node[0], node[1]);
    if due == 0 {
        "the tree is whole before this node; a question is one whole tree".to_string()
    } else if !judge::is_operator(operator) {
        format!("operator {operator} is out of range; operators are 0 to 8")
    } else if judge::is_node(k, operator, label) {
        format!("with this node the tree is too large; {}", kind.limit())
    } else if judge::takes_label(operator) {
        label_out_of_range(k, label)
    } else {
        format!("operator {operator} takes no label, but its label byte is {label}; it must be 0")
    }
}

/// Why a node nests too deep.
fn too_deep() -> String {
    "it is a forward modality under four others; forward modalities nest at most 4 deep".to_string()
}
