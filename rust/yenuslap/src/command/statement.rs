//! Formulas as text: the usual notation with angle brackets.

use super::operators::{operator, Form, Operator};

/// What is still to be printed.
enum Due {
    /// The next tree, in parentheses if it binds less tightly than this.
    Tree(u8),
    /// A text between trees.
    Text(&'static str),
}

/// How tightly "or", "and", and a single operand bind.
const OR: u8 = 0;
const AND: u8 = 1;
const TIGHT: u8 = 2;

/// A formula in the usual notation, with as few parentheses as keep its tree. The work is kept in a list and not on the
/// stack, since quotients may nest as deep as they have nodes.
pub fn notation(formula: &[u8]) -> String {
    let mut text = String::new();
    let mut nodes = formula.chunks_exact(2);
    let mut due = vec![Due::Tree(OR)];
    while let Some(next) = due.pop() {
        match next {
            Due::Text(between) => text.push_str(between),
            Due::Tree(tightness) => {
                if let Some(node) = nodes.next() {
                    tree(node[0], node[1], tightness, &mut text, &mut due);
                }
            }
        }
    }
    text
}

/// Prints a node as far as it stands before its first operand, and notes what follows.
fn tree(byte: u8, label: u8, tightness: u8, text: &mut String, due: &mut Vec<Due>) {
    let Some(operator) = operator(byte) else {
        return text.push_str(&format!("?{byte}"));
    };
    let own = binding(operator);
    if own < tightness {
        text.push('(');
        due.push(Due::Text(")"));
    }
    match operator.form {
        Form::Leaf => text.push_str(operator.word),
        Form::Two => {
            // The second operand may bind as loosely as this node: "and" and "or" go to the right.
            due.push(Due::Tree(own));
            due.push(Due::Text(" "));
            due.push(Due::Text(operator.word));
            due.push(Due::Text(" "));
            due.push(Due::Tree(own + 1));
        }
        Form::One => {
            text.push_str(operator.word);
            text.push(' ');
            due.push(Due::Tree(TIGHT));
        }
        Form::Modality { back, labelled } => {
            text.push_str(&modality(back, labelled.then_some(label)));
            text.push(' ');
            due.push(Due::Tree(TIGHT));
        }
    }
}

/// A modality by a label, or by an idle.
fn modality(back: bool, label: Option<u8>) -> String {
    let sign = if back { "-" } else { "" };
    match label {
        Some(label) => format!("<{sign}{label}>"),
        None => format!("<{sign}{IDLE}>"),
    }
}

/// The word for an idle.
pub const IDLE: &str = "idle";

/// How tightly a node's operator binds.
pub fn binding(operator: &Operator) -> u8 {
    match (operator.form, operator.word) {
        (Form::Two, "or") => OR,
        (Form::Two, _) => AND,
        _ => TIGHT,
    }
}
