//! A small input for each number of "Who can cause a refusal" that the edges do not give (those are 13 and 17).

use super::cases::{case_a, halves, joined, parts_a, ROOM};
use super::show::{answer, verdict};
use crate::casebook::read;
use crate::cut::{cut, Side};
use crate::hex::{hex, unhex};
use crate::quotient::{by_number, Asked, Known};
use crate::splitting::count;
use crate::verdict::{half, joint};

/// What reading answers.
fn reading(name: &str, bytes: &[u8]) -> String {
    format!("{name}: {}", answer(read(bytes), |_| "read".to_string()))
}

/// Case A cut short, with one byte changed, or followed by another.
pub fn of_casebooks() -> Vec<String> {
    let whole = case_a();
    let changed = [
        ("first record of kind 2", 2, 2),
        ("first record of length 4", 0, 4),
        ("k 16", 4, 16),
        ("left table of 0 states", 9, 0),
        ("left table's second row equal to the first", 14, 1),
        ("left start state 2", 31, 2),
        ("step by 1 to states 1 and 1, which is not real", 33, 1),
        ("operator 9", 40, 9),
    ];
    let mut lines = vec![reading("case A without its last byte", &whole[..43])];
    for (name, at, byte) in changed {
        let mut bytes = whole.clone();
        bytes[at] = byte;
        lines.push(reading(&format!("case A, {name}"), &bytes));
    }
    let longer = [whole, vec![0]].concat();
    lines.push(reading("case A and a byte more", &longer));
    lines
}

/// 7: one state with rows of labels 0 to 8 to itself.
pub fn of_tables() -> Vec<String> {
    let rows: Vec<u8> = (0..=8).flat_map(|label| [0, label, 0]).collect();
    let nine = [vec![1], rows].concat();
    let counted = answer(count(4, &nine, &[1], &[0, 0]), |n| n.to_string());
    vec![format!("nine rows from one state: {counted}")]
}

/// Calls on case A's machines: 10, 12 and 14.
pub fn of_calls() -> Vec<String> {
    let a = parts_a();
    let judged =
        |question: &[u8], point| verdict(joint(a.k, &a.left, &a.right, &a.run, question, point));
    let asked = Asked {
        k: a.k,
        left: &a.left,
        right: &a.right,
        question: &a.question,
    };
    let right = Known {
        side: Side::Right,
        point: 1,
    };
    let nested = judged(&unhex("0500 0500 0500 0500 0500 0000"), 0);
    let beyond = judged(&a.question, 2);
    let numbered = by_number(asked, &a.run, 2, right, ROOM);
    let numbered = answer(numbered, |bytes| hex(&bytes));
    vec![
        format!("five nested forward by 0: {nested}"),
        format!("joint verdict at point 2 of a run of 1 step: {beyond}"),
        format!("splitting 2 of 2: {}", halves(&a, 2)),
        format!("quotient by splitting 2 of 2: {numbered}"),
    ]
}

/// Calls that are given halves: 12, 15, 16 and 18.
pub fn of_halves() -> Vec<String> {
    let a = parts_a();
    let [moved, answered, other] = [[0, 1, 1], [0, 2, 1], [0, 4, 1]];
    let cut = cut(&moved, &answered, Side::Right, 2).map_or(0, |part| part.len());
    let judged = verdict(half(a.k, &a.left, &answered, &a.question, 1));
    let join = |right: &[u8], room| joined(&a, &moved, right, room);
    vec![
        format!("cut of the half 000201 at point 2, bytes: {cut}"),
        format!("left half 000201, which the left table has not: {judged}"),
        format!("halves 000101 and 000401, joined: {}", join(&other, 5)),
        format!(
            "halves 000101 and 000201, joined, 4 bytes lent: {}",
            join(&answered, 4)
        ),
        format!(
            "halves 000101 and 000201, joined, 5 bytes lent: {}",
            join(&answered, 5)
        ),
    ]
}
