//! Quotients for a quick sheet: counted where they might be too large, then written in prefix order.

use super::judge::{
    Node, Trail, AND, BACK, BACK_IDLE, FALSE, FORWARD, FORWARD_IDLE, NOT, OR, TRUE,
};
use crate::formula::QUOTIENT_NODES;
use crate::half::HalfStep;
use crate::label::{partner, IDLE, SILENT};
use crate::table::{Row, Table};

/// A question in prefix order.
pub struct Question {
    pub nodes: Vec<Node>,
    /// How many nodes each tree has that has no modality, and so passes through whole; 0 for the others.
    plain: Vec<usize>,
}

impl Question {
    /// The question of these bytes, which are one whole tree.
    pub fn of(bytes: &[u8]) -> Question {
        let pairs = bytes.chunks(2);
        let node = |pair: &[u8]| Node {
            operator: pair[0],
            label: pair[1],
            skip: 0,
        };
        let mut nodes: Vec<Node> = pairs.map(node).collect();
        let mut plain = vec![0; nodes.len()];
        let mut sizes = vec![1; nodes.len() + 1];
        // From the last node on, so that operands come before the trees that they are part of.
        for at in (0..nodes.len()).rev() {
            let first = at + 1;
            let second = first + sizes[first];
            match nodes[at].operator {
                TRUE | FALSE => plain[at] = 1,
                AND | OR => {
                    nodes[at].skip = (second - at) as u16;
                    sizes[at] = 1 + sizes[first] + sizes[second];
                    if plain[first] > 0 && plain[second] > 0 {
                        plain[at] = sizes[at];
                    }
                }
                operator => {
                    sizes[at] = 1 + sizes[first];
                    if operator == NOT && plain[first] > 0 {
                        plain[at] = sizes[at];
                    }
                }
            }
        }
        Question { nodes, plain }
    }

    /// No quotient by a machine is larger than this, capped a little over the limit.
    fn largest(&self, table: &Table, at: usize) -> usize {
        let Node {
            operator,
            label,
            skip,
        } = self.nodes[at];
        let largest = match operator {
            TRUE | FALSE => 1,
            AND | OR => 1 + self.largest(table, at + 1) + self.largest(table, at + skip as usize),
            FORWARD => {
                let rows = (0..table.states).map(|from| going_on(table, from, label).count());
                forward_size(rows.max().unwrap_or(0), self.largest(table, at + 1))
            }
            _ => 1 + self.largest(table, at + 1),
        };
        largest.min(QUOTIENT_NODES + 1)
    }
}

/// The rows that go on by a label: those of that label and, if it is silent, all.
fn going_on(table: &Table, from: u8, label: u8) -> impl Iterator<Item = &Row> + Clone {
    let rows = table.rows_from(from).iter();
    rows.filter(move |row| row.label == label || label == SILENT)
}

/// The size of a forward modality's quotient: a disjunct for the idle and one for each row, an "or" between each two.
fn forward_size(rows: usize, operand: usize) -> usize {
    (1 + rows) * (1 + operand) + rows
}

/// Division by one machine; its quotients are written one after the other into the same room.
pub struct Division<'a> {
    /// The known machine.
    table: &'a Table,
    question: &'a Question,
    always_fits: bool,
    tree: Vec<Node>,
}

impl<'a> Division<'a> {
    pub fn new(table: &'a Table, question: &'a Question) -> Division<'a> {
        Division {
            table,
            question,
            always_fits: question.largest(table, 0) <= QUOTIENT_NODES,
            tree: Vec::with_capacity(QUOTIENT_NODES),
        }
    }

    /// The question's quotient by the first steps of the known half; nothing if it has over 4,096 nodes.
    pub fn quotient(&mut self, run: &mut Trail<u8>, length: usize) -> Option<&[Node]> {
        if !self.always_fits {
            self.count(run, length, 0, QUOTIENT_NODES)?;
        }
        self.tree.clear();
        self.write(run, length, 0);
        Some(&self.tree)
    }

    /// What is left of so many nodes when the quotient of the tree at a node has taken its own; nothing if they are too
    /// few, said as soon as that is known.
    fn count(
        &self,
        run: &mut Trail<u8>,
        mut length: usize,
        mut at: usize,
        mut left: usize,
    ) -> Option<usize> {
        loop {
            let plain = self.question.plain[at];
            if plain > 0 {
                return left.checked_sub(plain);
            }
            let node = self.question.nodes[at];
            let operand = at + 1;
            if node.operator == FORWARD {
                return self.count_forward(run, length, node.label, operand, left);
            }
            left = left.checked_sub(1)?;
            at = operand;
            match node.operator {
                NOT => (),
                AND | OR => {
                    left = self.count(run, length, operand, left)?;
                    at = operand - 1 + node.skip as usize;
                }
                FORWARD_IDLE => {
                    let to = run.states[length];
                    let count = |run: &mut Trail<u8>| self.count(run, length + 1, operand, left);
                    return run.longer(length, IDLE, to, count);
                }
                _ => match shown_back(node, run, length) {
                    Some(_) => length -= 1,
                    None => return Some(left),
                },
            }
        }
    }

    /// The same for forward by a label.
    fn count_forward(
        &self,
        run: &mut Trail<u8>,
        length: usize,
        label: u8,
        operand: usize,
        mut left: usize,
    ) -> Option<usize> {
        let from = run.states[length];
        let rows = going_on(self.table, from, label);
        let (ors, plain) = (rows.clone().count(), self.question.plain[operand]);
        if plain > 0 {
            return left.checked_sub(forward_size(ors, plain));
        }
        // Every disjunct's root, and the "or" nodes.
        left = left.checked_sub(1 + 2 * ors)?;
        let idle = [(IDLE, from)].into_iter();
        for (label, to) in idle.chain(rows.map(|row| (row.label, row.to))) {
            let count = |run: &mut Trail<u8>| self.count(run, length + 1, operand, left);
            left = run.longer(length, label, to, count)?;
        }
        Some(left)
    }

    /// Writes the quotient, which fits, of the tree at a node of the question. Chains are written in the loop.
    fn write(&mut self, run: &mut Trail<u8>, mut length: usize, mut at: usize) {
        let question = self.question;
        loop {
            let plain = question.plain[at];
            if plain > 0 {
                return self.tree.extend_from_slice(&question.nodes[at..at + plain]);
            }
            let node = question.nodes[at];
            let operand = at + 1;
            at = operand;
            match node.operator {
                NOT => self.push(NOT, 0),
                AND | OR => {
                    let start = self.tree.len();
                    self.push(node.operator, 0);
                    self.write(run, length, operand);
                    self.second_operand_of(start);
                    at = operand - 1 + node.skip as usize;
                }
                FORWARD => return self.forward(run, length, node.label, operand),
                FORWARD_IDLE => {
                    let to = run.states[length];
                    let idle = HalfStep { label: IDLE, to };
                    return self.disjunct((FORWARD_IDLE, 0), run, length, idle, operand);
                }
                _ => match shown_back(node, run, length) {
                    Some((operator, label)) => {
                        self.push(operator, label);
                        length -= 1;
                    }
                    None => return self.push(FALSE, 0),
                },
            }
        }
    }

    /// Writes a node.
    fn push(&mut self, operator: u8, label: u8) {
        self.tree.push(Node {
            operator,
            label,
            skip: 0,
        });
    }

    /// The second operand of a node begins here.
    fn second_operand_of(&mut self, start: usize) {
        self.tree[start].skip = (self.tree.len() - start) as u16;
    }

    /// Forward by a label: the known half idles; then each of its rows that goes on, with an "or" before all disjuncts but
    /// the last.
    fn forward(&mut self, run: &mut Trail<u8>, length: usize, label: u8, operand: usize) {
        let from = run.states[length];
        let rows = going_on(self.table, from, label);
        // The disjunct that comes next; the known half idles in the first.
        let mut node = (FORWARD, label);
        let mut step = HalfStep {
            label: IDLE,
            to: from,
        };
        for row in rows {
            let start = self.tree.len();
            self.push(OR, 0);
            self.disjunct(node, run, length, step, operand);
            self.second_operand_of(start);
            node = match partner(row.label) {
                Some(answer) if row.label != label => (FORWARD, answer),
                _ => (FORWARD_IDLE, 0),
            };
            step = HalfStep {
                label: row.label,
                to: row.to,
            };
        }
        self.disjunct(node, run, length, step, operand);
    }

    /// Writes a node over the quotient by the known half with a step.
    fn disjunct(
        &mut self,
        (operator, label): (u8, u8),
        run: &mut Trail<u8>,
        length: usize,
        step: HalfStep,
        operand: usize,
    ) {
        self.push(operator, label);
        run.longer(length, step.label, step.to, |run| {
            self.write(run, length + 1, operand)
        });
    }
}

/// What a back modality becomes, over the quotient by the known half without its last step; nothing where it is false.
fn shown_back(node: Node, run: &Trail<u8>, length: usize) -> Option<(u8, u8)> {
    let last = *run.labels[..length].last()?;
    if last == IDLE {
        // The other half took that step, or idled as well.
        return Some((node.operator, node.label));
    }
    if node.operator == BACK_IDLE {
        return None;
    }
    if last == node.label {
        return Some((BACK_IDLE, 0));
    }
    let answer = partner(last).filter(|_| node.label == SILENT);
    answer.map(|answer| (BACK, answer))
}
