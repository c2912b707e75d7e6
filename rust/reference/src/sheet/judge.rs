//! Verdicts for a quick sheet: formulas in prefix order, runs in arrays that are lent on and never copied.

use crate::label::IDLE;
use crate::run::MOST_STEPS;
use crate::verdict::System;

/// Operators, by their numbers.
pub const TRUE: u8 = 0;
pub const FALSE: u8 = 1;
pub const NOT: u8 = 2;
pub const AND: u8 = 3;
pub const OR: u8 = 4;
pub const FORWARD: u8 = 5;
pub const BACK: u8 = 6;
pub const FORWARD_IDLE: u8 = 7;
pub const BACK_IDLE: u8 = 8;

/// A node of a formula in prefix order.
#[derive(Clone, Copy, PartialEq, Eq, Debug)]
pub struct Node {
    pub operator: u8,
    pub label: u8,
    /// How far behind this node its second operand begins; 0 if it has none.
    pub skip: u16,
}

/// The longest run, and the four steps by which looking ahead may make it longer.
const ROOM: usize = MOST_STEPS + 4;

/// A run: step n has label n and leads from state n to state n + 1. How much of it counts is said in each call.
pub struct Trail<S> {
    pub labels: [u8; ROOM],
    pub states: [S; ROOM + 1],
}

impl<S: Copy> Trail<S> {
    /// A run from a state along the targets of its steps; its labels are still to be set.
    pub fn along(start: S, targets: impl Iterator<Item = S>) -> Trail<S> {
        let mut states = [start; ROOM + 1];
        for (state, target) in states[1..].iter_mut().zip(targets) {
            *state = target;
        }
        Trail {
            labels: [IDLE; ROOM],
            states,
        }
    }

    /// Does something with the run of this length made longer by a step; the run is the same afterwards.
    pub fn longer<T>(
        &mut self,
        length: usize,
        label: u8,
        to: S,
        act: impl FnOnce(&mut Self) -> T,
    ) -> T {
        let kept = (self.labels[length], self.states[length + 1]);
        (self.labels[length], self.states[length + 1]) = (label, to);
        let done = act(self);
        (self.labels[length], self.states[length + 1]) = kept;
        done
    }
}

/// Whether the tree that begins at a node holds on the first steps of a run, which is the same afterwards. What needs
/// one operand's verdict alone goes on in the loop; "not" is remembered.
pub fn holds<M: System>(
    system: &M,
    run: &mut Trail<M::State>,
    mut length: usize,
    formula: &[Node],
    mut at: usize,
) -> bool {
    let mut negated = false;
    loop {
        let Node {
            operator,
            label,
            skip,
        } = formula[at];
        at += 1;
        match operator {
            TRUE => return !negated,
            FALSE => return negated,
            NOT => negated = !negated,
            AND | OR => {
                if holds(system, run, length, formula, at) == (operator == OR) {
                    return (operator == OR) != negated;
                }
                at += skip as usize - 1;
            }
            FORWARD => {
                let from = run.states[length];
                let judge = |run: &mut Trail<_>| holds(system, run, length + 1, formula, at);
                let after = |to| run.longer(length, label, to, judge);
                return system.some_step(from, label, after) != negated;
            }
            FORWARD_IDLE => {
                let to = run.states[length];
                let judge = |run: &mut Trail<_>| holds(system, run, length + 1, formula, at);
                return run.longer(length, IDLE, to, judge) != negated;
            }
            _ => {
                let wanted = if operator == BACK { label } else { IDLE };
                if length == 0 || run.labels[length - 1] != wanted {
                    return negated;
                }
                length -= 1;
            }
        }
    }
}
