//! Verdicts: does a formula hold on a joint run or on a half run, stopped at a point?

use crate::cut::{cut, Side};
use crate::formula::{read_formula, Formula, QUOTIENT_NODES};
use crate::half::{read_half, HalfRun};
use crate::label::{check_k, partner, IDLE, SILENT};
use crate::run::{read_run, JointRun};
use crate::table::{read_table, Table};
use crate::Refusal;

/// The verdict on a joint run stopped at a point, or the first of 4; left; right; run; 9, 10; 12.
pub fn joint(
    k: u8,
    left: &[u8],
    right: &[u8],
    run: &[u8],
    formula: &[u8],
    point: usize,
) -> Result<bool, Refusal> {
    check_k(k)?;
    let left = read_table(left, k)?;
    let right = read_table(right, k)?;
    let run = read_run(run, &left, &right)?;
    let formula = read_formula(formula, k, QUOTIENT_NODES)?;
    if point > run.steps.len() {
        return Err(12);
    }
    Ok(joint_holds(&Both { left, right }, &run, &formula, point))
}

/// The verdict on a half run stopped at a point, or the first of 4; table; 9, 10; 12; 15.
pub fn half(
    k: u8,
    table: &[u8],
    half: &[u8],
    formula: &[u8],
    point: usize,
) -> Result<bool, Refusal> {
    check_k(k)?;
    let table = read_table(table, k)?;
    let formula = read_formula(formula, k, QUOTIENT_NODES)?;
    // 12 as in a cut: judged on the half's length alone, before the half is known to be a run. It is lent as both, so
    // the side does not matter.
    cut(half, half, Side::Left, point)?;
    let half = read_half(half, &table)?;
    Ok(half_holds(&table, &half, &formula, point))
}

/// Whether the formula holds on the joint run's first `point` steps, which it has.
pub(crate) fn joint_holds(both: &Both, run: &JointRun, formula: &Formula, point: usize) -> bool {
    holds(both, &mut joint_walk(run, point), formula)
}

/// Whether the formula holds on the half run's first `point` steps, which it has.
pub(crate) fn half_holds(table: &Table, half: &HalfRun, formula: &Formula, point: usize) -> bool {
    holds(table, &mut half_walk(half, point), formula)
}

/// One machine, or two side by side, as a verdict sees them: which steps of a label leave a state.
pub(crate) trait System {
    /// A state, or a pair of states.
    type State: Copy;

    /// Whether `leads` says yes to the target of one of the steps of this label from a state.
    fn some_step(
        &self,
        from: Self::State,
        label: u8,
        leads: impl FnMut(Self::State) -> bool,
    ) -> bool;
}

impl System for Table {
    type State = u8;

    fn some_step(&self, from: u8, label: u8, mut leads: impl FnMut(u8) -> bool) -> bool {
        let mut rows = self.rows_from(from).iter();
        rows.any(|row| row.label == label && leads(row.to))
    }
}

/// Two machines side by side.
pub(crate) struct Both {
    pub left: Table,
    pub right: Table,
}

impl System for Both {
    type State = (u8, u8);

    fn some_step(
        &self,
        (p, q): (u8, u8),
        label: u8,
        mut leads: impl FnMut((u8, u8)) -> bool,
    ) -> bool {
        let left_alone = |to| leads((to, q));
        if self.left.some_step(p, label, left_alone) {
            return true;
        }
        let right_alone = |to| leads((p, to));
        if self.right.some_step(q, label, right_alone) {
            return true;
        }
        label == SILENT && self.some_handshake((p, q), leads)
    }
}

impl Both {
    /// Whether `leads` says yes to the target of one of the handshakes from (p, q).
    fn some_handshake(&self, (p, q): (u8, u8), mut leads: impl FnMut((u8, u8)) -> bool) -> bool {
        let mut rows = self.left.rows_from(p).iter();
        rows.any(|row| match partner(row.label) {
            Some(answer) => self.right.some_step(q, answer, |to| leads((row.to, to))),
            None => false,
        })
    }
}

/// One step as a verdict sees it: its label (255 for an idle) and where it leads.
#[derive(Clone, Copy)]
struct Step<S> {
    label: u8,
    to: S,
}

/// The run that a verdict is about; it shrinks and grows while its operands are judged.
struct Walk<S> {
    start: S,
    steps: Vec<Step<S>>,
}

impl<S: Copy> Walk<S> {
    /// The state in which the run ends.
    fn last(&self) -> S {
        self.steps.last().map_or(self.start, |step| step.to)
    }
}

/// The joint run up to a point.
fn joint_walk(run: &JointRun, point: usize) -> Walk<(u8, u8)> {
    let steps = run.steps[..point].iter().map(|step| Step {
        label: step.label,
        to: (step.left, step.right),
    });
    Walk {
        start: (run.left, run.right),
        steps: steps.collect(),
    }
}

/// The half run up to a point.
fn half_walk(half: &HalfRun, point: usize) -> Walk<u8> {
    let steps = half.steps[..point].iter().map(|step| Step {
        label: step.label,
        to: step.to,
    });
    Walk {
        start: half.start,
        steps: steps.collect(),
    }
}

/// Whether the formula holds on the run, which is the same afterwards.
fn holds<S: System>(system: &S, run: &mut Walk<S::State>, formula: &Formula) -> bool {
    match formula {
        Formula::True => true,
        Formula::False => false,
        Formula::Not(a) => !holds(system, run, a),
        Formula::And(a, b) => holds(system, run, a) && holds(system, run, b),
        Formula::Or(a, b) => holds(system, run, a) || holds(system, run, b),
        Formula::Forward(label, a) => {
            let from = run.last();
            let longer = |to| holds_after(system, run, Step { label: *label, to }, a);
            system.some_step(from, *label, longer)
        }
        Formula::ForwardIdle(a) => {
            let to = run.last();
            holds_after(system, run, Step { label: IDLE, to }, a)
        }
        Formula::Back(label, a) => holds_before(system, run, *label, a),
        Formula::BackIdle(a) => holds_before(system, run, IDLE, a),
    }
}

/// Whether the formula holds on the run made longer by a step.
fn holds_after<S: System>(
    system: &S,
    run: &mut Walk<S::State>,
    step: Step<S::State>,
    formula: &Formula,
) -> bool {
    run.steps.push(step);
    let verdict = holds(system, run, formula);
    run.steps.pop();
    verdict
}

/// Whether the last step has this label and the formula holds on the run without it.
fn holds_before<S: System>(
    system: &S,
    run: &mut Walk<S::State>,
    label: u8,
    formula: &Formula,
) -> bool {
    match run.steps.pop() {
        None => false,
        Some(step) => {
            let verdict = step.label == label && holds(system, run, formula);
            run.steps.push(step);
            verdict
        }
    }
}

#[cfg(test)]
mod tests {
    use super::*;

    /// Left has 0 -1-> 1, right has 0 -2-> 1, and the run is their handshake.
    fn handshake(formula: &[u8], point: usize) -> Result<bool, Refusal> {
        joint(
            1,
            &[2, 0, 1, 1],
            &[2, 0, 2, 1],
            &[0, 0, 0, 1, 1],
            formula,
            point,
        )
    }

    /// A handshake is a silent step, forward and back.
    #[test]
    fn handshakes_are_silent() {
        assert_eq!(handshake(&[5, 0, 0, 0], 0), Ok(true));
        assert_eq!(handshake(&[6, 0, 0, 0], 1), Ok(true));
        assert_eq!(handshake(&[6, 1, 0, 0], 1), Ok(false));
        assert_eq!(handshake(&[5, 0, 0, 0], 1), Ok(false));
        assert_eq!(handshake(&[0, 0], 2), Err(12));
    }

    /// Looking ahead, back and ahead again leaves the run as it was.
    #[test]
    fn looking_ahead_and_back() {
        // Forward by 1, back by 1, forward by 2, back by 2: at the start again, where no back modality holds.
        let around = [5, 1, 6, 1, 5, 2, 6, 2];
        assert_eq!(handshake(&[&around[..], &[0, 0]].concat(), 0), Ok(true));
        assert_eq!(
            handshake(&[&around[..], &[6, 0, 0, 0]].concat(), 0),
            Ok(false)
        );
        // After a failed look ahead the second operand is judged on the same run.
        assert_eq!(
            handshake(&[4, 0, 5, 1, 1, 0, 2, 0, 6, 1, 0, 0], 0),
            Ok(true)
        );
    }

    /// A half run of even length has no points; 12 comes before 15.
    #[test]
    fn halves_are_judged_point_first() {
        let verdict = |bytes: &[u8], point| half(1, &[2, 0, 1, 1], bytes, &[6, 1, 0, 0], point);
        assert_eq!(verdict(&[0, 1, 1], 1), Ok(true));
        assert_eq!(verdict(&[0, 1, 1], 0), Ok(false));
        assert_eq!(verdict(&[0, 1, 1], 2), Err(12));
        assert_eq!(verdict(&[0, 1], 0), Err(12));
        assert_eq!(verdict(&[0, 1, 0], 2), Err(12));
        assert_eq!(verdict(&[0, 1, 0], 0), Err(15));
    }
}
