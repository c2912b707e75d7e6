//! Quotients: what a question asks of the other half run when one half run is known, by document 01's table 1.

use crate::cut::{cut, Side};
use crate::formula::{read_formula, Formula, QUESTION_NODES, QUOTIENT_NODES};
use crate::half::{read_half, HalfRun, HalfStep};
use crate::label::{check_k, partner, IDLE, SILENT};
use crate::run::{read_run_and_ways, JointRun};
use crate::splitting::{joined, numbered};
use crate::table::{read_table, Row, Table};
use crate::verdict::{half_holds, joint_holds, Both};
use crate::Refusal;

/// What a quotient is asked about: two machines with k pairs and a question, as bytes.
#[derive(Clone, Copy, PartialEq, Eq, Debug)]
pub struct Asked<'a> {
    pub k: u8,
    pub left: &'a [u8],
    pub right: &'a [u8],
    pub question: &'a [u8],
}

/// Which half is known, and the point at which it stops.
#[derive(Clone, Copy, PartialEq, Eq, Debug)]
pub struct Known {
    pub side: Side,
    pub point: usize,
}

/// The quotient by the known one of two halves (left, right), for an output of `room` bytes, or the first of 4; left;
/// right; 9, 10; 12; 15; 16; 17; 18.
pub fn by_halves(
    asked: Asked,
    halves: [&[u8]; 2],
    known: Known,
    room: usize,
) -> Result<Vec<u8>, Refusal> {
    let (machines, question, halves, _) = read_given(asked, halves, known)?;
    let quotient = machines.quotient(&question, &halves, known)?;
    written(&quotient, room)
}

/// The quotient by the known half of the splitting of a number, for an output of `room` bytes, or the first of 4; left;
/// right; run; 9, 10; 12; 13; 14; 17; 18.
pub fn by_number(
    asked: Asked,
    run: &[u8],
    number: usize,
    known: Known,
    room: usize,
) -> Result<Vec<u8>, Refusal> {
    let machines = read_machines(asked)?;
    let (run, ways) = read_run_and_ways(run, &machines.left, &machines.right)?;
    let question = read_formula(asked.question, asked.k, QUESTION_NODES)?;
    if known.point > run.steps.len() {
        return Err(12);
    }
    let halves = numbered(&run, &ways, number)?;
    let quotient = machines.quotient(&question, &halves, known)?;
    written(&quotient, room)
}

/// The question's verdict on the joint run of two halves and the quotient's verdict on the other half, both stopped at
/// the point, or the first refusal of `by_halves` but for 18.
pub fn line_office(asked: Asked, halves: [&[u8]; 2], known: Known) -> Result<[bool; 2], Refusal> {
    let (machines, question, halves, run) = read_given(asked, halves, known)?;
    let quotient = machines.quotient(&question, &halves, known)?;
    let joint = joint_holds(&machines, &run, &question, known.point);
    let [left_half, right_half] = &halves;
    let other = if known.side.knows_left() {
        half_holds(&machines.right, right_half, &quotient, known.point)
    } else {
        half_holds(&machines.left, left_half, &quotient, known.point)
    };
    Ok([joint, other])
}

/// Reads k and the two tables, or gives the first of 4; left; right.
fn read_machines(asked: Asked) -> Result<Both, Refusal> {
    check_k(asked.k)?;
    let left = read_table(asked.left, asked.k)?;
    let right = read_table(asked.right, asked.k)?;
    Ok(Both { left, right })
}

/// Reads what a call with halves is given, and joins them, or gives the first of 4; left; right; 9, 10; 12; 15; 16.
fn read_given(
    asked: Asked,
    [left_half, right_half]: [&[u8]; 2],
    known: Known,
) -> Result<(Both, Formula, [HalfRun; 2], JointRun), Refusal> {
    let machines = read_machines(asked)?;
    let question = read_formula(asked.question, asked.k, QUESTION_NODES)?;
    // 12 as in a cut: judged on the known half's length alone, before the halves are known to be runs.
    cut(left_half, right_half, known.side, known.point)?;
    let left_half = read_half(left_half, &machines.left)?;
    let right_half = read_half(right_half, &machines.right)?;
    let run = joined(&left_half, &right_half)?;
    Ok((machines, question, [left_half, right_half], run))
}

impl Both {
    /// The question's quotient by the known half stopped at the point; 17 if its tree is too large.
    fn quotient(
        &self,
        question: &Formula,
        [left_half, right_half]: &[HalfRun; 2],
        known: Known,
    ) -> Result<Formula, Refusal> {
        let (table, half) = if known.side.knows_left() {
            (&self.left, left_half)
        } else {
            (&self.right, right_half)
        };
        let run = HalfRun {
            start: half.start,
            steps: half.steps[..known.point].to_vec(),
        };
        let nodes_left = QUOTIENT_NODES;
        let mut division = Division {
            table,
            run,
            nodes_left,
        };
        division.of(question).ok_or(17)
    }
}

/// The quotient's bytes; 18 if the output is too short for them.
fn written(quotient: &Formula, room: usize) -> Result<Vec<u8>, Refusal> {
    let bytes = quotient.to_bytes();
    if bytes.len() > room {
        return Err(18);
    }
    Ok(bytes)
}

/// A quotient under construction. Each node of the tree is taken from those that are left before its operands are
/// built, so the building ends at the first node over the limit, and never holds a larger tree.
struct Division<'a> {
    /// The known machine.
    table: &'a Table,
    /// The known half run; it shrinks and grows while the operands' quotients are built.
    run: HalfRun,
    nodes_left: usize,
}

impl Division<'_> {
    /// The quotient of a formula by the run, which is the same afterwards; nothing if there are not enough nodes left.
    fn of(&mut self, formula: &Formula) -> Option<Formula> {
        match formula {
            Formula::True => self.node(Formula::True),
            Formula::False => self.node(Formula::False),
            Formula::Not(a) => self.over(Formula::Not, |it| it.of(a)),
            Formula::And(a, b) => self.over_both(Formula::And, a, b),
            Formula::Or(a, b) => self.over_both(Formula::Or, a, b),
            Formula::Forward(label, a) => self.forward(*label, a),
            Formula::Back(label, a) => self.back(*label, a),
            Formula::ForwardIdle(a) => self.over(Formula::ForwardIdle, |it| it.after_idle(a)),
            Formula::BackIdle(a) => self.back_idle(a),
        }
    }

    /// A node without operands.
    fn node(&mut self, leaf: Formula) -> Option<Formula> {
        self.take_node()?;
        Some(leaf)
    }

    /// A node over the operand that is built after it.
    fn over(
        &mut self,
        node: impl FnOnce(Box<Formula>) -> Formula,
        operand: impl FnOnce(&mut Self) -> Option<Formula>,
    ) -> Option<Formula> {
        self.take_node()?;
        Some(node(Box::new(operand(self)?)))
    }

    /// A node over the quotients of two operands.
    fn over_both(
        &mut self,
        node: impl FnOnce(Box<Formula>, Box<Formula>) -> Formula,
        a: &Formula,
        b: &Formula,
    ) -> Option<Formula> {
        self.take_node()?;
        Some(node(Box::new(self.of(a)?), Box::new(self.of(b)?)))
    }

    /// Takes one node from those that are left.
    fn take_node(&mut self) -> Option<()> {
        self.nodes_left = self.nodes_left.checked_sub(1)?;
        Some(())
    }

    /// The quotient by the run with an idle.
    fn after_idle(&mut self, formula: &Formula) -> Option<Formula> {
        let to = self.run.last();
        self.after(HalfStep { label: IDLE, to }, formula)
    }

    /// The quotient by the run with a step.
    fn after(&mut self, step: HalfStep, formula: &Formula) -> Option<Formula> {
        self.run.steps.push(step);
        let quotient = self.of(formula);
        self.run.steps.pop();
        quotient
    }

    /// The quotient by the run without its last step, which it has.
    fn before(&mut self, formula: &Formula) -> Option<Formula> {
        let last = self.run.steps.pop();
        let quotient = self.of(formula);
        self.run.steps.extend(last);
        quotient
    }

    /// Forward by a label: the known half idles; then each of its rows that goes on, alone by this label or, if the
    /// step is silent, by a handshake. Rows rise by label, so silent ones come before those that shake hands.
    fn forward(&mut self, label: u8, operand: &Formula) -> Option<Formula> {
        let rows = self.table.rows_from(self.run.last()).iter();
        let idles = |it: &mut Self| it.after_idle(operand);
        let mut disjuncts = vec![self.over(|a| Formula::Forward(label, a), idles)?];
        for row in rows.filter(|row| row.label == label || label == SILENT) {
            // The "or" between this disjunct and the one before it.
            self.take_node()?;
            disjuncts.push(self.by_row(label, *row, operand)?);
        }
        let last = disjuncts.pop()?;
        let or = |rest, disjunct| Formula::Or(Box::new(disjunct), Box::new(rest));
        Some(disjuncts.into_iter().rev().fold(last, or))
    }

    /// The disjunct of a row: by the label itself the other half idles, by another one it shakes hands.
    fn by_row(&mut self, label: u8, row: Row, operand: &Formula) -> Option<Formula> {
        let step = HalfStep {
            label: row.label,
            to: row.to,
        };
        let after = |it: &mut Self| it.after(step, operand);
        match partner(row.label) {
            Some(answer) if row.label != label => self.over(|a| Formula::Forward(answer, a), after),
            _ => self.over(Formula::ForwardIdle, after),
        }
    }

    /// Back by a label: the known half idled, or took that step alone, or shook hands.
    fn back(&mut self, label: u8, operand: &Formula) -> Option<Formula> {
        let Some(last) = self.run.steps.last() else {
            return self.node(Formula::False);
        };
        let before = |it: &mut Self| it.before(operand);
        match (last.label, partner(last.label)) {
            (IDLE, _) => self.over(|a| Formula::Back(label, a), before),
            (own, _) if own == label => self.over(Formula::BackIdle, before),
            (_, Some(answer)) if label == SILENT => self.over(|a| Formula::Back(answer, a), before),
            _ => self.node(Formula::False),
        }
    }

    /// Back by idle: both halves idled.
    fn back_idle(&mut self, operand: &Formula) -> Option<Formula> {
        match self.run.steps.last() {
            Some(last) if last.label == IDLE => {
                self.over(Formula::BackIdle, |it| it.before(operand))
            }
            _ => self.node(Formula::False),
        }
    }
}

#[cfg(test)]
mod tests {
    use super::*;

    /// Case A's machines and log, and the halves of its splittings 0 and 1.
    const LEFT: [u8; 7] = [2, 0, 1, 1, 0, 3, 1];
    const RIGHT: [u8; 7] = [2, 0, 2, 1, 0, 4, 1];
    const RUN: [u8; 5] = [0, 0, 0, 1, 1];
    const HALVES: [&[u8]; 2] = [&[0, 1, 1], &[0, 2, 1]];
    const OTHER_HALVES: [&[u8]; 2] = [&[0, 3, 1], &[0, 4, 1]];

    /// Case A with a question.
    fn case_a(question: &[u8]) -> Asked<'_> {
        Asked {
            k: 2,
            left: &LEFT,
            right: &RIGHT,
            question,
        }
    }

    /// One state with loops of the labels 1 to 8.
    fn eight_loops() -> Vec<u8> {
        let loops = (1..=8).flat_map(|label| [0, label, 0]);
        [1].into_iter().chain(loops).collect()
    }

    /// The right half stopped at a point: document 01's cases name the right.
    fn right(point: usize) -> Known {
        let side = Side::Right;
        Known { side, point }
    }

    /// The left half stopped at a point.
    fn left(point: usize) -> Known {
        let side = Side::Left;
        Known { side, point }
    }

    /// The half that is known where no side is named, stopped at a point.
    fn unnamed(point: usize) -> Known {
        let side = Side::Unnamed;
        Known { side, point }
    }

    /// Case A's sheet, by halves and by number, and the left half as the known one.
    #[test]
    fn case_a_by_both() {
        let back = case_a(&[6, 0, 0, 0]);
        assert_eq!(by_halves(back, HALVES, right(0), 2), Ok(vec![1, 0]));
        assert_eq!(by_halves(back, HALVES, right(1), 4), Ok(vec![6, 1, 0, 0]));
        assert_eq!(by_number(back, &RUN, 0, right(1), 4), Ok(vec![6, 1, 0, 0]));
        assert_eq!(by_number(back, &RUN, 1, right(1), 4), Ok(vec![6, 3, 0, 0]));
        assert_eq!(by_halves(back, HALVES, left(1), 4), Ok(vec![6, 2, 0, 0]));
        assert_eq!(line_office(back, HALVES, left(1)), Ok([true, true]));
        assert_eq!(line_office(back, HALVES, right(0)), Ok([false, false]));
    }

    /// Case A with no side named: quotients and the line office are those by the left half.
    #[test]
    fn case_a_unnamed() {
        let back = case_a(&[6, 0, 0, 0]);
        for (number, halves, answer) in [(0, HALVES, 2), (1, OTHER_HALVES, 4)] {
            for known in [unnamed(1), left(1)] {
                let quotient = vec![6, answer, 0, 0];
                assert_eq!(by_halves(back, halves, known, 4), Ok(quotient.clone()));
                assert_eq!(by_number(back, &RUN, number, known, 4), Ok(quotient));
                assert_eq!(line_office(back, halves, known), Ok([true, true]));
            }
            for known in [unnamed(0), left(0)] {
                assert_eq!(by_halves(back, halves, known, 2), Ok(vec![1, 0]));
                assert_eq!(by_number(back, &RUN, number, known, 2), Ok(vec![1, 0]));
                assert_eq!(line_office(back, halves, known), Ok([false, false]));
            }
        }
    }

    /// Case A ahead with no side named: the left's rows in order, where the right has others.
    #[test]
    fn case_a_unnamed_ahead() {
        let silent = vec![4, 0, 5, 0, 0, 0, 4, 0, 5, 2, 0, 0, 5, 4, 0, 0];
        let one = vec![4, 0, 5, 1, 0, 0, 7, 0, 0, 0];
        let two = vec![5, 2, 0, 0];
        for (label, quotient) in [(0, silent), (1, one), (2, two)] {
            let question = [5, label, 0, 0];
            let (asked, room) = (case_a(&question), quotient.len());
            for known in [unnamed(0), left(0)] {
                assert_eq!(by_halves(asked, HALVES, known, room), Ok(quotient.clone()));
                assert_eq!(by_halves(asked, HALVES, known, room - 1), Err(18));
                let numbered = by_number(asked, &RUN, 0, known, room);
                assert_eq!(numbered, Ok(quotient.clone()));
                assert_eq!(line_office(asked, HALVES, known), Ok([true, true]));
            }
        }
    }

    /// With no side named 17 is about the left machine's rows; by a machine without rows the question stays as it is.
    #[test]
    fn unnamed_sizes() {
        let loops = eight_loops();
        let question = [[5, 0].repeat(3), [2, 0].repeat(3), vec![0, 0]].concat();
        let rows_left = Asked {
            k: 4,
            left: &loops,
            right: &[1],
            question: &question,
        };
        let rows_right = Asked {
            left: &[1],
            right: &loops,
            ..rows_left
        };
        let halves: [&[u8]; 2] = [&[0], &[0]];
        let room = 2 * QUOTIENT_NODES;
        for (asked, known) in [(rows_left, unnamed(0)), (rows_right, right(0))] {
            assert_eq!(by_halves(asked, halves, known, room), Err(17));
            assert_eq!(by_number(asked, &[0, 0], 0, known, room), Err(17));
            assert_eq!(line_office(asked, halves, known), Err(17));
        }
        for (asked, known) in [(rows_right, unnamed(0)), (rows_left, right(0))] {
            let same = Ok(question.clone());
            assert_eq!(by_halves(asked, halves, known, room), same);
            assert_eq!(by_number(asked, &[0, 0], 0, known, room), same);
            assert_eq!(line_office(asked, halves, known), Ok([false, false]));
        }
    }

    /// Looking ahead: the idle, then the rows in order, joined to the right.
    #[test]
    fn case_a_ahead() {
        let silent = [4, 0, 5, 0, 0, 0, 4, 0, 5, 1, 0, 0, 5, 3, 0, 0];
        let asked = case_a(&[5, 0, 0, 0]);
        assert_eq!(by_halves(asked, HALVES, right(0), 16), Ok(silent.into()));
        let two = [4, 0, 5, 2, 0, 0, 7, 0, 0, 0];
        let asked = case_a(&[5, 2, 0, 0]);
        assert_eq!(by_halves(asked, HALVES, right(0), 10), Ok(two.into()));
        assert_eq!(by_halves(asked, HALVES, right(0), 9), Err(18));
        assert_eq!(by_halves(asked, HALVES, right(1), 10), Ok(vec![5, 2, 0, 0]));
    }

    /// Document 01's case: nested forward by 0 where eight rows shake hands, over some times "not".
    #[test]
    fn sizes_at_the_limit() {
        let right_table = eight_loops();
        let size = |forwards: usize, nots: usize| {
            let question = [[5, 0].repeat(forwards), [2, 0].repeat(nots), vec![0, 0]].concat();
            let asked = Asked {
                k: 4,
                left: &[1],
                right: &right_table,
                question: &question,
            };
            by_halves(asked, [&[0], &[0]], right(0), 2 * QUOTIENT_NODES).map(|q| q.len() / 2)
        };
        assert_eq!(size(3, 2), Ok(3734));
        assert_eq!(size(3, 3), Err(17));
        // Over 400,000 nodes.
        assert_eq!(size(4, 59), Err(17));
    }

    /// 12 looks at the known half alone and comes before 15, 15 before 16, and the tree's size before the output's.
    #[test]
    fn refused_in_order() {
        let asked = case_a(&[0, 0]);
        let quotient =
            |halves: [&[u8]; 2], point, room| by_halves(asked, halves, right(point), room);
        assert_eq!(quotient([&[0], &[0, 2, 1]], 1, 2), Err(16));
        assert_eq!(quotient([&[0, 1], &[0, 2, 1]], 1, 2), Err(15));
        assert_eq!(quotient([&[0, 1, 1], &[0, 2]], 0, 2), Err(12));
        assert_eq!(quotient([&[9], &[9, 2, 1]], 2, 2), Err(12));
        assert_eq!(quotient([&[9], &[0, 2, 1]], 1, 2), Err(15));
        assert_eq!(quotient(HALVES, 1, 1), Err(18));
        assert_eq!(by_number(asked, &RUN, 2, right(2), 0), Err(12));
        assert_eq!(by_number(asked, &RUN, 2, right(1), 0), Err(14));
        assert_eq!(by_number(asked, &RUN, 1, right(1), 0), Err(18));
    }

    /// With no side named 12 looks at the left half alone, and where the right is named at the right half alone.
    #[test]
    fn beyond_the_known_half() {
        let asked = case_a(&[0, 0]);
        let refused = |halves: [&[u8]; 2], point, by_left, by_right| {
            for (known, number) in [
                (unnamed(point), by_left),
                (left(point), by_left),
                (right(point), by_right),
            ] {
                let quotient = by_halves(asked, halves, known, 2);
                assert_eq!(quotient, Err(number), "{halves:?}, {known:?}");
                let office = line_office(asked, halves, known);
                assert_eq!(office, Err(number), "{halves:?}, {known:?}");
            }
        };
        // One half of even length, which has no points.
        refused([&[0, 1], &[0, 2, 1]], 0, 12, 15);
        refused([&[0, 1, 1], &[0, 2]], 0, 15, 12);
        refused([&[], &[0]], 0, 12, 15);
        refused([&[0], &[]], 0, 15, 12);
        // One half a step shorter than the other: sound ones, then such as start in no state.
        refused([&[0], &[0, 2, 1]], 1, 12, 16);
        refused([&[0, 1, 1], &[0]], 1, 16, 12);
        refused([&[9], &[9, 2, 1]], 1, 12, 15);
        refused([&[9, 1, 1], &[9]], 1, 15, 12);
        // At a point that both have, and at one beyond both, no side makes a difference.
        refused([&[0], &[0, 2, 1]], 0, 16, 16);
        refused([&[0], &[0, 2, 1]], 2, 12, 12);
    }
}
