//! Formulas fitted to a run: they name the steps that it took and can take, so that their verdicts come out both ways.

use crate::formula::Formula;
use crate::generate::{open_steps, random_formula};
use crate::half::HalfRun;
use crate::label::{highest, IDLE};
use crate::random::Random;
use crate::run::JointRun;
use crate::table::Table;

/// A run of one or two machines, and which steps (label and target) may follow a state.
pub struct Fitted<'a, S> {
    k: u8,
    start: S,
    steps: Vec<(u8, S)>,
    next: Box<dyn Fn(S) -> Vec<(u8, S)> + 'a>,
}

/// Goes along a joint run stopped at a point.
pub fn along_joint<'a>(
    k: u8,
    left: &'a Table,
    right: &'a Table,
    run: &JointRun,
    point: usize,
) -> Fitted<'a, (u8, u8)> {
    let steps = run.steps[..point].iter();
    Fitted {
        k,
        start: (run.left, run.right),
        steps: steps.map(|s| (s.label, (s.left, s.right))).collect(),
        next: Box::new(move |(p, q)| {
            let open = open_steps(left, right, p, q).into_iter().flatten();
            open.map(|s| (s.label, (s.left, s.right))).collect()
        }),
    }
}

/// Goes along a half run stopped at a point.
pub fn along_half<'a>(k: u8, table: &'a Table, half: &HalfRun, point: usize) -> Fitted<'a, u8> {
    let steps = half.steps[..point].iter();
    Fitted {
        k,
        start: half.start,
        steps: steps.map(|s| (s.label, s.to)).collect(),
        next: Box::new(move |from| {
            let rows = table.rows_from(from).iter();
            let idle = [(IDLE, from)];
            rows.map(|row| (row.label, row.to)).chain(idle).collect()
        }),
    }
}

impl<S: Copy> Fitted<'_, S> {
    /// A formula with exactly `nodes` nodes and forward modalities nested at most `nesting` deep; most of its
    /// modalities name a step that is there.
    pub fn formula(&mut self, random: &mut Random, nodes: usize, nesting: usize) -> Formula {
        if nodes == 1 {
            let leaves = [Formula::True, Formula::True, Formula::True, Formula::False];
            return random.pick(&leaves).clone();
        }
        match random.below(12) {
            0..=3 if nodes >= 3 => self.two_operands(random, nodes, nesting),
            0..=4 => Formula::Not(Box::new(self.formula(random, nodes - 1, nesting))),
            // Now and then what may be there or not.
            5 => random_formula(random, self.k, nodes, nesting),
            6..=8 if nesting > 0 => self.ahead(random, nodes, nesting),
            _ => self.back(random, nodes, nesting),
        }
    }

    /// "And" or "or" over two formulas about the same run.
    fn two_operands(&mut self, random: &mut Random, nodes: usize, nesting: usize) -> Formula {
        let first = random.from_to(1, nodes - 2);
        let a = Box::new(self.formula(random, first, nesting));
        let b = Box::new(self.formula(random, nodes - 1 - first, nesting));
        match random.below(2) {
            0 => Formula::And(a, b),
            _ => Formula::Or(a, b),
        }
    }

    /// A forward modality along one of the steps that may follow.
    fn ahead(&mut self, random: &mut Random, nodes: usize, nesting: usize) -> Formula {
        let last = self.steps.last().map_or(self.start, |step| step.1);
        let step = *random.pick(&(self.next)(last));
        self.steps.push(step);
        let operand = Box::new(self.formula(random, nodes - 1, nesting - 1));
        self.steps.pop();
        match step.0 {
            IDLE => Formula::ForwardIdle(operand),
            label => Formula::Forward(label, operand),
        }
    }

    /// A back modality along the last step; on an empty run along any.
    fn back(&mut self, random: &mut Random, nodes: usize, nesting: usize) -> Formula {
        let last = self.steps.pop();
        let operand = Box::new(self.formula(random, nodes - 1, nesting));
        self.steps.extend(last);
        match last {
            Some((IDLE, _)) => Formula::BackIdle(operand),
            Some((label, _)) => Formula::Back(label, operand),
            None if random.once_in(3) => Formula::BackIdle(operand),
            None => Formula::Back(random.byte(0, highest(self.k)), operand),
        }
    }
}
