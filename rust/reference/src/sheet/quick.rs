//! The sheet as an expert would write it for speed: all is checked once, a joint verdict is found once a point, a quotient
//! and the left half's verdict once for all splittings that have the steps before the point in common.

use std::io::{self, Write};

use super::division::{Division, Question};
use super::judge::{holds, Trail};
use super::lines::Lines;
use crate::casebook;
use crate::run::{read_run_and_ways, JointRun, JointStep, Way};
use crate::splitting::{counts_from, half_labels};
use crate::table::read_table;
use crate::verdict::Both;
use crate::Refusal;

/// Writes the sheet of a casebook.
pub fn write_sheet(bytes: &[u8], out: &mut dyn Write) -> io::Result<()> {
    match Case::read(bytes) {
        Ok(case) => case.write(out),
        Err(number) => out.write_all(format!("R {number}\n").as_bytes()),
    }
}

/// A casebook that was read, with what its sheet needs of it.
struct Case {
    machines: Both,
    run: JointRun,
    /// The labels of the left and the right half in each way of each step.
    ways: Vec<Vec<[u8; 2]>>,
    /// The steps with more than one way.
    several: Vec<usize>,
    /// How many splittings there are from each step on, and behind the last step one.
    counts: Vec<usize>,
    question: Question,
}

impl Case {
    /// Reads a casebook and counts its splittings: 1 to 11, then 13.
    fn read(bytes: &[u8]) -> Result<Case, Refusal> {
        let book = casebook::read(bytes)?;
        let [_, left, right, run, question] = book.bodies;
        let left = read_table(&bytes[left], book.k)?;
        let right = read_table(&bytes[right], book.k)?;
        let (run, ways) = read_run_and_ways(&bytes[run], &left, &right)?;
        let counts = counts_from(&ways)?;
        let labels = |(step, ways): (&JointStep, &Vec<Way>)| {
            let each = ways.iter().map(|way| half_labels(step.label, *way));
            each.collect()
        };
        let several = (0..ways.len()).filter(|step| ways[*step].len() > 1);
        Ok(Case {
            several: several.collect(),
            ways: run.steps.iter().zip(&ways).map(labels).collect(),
            machines: Both { left, right },
            run,
            counts,
            question: Question::of(&bytes[question]),
        })
    }

    /// Writes all lines.
    fn write(&self, out: &mut dyn Write) -> io::Result<()> {
        let mut joint = self.joint_trail();
        let mut halves = Halves::first(self);
        let mut division = Division::new(&self.machines.right, &self.question);
        let mut lines = Lines::new(out);
        for point in 0..=self.run.steps.len() {
            let question = &self.question.nodes;
            let verdict = holds(&self.machines, &mut joint, point, question, 0);
            lines.set_point(point, verdict);
            let alike = self.counts[point];
            let before = self.several.partition_point(|step| *step < point);
            for _ in 0..self.counts[0] / alike {
                match division.quotient(&mut halves.right, point) {
                    None => lines.set_refused(),
                    Some(quotient) => {
                        let left = &mut halves.left;
                        let verdict = holds(&self.machines.left, left, point, quotient, 0);
                        lines.set_quotient(quotient, verdict);
                    }
                }
                lines.write(alike)?;
                halves.step(&self.ways, &self.several[..before]);
            }
        }
        lines.flush()
    }

    /// The log as a trail.
    fn joint_trail(&self) -> Trail<(u8, u8)> {
        let steps = &self.run.steps;
        let targets = steps.iter().map(|step| (step.left, step.right));
        let mut trail = Trail::along((self.run.left, self.run.right), targets);
        for (label, step) in trail.labels.iter_mut().zip(steps) {
            *label = step.label;
        }
        trail
    }
}

/// The halves of a splitting. Their states are the same in every splitting; the labels are those of the chosen ways.
struct Halves {
    chosen: Vec<usize>,
    left: Trail<u8>,
    right: Trail<u8>,
}

impl Halves {
    /// The halves of the first splitting.
    fn first(case: &Case) -> Halves {
        let steps = &case.run.steps;
        let mut halves = Halves {
            chosen: vec![0; steps.len()],
            left: Trail::along(case.run.left, steps.iter().map(|step| step.left)),
            right: Trail::along(case.run.right, steps.iter().map(|step| step.right)),
        };
        for (at, ways) in case.ways.iter().enumerate() {
            halves.set(at, ways[0]);
        }
        halves
    }

    /// Goes on to the next splitting, and from the last one to the first; the ways are chosen at these steps.
    fn step(&mut self, ways: &[Vec<[u8; 2]>], several: &[usize]) {
        for at in several.iter().rev().copied() {
            self.chosen[at] += 1;
            if self.chosen[at] < ways[at].len() {
                self.set(at, ways[at][self.chosen[at]]);
                return;
            }
            self.chosen[at] = 0;
            self.set(at, ways[at][0]);
        }
    }

    /// Sets the labels of both halves at a step.
    fn set(&mut self, at: usize, [left, right]: [u8; 2]) {
        self.left.labels[at] = left;
        self.right.labels[at] = right;
    }
}
