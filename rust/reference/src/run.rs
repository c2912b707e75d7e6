//! Joint runs and the ways in which their steps are real.

use crate::label::{partner, IDLE, SILENT};
use crate::table::Table;
use crate::Refusal;

/// The largest number of steps of a run.
pub const MOST_STEPS: usize = 200;

/// One step of a joint run: its label and where it leads both machines.
#[derive(Clone, Copy, PartialEq, Eq, Debug)]
pub struct JointStep {
    pub label: u8,
    pub left: u8,
    pub right: u8,
}

/// A joint run: two start states and the steps from there.
#[derive(Clone, PartialEq, Eq, Debug)]
pub struct JointRun {
    pub left: u8,
    pub right: u8,
    pub steps: Vec<JointStep>,
}

/// How a joint step may come about.
#[derive(Clone, Copy, PartialEq, Eq, Debug)]
pub enum Way {
    LeftAlone,
    RightAlone,
    /// A handshake, by the left machine's label.
    Handshake(u8),
    JointIdle,
}

/// The longest length of a joint run's record.
pub const LONGEST: usize = 4 + 3 * MOST_STEPS;

/// Whether a joint run's record may have this length (kind and body counted).
pub fn fits(length: usize) -> bool {
    (4..=LONGEST).contains(&length) && (length - 4).is_multiple_of(3)
}

/// All ways of one joint step from (p, q): left alone, right alone, handshakes by rising left label, joint idle.
pub fn ways(left: &Table, right: &Table, p: u8, q: u8, step: JointStep) -> Vec<Way> {
    let mut found = Vec::new();
    if step.right == q && left.has(p, step.label, step.left) {
        found.push(Way::LeftAlone);
    }
    if step.left == p && right.has(q, step.label, step.right) {
        found.push(Way::RightAlone);
    }
    if step.label == SILENT {
        for row in left.rows_from(p) {
            if let Some(answer) = partner(row.label) {
                if row.to == step.left && right.has(q, answer, step.right) {
                    found.push(Way::Handshake(row.label));
                }
            }
        }
    }
    if step.label == IDLE && step.left == p && step.right == q {
        found.push(Way::JointIdle);
    }
    found
}

/// Reads a joint run of two sound tables: 3 for its length, then 8 for a start or a step.
pub fn read_run(bytes: &[u8], left: &Table, right: &Table) -> Result<JointRun, Refusal> {
    read_each(bytes, left, right, |_| ())
}

/// Reads a joint run as `read_run` does and keeps the ways of each of its steps.
pub fn read_run_and_ways(
    bytes: &[u8],
    left: &Table,
    right: &Table,
) -> Result<(JointRun, Vec<Vec<Way>>), Refusal> {
    let mut kept = Vec::new();
    let run = read_each(bytes, left, right, |ways| kept.push(ways))?;
    Ok((run, kept))
}

/// Reads a joint run and hands on the ways of each step.
fn read_each(
    bytes: &[u8],
    left: &Table,
    right: &Table,
    mut hand_on: impl FnMut(Vec<Way>),
) -> Result<JointRun, Refusal> {
    if !fits(bytes.len() + 2) {
        return Err(3);
    }
    let mut run = JointRun {
        left: bytes[0],
        right: bytes[1],
        steps: Vec::new(),
    };
    if run.left >= left.states || run.right >= right.states {
        return Err(8);
    }
    for step in bytes[2..].chunks(3) {
        let step = JointStep {
            label: step[0],
            left: step[1],
            right: step[2],
        };
        let (p, q) = run.last();
        let found = ways(left, right, p, q, step);
        if found.is_empty() {
            return Err(8);
        }
        hand_on(found);
        run.steps.push(step);
    }
    Ok(run)
}

impl JointRun {
    /// The two states in which the run ends.
    pub fn last(&self) -> (u8, u8) {
        match self.steps.last() {
            Some(step) => (step.left, step.right),
            None => (self.left, self.right),
        }
    }

    /// The run as a record's body: two start states, then the steps.
    pub fn to_bytes(&self) -> Vec<u8> {
        let mut bytes = vec![self.left, self.right];
        for step in &self.steps {
            bytes.extend([step.label, step.left, step.right]);
        }
        bytes
    }
}
