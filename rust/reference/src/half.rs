//! Half runs: what one machine does in a joint run, idles among its moves.

use crate::label::IDLE;
use crate::run::MOST_STEPS;
use crate::table::Table;
use crate::Refusal;

/// One step of a half run: a move with its label, or an idle (label 255), and the state it leads to.
#[derive(Clone, Copy, PartialEq, Eq, Debug)]
pub struct HalfStep {
    pub label: u8,
    pub to: u8,
}

/// A half run: a start state and the steps from there.
#[derive(Clone, PartialEq, Eq, Debug)]
pub struct HalfRun {
    pub start: u8,
    pub steps: Vec<HalfStep>,
}

/// Whether a half run may have this length: its start state and two bytes for each of 0 to 200 steps.
pub fn fits(length: usize) -> bool {
    (1..=1 + 2 * MOST_STEPS).contains(&length) && !length.is_multiple_of(2)
}

/// Reads a half run of a sound table: 15 for its length, its start or a step.
pub fn read_half(bytes: &[u8], table: &Table) -> Result<HalfRun, Refusal> {
    if !fits(bytes.len()) {
        return Err(15);
    }
    let mut half = HalfRun {
        start: bytes[0],
        steps: Vec::new(),
    };
    if half.start >= table.states {
        return Err(15);
    }
    for step in bytes[1..].chunks(2) {
        let step = step_of(step);
        if !is_step(table, half.last(), step) {
            return Err(15);
        }
        half.steps.push(step);
    }
    Ok(half)
}

/// The step of two bytes.
fn step_of(bytes: &[u8]) -> HalfStep {
    HalfStep {
        label: bytes[0],
        to: bytes[1],
    }
}

/// The step of a number, from 0, of any bytes: those of even length are no half run and have no step, and the limit of
/// 200 steps is not looked at.
pub fn step_at(bytes: &[u8], number: usize) -> Option<HalfStep> {
    if bytes.len().is_multiple_of(2) {
        return None;
    }
    bytes[1..].chunks(2).nth(number).map(step_of)
}

/// Whether the machine can take this step: an idle keeps the state, a move has a row.
fn is_step(table: &Table, from: u8, step: HalfStep) -> bool {
    match step.label {
        IDLE => step.to == from,
        label => table.has(from, label, step.to),
    }
}

impl HalfRun {
    /// The state in which the half run ends.
    pub fn last(&self) -> u8 {
        match self.steps.last() {
            Some(step) => step.to,
            None => self.start,
        }
    }

    /// The half run as bytes: the state, then label and target for each step.
    pub fn to_bytes(&self) -> Vec<u8> {
        let mut bytes = vec![self.start];
        for step in &self.steps {
            bytes.extend([step.label, step.to]);
        }
        bytes
    }
}

#[cfg(test)]
mod tests {
    use super::*;
    use crate::table::read_table;

    /// Moves need a row, idles keep the state, and a loop is a move.
    #[test]
    fn steps_are_moves_or_idles() {
        let table = read_table(&[2, 0, 1, 0, 0, 1, 1], 1).unwrap();
        for sound in [&[0][..], &[1], &[0, 1, 0, 255, 0, 1, 1, 255, 1]] {
            assert_eq!(read_half(sound, &table).unwrap().to_bytes(), sound);
        }
        for unsound in [&[2][..], &[0, 255, 1], &[0, 2, 1], &[1, 1, 1], &[0, 1]] {
            assert_eq!(read_half(unsound, &table), Err(15), "{unsound:?}");
        }
    }

    /// 200 steps are the most.
    #[test]
    fn at_most_200_steps() {
        let table = read_table(&[1], 0).unwrap();
        let idles = |steps: usize| [vec![0], [255, 0].repeat(steps)].concat();
        assert!(read_half(&idles(200), &table).is_ok());
        assert_eq!(read_half(&idles(201), &table), Err(15));
        assert_eq!(read_half(&[], &table), Err(15));
    }
}
