//! Verdicts on runs stopped at a point.

use crate::bare;
use crate::refusal::{value_or_refusal, Refusal};

/// Says whether the formula holds on the joint run's first `point` steps, or is refused (3 to 10, 12).
pub fn joint_verdict(
    k: u8,
    left: &[u8],
    right: &[u8],
    run: &[u8],
    formula: &[u8],
    point: usize,
) -> Result<bool, Refusal> {
    let value = value_or_refusal(bare::joint_verdict(k, left, right, run, formula, point))?;
    Ok(value == HOLDS)
}

/// Says whether the formula holds on the half run's first `point` steps, or is refused (3 to 7, 9, 10, 12, 15).
pub fn half_verdict(
    k: u8,
    table: &[u8],
    half: &[u8],
    formula: &[u8],
    point: usize,
) -> Result<bool, Refusal> {
    let value = value_or_refusal(bare::half_verdict(k, table, half, formula, point))?;
    Ok(value == HOLDS)
}

/// The value by which the engine says that a formula holds.
const HOLDS: usize = 1;
