//! What stands in the parts of a casebook: rows and steps, read off their bytes.

use std::fmt;

/// The label that marks an idle.
pub const IDLE_LABEL: u8 = 255;

/// How many bytes stand before a table's rows.
pub const TABLE_HEAD: usize = 1;
/// How many bytes stand before a log's steps.
pub const LOG_HEAD: usize = 2;
/// How many bytes stand before a half's steps.
pub const HALF_HEAD: usize = 1;
/// How many bytes stand before a formula's nodes.
pub const FORMULA_HEAD: usize = 0;

/// How many bytes a row has.
pub const ROW: usize = 3;
/// How many bytes a step of a log has.
pub const LOG_STEP: usize = 3;
/// How many bytes a step of a half has.
pub const HALF_STEP: usize = 2;
/// How many bytes a node has.
pub const NODE: usize = 2;

/// A row of a table.
#[derive(Clone, Copy, PartialEq, Eq, Debug)]
pub struct Row {
    /// The state that it leaves.
    pub from: u8,
    /// Its label.
    pub label: u8,
    /// Its target.
    pub to: u8,
}

impl fmt::Display for Row {
    fn fmt(&self, f: &mut fmt::Formatter<'_>) -> fmt::Result {
        write!(f, "{} {} {}", self.from, self.label, self.to)
    }
}

/// A step of a log.
#[derive(Clone, Copy, PartialEq, Eq, Debug)]
pub struct JointStep {
    /// Its label; 255 for a joint idle.
    pub label: u8,
    /// The left target.
    pub left: u8,
    /// The right target.
    pub right: u8,
}

/// A step of a half run.
#[derive(Clone, Copy, PartialEq, Eq, Debug)]
pub struct HalfStep {
    /// Its label; 255 for an idle.
    pub label: u8,
    /// Its target.
    pub to: u8,
}

impl HalfStep {
    /// Is it an idle?
    pub fn is_idle(self) -> bool {
        self.label == IDLE_LABEL
    }
}

/// The number of states that a table begins with.
pub fn states(table: &[u8]) -> u8 {
    table.first().copied().unwrap_or(0)
}

/// The rows of a table.
pub fn rows(table: &[u8]) -> impl Iterator<Item = Row> + '_ {
    let bytes = table.get(TABLE_HEAD..).unwrap_or(&[]);
    bytes.chunks_exact(ROW).map(|row| Row {
        from: row[0],
        label: row[1],
        to: row[2],
    })
}

/// The two start states of a log.
pub fn start_states(run: &[u8]) -> (u8, u8) {
    let state = |at: usize| run.get(at).copied().unwrap_or(0);
    (state(0), state(1))
}

/// The steps of a log.
pub fn log(run: &[u8]) -> impl Iterator<Item = JointStep> + '_ {
    let bytes = run.get(LOG_HEAD..).unwrap_or(&[]);
    bytes.chunks_exact(LOG_STEP).map(|step| JointStep {
        label: step[0],
        left: step[1],
        right: step[2],
    })
}

/// How many steps a log has: its last point.
pub fn steps(run: &[u8]) -> usize {
    log(run).count()
}

/// The state that a half run starts in.
pub fn start_state(half: &[u8]) -> u8 {
    half.first().copied().unwrap_or(0)
}

/// The steps of a half run.
pub fn half_steps(half: &[u8]) -> impl Iterator<Item = HalfStep> + '_ {
    let bytes = half.get(HALF_HEAD..).unwrap_or(&[]);
    bytes.chunks_exact(HALF_STEP).map(|step| HalfStep {
        label: step[0],
        to: step[1],
    })
}
