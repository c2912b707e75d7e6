//! Runs as lanes in time: the log downwards, a splitting's halves from left to right, one column a step.

use super::book::Halves;
use super::contents::{half_steps, log, start_state, start_states, steps, HalfStep};
use super::halves::label_word;

/// How many columns stand beside each other, so that a line has at most 80 characters.
const COLUMNS: usize = 8;

/// The log, a line for each point: the states, and between them the label of the step that led there.
pub fn log_lanes(run: &[u8]) -> Vec<String> {
    let (left, right) = start_states(run);
    let mut lines = vec![
        log_line("point", "left", "label", "right"),
        log_line("0", &left.to_string(), "", &right.to_string()),
    ];
    for (index, step) in log(run).enumerate() {
        lines.push(log_line(
            &(index + 1).to_string(),
            &step.left.to_string(),
            &label_word(step.label),
            &step.right.to_string(),
        ));
    }
    lines
}

/// A line of the log's lanes.
fn log_line(point: &str, left: &str, label: &str, right: &str) -> String {
    format!("  {point:>5}  {left:>5}  {label:>5}  {right:>5}")
}

/// A splitting's lanes: numbers of steps, labels of the log, left half, handshakes, right half.
pub fn splitting_lanes(run: &[u8], halves: &Halves) -> Vec<String> {
    let left: Vec<HalfStep> = half_steps(&halves.left).collect();
    let right: Vec<HalfStep> = half_steps(&halves.right).collect();
    let labels: Vec<String> = log(run).map(|step| label_word(step.label)).collect();
    let mut states = (start_state(&halves.left), start_state(&halves.right));
    let mut lines = Vec::new();
    // A log without steps has one band without columns.
    for begin in (0..steps(run).max(1)).step_by(COLUMNS) {
        let end = steps(run).min(begin + COLUMNS);
        let (lefts, rights) = (&left[begin..end], &right[begin..end]);
        if begin > 0 {
            lines.push(String::new());
        }
        lines.push(lane("step", None, (begin + 1..=end).map(|n| n.to_string())));
        lines.push(lane("log", None, labels[begin..end].iter().cloned()));
        lines.push(lane("left", Some(states.0), lefts.iter().map(cell)));
        lines.extend(handshakes(lefts, rights));
        lines.push(lane("right", Some(states.1), rights.iter().map(cell)));
        states.0 = lefts.last().map_or(states.0, |step| step.to);
        states.1 = rights.last().map_or(states.1, |step| step.to);
    }
    lines
}

/// One lane of a band: its name, the state that it begins in, and a cell for each step.
fn lane(name: &str, state: Option<u8>, cells: impl Iterator<Item = String>) -> String {
    let state = state.map_or(String::new(), |state| state.to_string());
    let mut line = format!("  {name:<5}  {state:>2}");
    for cell in cells {
        line += &format!("{cell:>8}");
    }
    line.trim_end().to_string()
}

/// A step of a half: a move with its label and target, or a dot for an idle.
fn cell(step: &HalfStep) -> String {
    if step.is_idle() {
        ".".to_string()
    } else {
        format!("{}->{}", step.label, step.to)
    }
}

/// The lane between the halves, if there is a handshake in the band: both halves move there.
fn handshakes(left: &[HalfStep], right: &[HalfStep]) -> Option<String> {
    let both = |(left, right): (&HalfStep, &HalfStep)| !left.is_idle() && !right.is_idle();
    let shakes: Vec<bool> = left.iter().zip(right).map(both).collect();
    let cell = |shake: &bool| if *shake { "shake" } else { "" }.to_string();
    let any = shakes.contains(&true);
    any.then(|| lane("", None, shakes.iter().map(cell)))
}
