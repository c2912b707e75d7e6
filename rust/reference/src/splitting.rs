//! Splittings: a joint run taken apart into two half runs, one way for each step, and two halves joined again.

use crate::half::{read_half, HalfRun, HalfStep};
use crate::label::{check_k, partner, IDLE, SILENT};
use crate::run::{read_run_and_ways, JointRun, JointStep, Way};
use crate::table::read_table;
use crate::Refusal;

/// The largest number of splittings that are counted and named by number.
pub const MOST_SPLITTINGS: usize = 65_535;

/// How many splittings a joint run has, or the first of 4; left; right; run; 13.
pub fn count(k: u8, left: &[u8], right: &[u8], run: &[u8]) -> Result<usize, Refusal> {
    let (_, ways) = read_log(k, left, right, run)?;
    Ok(counts_from(&ways)?[0])
}

/// The left and the right half of the splitting of this number, for outputs of `room` bytes, or the first of 4; left;
/// right; run; 13; 14; 18.
pub fn split(
    k: u8,
    left: &[u8],
    right: &[u8],
    run: &[u8],
    number: usize,
    room: [usize; 2],
) -> Result<[Vec<u8>; 2], Refusal> {
    let (run, ways) = read_log(k, left, right, run)?;
    let halves = numbered(&run, &ways, number)?.map(|half| half.to_bytes());
    if room[0] < halves[0].len() || room[1] < halves[1].len() {
        return Err(18);
    }
    Ok(halves)
}

/// The joint run of two halves, for an output of `room` bytes, or the first of 4; left; right; 15; 16; 18.
pub fn join(
    k: u8,
    left: &[u8],
    right: &[u8],
    left_half: &[u8],
    right_half: &[u8],
    room: usize,
) -> Result<Vec<u8>, Refusal> {
    check_k(k)?;
    let left = read_table(left, k)?;
    let right = read_table(right, k)?;
    let left_half = read_half(left_half, &left)?;
    let right_half = read_half(right_half, &right)?;
    let bytes = joined(&left_half, &right_half)?.to_bytes();
    if bytes.len() > room {
        return Err(18);
    }
    Ok(bytes)
}

/// Reads the parts of a call, with the ways of each step of the log, or gives the first of 4; left; right; run.
fn read_log(
    k: u8,
    left: &[u8],
    right: &[u8],
    run: &[u8],
) -> Result<(JointRun, Vec<Vec<Way>>), Refusal> {
    check_k(k)?;
    let left = read_table(left, k)?;
    let right = read_table(right, k)?;
    read_run_and_ways(run, &left, &right)
}

/// The halves of the splitting of this number, given the ways of each step; 13, then 14.
pub(crate) fn numbered(
    run: &JointRun,
    ways: &[Vec<Way>],
    number: usize,
) -> Result<[HalfRun; 2], Refusal> {
    let counts = counts_from(ways)?;
    if number >= counts[0] {
        return Err(14);
    }
    Ok(halves_by(run, &chosen(ways, &counts, number)))
}

/// How many splittings there are from each step on, and behind the last step one; 13 if over the limit. Every step has
/// a way, so no count is above that of the whole log.
pub(crate) fn counts_from(ways: &[Vec<Way>]) -> Result<Vec<usize>, Refusal> {
    let mut counts = vec![1; ways.len() + 1];
    for at in (0..ways.len()).rev() {
        counts[at] = ways[at].len() * counts[at + 1];
        if counts[at] > MOST_SPLITTINGS {
            return Err(13);
        }
    }
    Ok(counts)
}

/// The way that the splitting of this number, which is below the count, takes at each step. The ways of a step are
/// passed over in order, each with all splittings of the later steps, up to the one with the splitting that is sought.
fn chosen(ways: &[Vec<Way>], counts: &[usize], number: usize) -> Vec<Way> {
    let mut before = number;
    let mut chosen = Vec::with_capacity(ways.len());
    for (ways, later) in ways.iter().zip(&counts[1..]) {
        let mut at = 0;
        while before >= *later {
            before -= later;
            at += 1;
        }
        chosen.push(ways[at]);
    }
    chosen
}

/// The left and the right half of a log whose steps came about in these ways.
fn halves_by(run: &JointRun, chosen: &[Way]) -> [HalfRun; 2] {
    let [mut left, mut right] = [run.left, run.right].map(|start| HalfRun {
        start,
        steps: Vec::with_capacity(run.steps.len()),
    });
    for (step, way) in run.steps.iter().zip(chosen) {
        let [own, other] = half_labels(step.label, *way);
        // Who idles keeps the state, and so the step's target is right for both in every way.
        left.steps.push(HalfStep {
            label: own,
            to: step.left,
        });
        right.steps.push(HalfStep {
            label: other,
            to: step.right,
        });
    }
    [left, right]
}

/// The labels of the left and the right half of a step of this label that came about in this way.
pub(crate) fn half_labels(label: u8, way: Way) -> [u8; 2] {
    match way {
        Way::LeftAlone => [label, IDLE],
        Way::RightAlone => [IDLE, label],
        Way::Handshake(own) => {
            let answer = partner(own).expect("only labels with a partner shake hands");
            [own, answer]
        }
        Way::JointIdle => [IDLE, IDLE],
    }
}

/// The joint run of two half runs; 16 if they are not equally long or do not match at some step.
pub(crate) fn joined(left: &HalfRun, right: &HalfRun) -> Result<JointRun, Refusal> {
    if left.steps.len() != right.steps.len() {
        return Err(16);
    }
    let mut steps = Vec::with_capacity(left.steps.len());
    for (own, other) in left.steps.iter().zip(&right.steps) {
        let label = joint_label(own.label, other.label).ok_or(16)?;
        steps.push(JointStep {
            label,
            left: own.to,
            right: other.to,
        });
    }
    Ok(JointRun {
        left: left.start,
        right: right.start,
        steps,
    })
}

/// The label of the joint step of two half steps, if they match: an idle beside a move shows the move's label, two
/// idles are a joint idle, partners shake hands silently.
fn joint_label(left: u8, right: u8) -> Option<u8> {
    match (left, right) {
        (IDLE, other) => Some(other),
        (own, IDLE) => Some(own),
        (own, other) if partner(own) == Some(other) => Some(SILENT),
        _ => None,
    }
}

#[cfg(test)]
mod tests {
    use super::*;

    /// Case A's machines.
    const LEFT: [u8; 7] = [2, 0, 1, 1, 0, 3, 1];
    const RIGHT: [u8; 7] = [2, 0, 2, 1, 0, 4, 1];

    /// Case A: two handshakes, by rising left label.
    #[test]
    fn case_a_splits_in_two() {
        let run = [0, 0, 0, 1, 1];
        assert_eq!(count(2, &LEFT, &RIGHT, &run), Ok(2));
        let halves = |number| split(2, &LEFT, &RIGHT, &run, number, [3, 3]);
        assert_eq!(halves(0), Ok([vec![0, 1, 1], vec![0, 2, 1]]));
        assert_eq!(halves(1), Ok([vec![0, 3, 1], vec![0, 4, 1]]));
        assert_eq!(halves(2), Err(14));
        assert_eq!(split(2, &LEFT, &RIGHT, &run, 1, [3, 2]), Err(18));
        assert_eq!(split(2, &LEFT, &RIGHT, &run, 2, [3, 2]), Err(14));
    }

    /// Partners match, equal labels and two silent moves do not, an idle matches everything.
    #[test]
    fn labels_match() {
        assert_eq!(joint_label(1, 2), Some(SILENT));
        assert_eq!(joint_label(30, 29), Some(SILENT));
        assert_eq!(joint_label(IDLE, IDLE), Some(IDLE));
        assert_eq!(joint_label(IDLE, 7), Some(7));
        assert_eq!(joint_label(0, IDLE), Some(0));
        for (left, right) in [(0, 0), (1, 1), (1, 4), (2, 3), (0, 1), (2, 0)] {
            assert_eq!(joint_label(left, right), None, "{left} {right}");
        }
    }

    /// Two-way steps: 15 give 32,768 splittings, 16 are refused, the first step varies slowest.
    #[test]
    fn two_way_steps() {
        let run = |steps: usize| [vec![0, 0], [1, 0, 0].repeat(steps)].concat();
        let table = [1, 0, 1, 0];
        assert_eq!(count(1, &table, &table, &run(0)), Ok(1));
        assert_eq!(count(1, &table, &table, &run(15)), Ok(32_768));
        assert_eq!(count(1, &table, &table, &run(16)), Err(13));
        assert_eq!(count(1, &table, &table, &run(200)), Err(13));
        let halves = split(1, &table, &table, &run(2), 1, [5, 5]).unwrap();
        assert_eq!(halves, [vec![0, 1, 0, 255, 0], vec![0, 255, 0, 1, 0]]);
    }

    /// Unfit halves come before unequal ones, and those before a short output.
    #[test]
    fn join_is_refused_in_order() {
        let join = |left: &[u8], right: &[u8], room| join(2, &LEFT, &RIGHT, left, right, room);
        assert_eq!(join(&[0, 1, 1], &[0, 2, 1], 5), Ok(vec![0, 0, 0, 1, 1]));
        assert_eq!(join(&[0, 1, 1], &[0, 2, 1], 4), Err(18));
        assert_eq!(join(&[0, 1, 1], &[0, 4, 1], 4), Err(16));
        assert_eq!(join(&[0, 1, 1], &[0], 4), Err(16));
        assert_eq!(join(&[0, 1, 1], &[2], 4), Err(15));
        assert_eq!(join(&[0, 1], &[0], 4), Err(15));
    }
}
