//! Casebooks made for sheets: logs of loops with two-way steps, questions of nested modalities.

use reference::casebook::Parts;
use reference::label::IDLE;
use reference::random::Random;

/// Nodes of questions.
pub const TRUE: [u8; 2] = [0, 0];
pub const NOT: [u8; 2] = [2, 0];
pub const AHEAD: [u8; 2] = [5, 0];

/// `count` times a node, then the rest.
pub fn times(count: usize, node: [u8; 2], rest: &[u8]) -> Vec<u8> {
    [&node.repeat(count)[..], rest].concat()
}

/// A table of one state with loops of these labels.
pub fn loops(labels: &[u8]) -> Vec<u8> {
    let rows = labels.iter().flat_map(|label| [0, *label, 0]);
    [1].into_iter().chain(rows).collect()
}

/// One state each. Label 1 loops in both machines (two ways), 2 in the left and 3 in the right (one way each).
pub fn looping(labels: &[u8], question: Vec<u8>) -> Parts {
    let steps = labels.iter().flat_map(|label| [*label, 0, 0]);
    Parts {
        k: 2,
        left: loops(&[1, 2]),
        right: loops(&[1, 3]),
        run: [0, 0].into_iter().chain(steps).collect(),
        question,
    }
}

/// Labels of `steps` looping steps of which `two_way` have two ways, at random places.
pub fn some_two_way(random: &mut Random, steps: usize, two_way: usize) -> Vec<u8> {
    let mut labels: Vec<u8> = (0..steps).map(|_| *random.pick(&[2, 3, IDLE])).collect();
    let mut left = two_way.min(steps);
    while left > 0 {
        let at = random.below(steps);
        left -= usize::from(labels[at] != 1);
        labels[at] = 1;
    }
    labels
}

/// Back along the last of these labels, so many times, then the rest.
pub fn back_along(labels: &[u8], count: usize, rest: &[u8]) -> Vec<u8> {
    let last = labels.iter().rev().take(count);
    let back = last.flat_map(|label| match *label {
        IDLE => [8, 0],
        label => [6, label],
    });
    back.chain(rest.iter().copied()).collect()
}

/// A question whose quotient by eight loops has exactly so many nodes: the largest nested forwards that fit, and beside
/// them what is left.
pub fn made_to_measure(size: usize) -> Vec<u8> {
    let nested = |ahead: usize, nots: usize| (0..ahead).fold(nots + 1, |nodes, _| 9 * nodes + 17);
    for ahead in [3, 2, 1] {
        let fits = |nots: &usize| nested(ahead, *nots) + 2 <= size;
        if let Some(nots) = (0..26).rev().find(fits) {
            let rest = size - 1 - nested(ahead, nots);
            let first = times(ahead, AHEAD, &times(nots, NOT, &TRUE));
            return [vec![3, 0], first, made_to_measure(rest)].concat();
        }
    }
    times(size - 1, NOT, &TRUE)
}
