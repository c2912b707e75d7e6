//! Formulas of thousands of nodes, and deep looks ahead on dense tables.

use crate::verdict_both::{half_both, joint_both, with_a_large_stack, Verdicts};
use crate::verdict_sound::{Pair, Single};
use reference::casebook::Parts;
use reference::fitted::{along_half, along_joint};
use reference::formula::QUOTIENT_NODES;
use reference::generate::{random_formula, Shape};
use reference::random::Random;
use reference::verdict;

/// "And" (3) or "or" (4).
type Operator = u8;

/// How a wide tree of one operator is built over its leaves.
#[derive(Clone, Copy, PartialEq, Eq, Debug)]
enum Build {
    Right,
    Left,
    Balanced,
}

const BUILDS: [Build; 3] = [Build::Right, Build::Left, Build::Balanced];

/// The tree of one operator over these leaves, in order.
fn wide(build: Build, operator: Operator, leaves: &[Vec<u8>]) -> Vec<u8> {
    let inner = [operator, 0];
    match (build, leaves) {
        (_, [leaf]) => leaf.clone(),
        (Build::Right, [front @ .., last]) => {
            let each = front.iter().flat_map(|leaf| [&inner[..], leaf].concat());
            each.chain(last.iter().copied()).collect()
        }
        (Build::Left, _) => [inner.repeat(leaves.len() - 1), leaves.concat()].concat(),
        (Build::Balanced, _) => {
            let (first, second) = leaves.split_at(leaves.len() / 2);
            let parts = [first, second].map(|part| wide(build, operator, part));
            [&inner[..], &parts[0], &parts[1]].concat()
        }
        (_, []) => unreachable!("a tree has leaves"),
    }
}

/// The formula or its negation, whichever holds.
fn made_true(formula: Vec<u8>, holds: bool) -> Vec<u8> {
    if holds {
        return formula;
    }
    [vec![2, 0], formula].concat()
}

/// Leaves that all hold under "and", or all fail under "or", as many as the nodes allow.
fn leaves_alike(
    random: &mut Random,
    operator: Operator,
    mut leaf: impl FnMut(&mut Random) -> Vec<u8>,
) -> Vec<Vec<u8>> {
    let most = random.from_to(2, QUOTIENT_NODES);
    let mut leaves: Vec<Vec<u8>> = Vec::new();
    let mut nodes = 0;
    loop {
        let holding = leaf(random);
        let leaf = match operator {
            3 => holding,
            _ => [vec![2, 0], holding].concat(),
        };
        nodes += leaf.len() / 2 + 1;
        // One node is left for the leaf that may be negated afterwards.
        if nodes + 1 > most.max(8) {
            return leaves;
        }
        leaves.push(leaf);
    }
}

/// Negates one of the leaves in about half the cases; says whether it did.
fn negate_one(random: &mut Random, leaves: &mut [Vec<u8>]) -> bool {
    if leaves.is_empty() || random.once_in(2) {
        return false;
    }
    let at = random.below(leaves.len());
    leaves[at].splice(..0, [2, 0]);
    true
}

/// A short log on small machines.
fn small_pair(random: &mut Random) -> Pair {
    let mut shape = Shape::small(random);
    shape.steps = random.from_to(0, 8);
    Pair::random(random, shape)
}

/// A short half run on a small machine.
fn small_single(random: &mut Random) -> Single {
    let mut shape = Shape::small(random);
    shape.steps = random.from_to(0, 8);
    Single::random(random, shape)
}

/// Wide trees in which every leaf has to be judged, or every leaf up to one that decides.
#[test]
fn wide_trees_on_logs() {
    with_a_large_stack(|| {
        let mut verdicts = Verdicts::new("wide trees on logs");
        let mut random = Random::new(71);
        for round in 0..360 {
            let (build, operator) = (BUILDS[round % 3], 3 + (round / 3 % 2) as u8);
            let pair = small_pair(&mut random);
            let point = random.from_to(0, pair.run.steps.len());
            let leaf = |random: &mut Random| {
                let nodes = random.from_to(1, 6);
                let call = pair.asks(&pair.fitted(random, point, nodes));
                let holds = joint_alone(&call, point);
                made_true(call.question, holds)
            };
            let mut leaves = leaves_alike(&mut random, operator, leaf);
            let out = negate_one(&mut random, &mut leaves);
            if leaves.is_empty() {
                continue;
            }
            let call = pair.asks(&wide(build, operator, &leaves));
            let verdict = joint_both(&call, point);
            assert_eq!(verdict, Ok((operator == 3) != out), "{build:?}");
            verdicts.note(&[operator], verdict);
        }
        verdicts.at_least(50, &[3, 4]);
    });
}

/// The reference's joint verdict of a sound call.
fn joint_alone(call: &Parts, point: usize) -> bool {
    let Parts {
        k,
        left,
        right,
        run,
        question,
    } = call;
    verdict::joint(*k, left, right, run, question, point).unwrap()
}

/// The same on half runs.
#[test]
fn wide_trees_on_halves() {
    with_a_large_stack(|| {
        let mut verdicts = Verdicts::new("wide trees on halves");
        let mut random = Random::new(72);
        for round in 0..360 {
            let (build, operator) = (BUILDS[round % 3], 3 + (round / 3 % 2) as u8);
            let single = small_single(&mut random);
            let point = random.from_to(0, single.half.steps.len());
            let leaf = |random: &mut Random| {
                let nodes = random.from_to(1, 6);
                let call = single.asks(&single.fitted(random, point, nodes));
                let holds =
                    verdict::half(call.k, &call.table, &call.half, &call.formula, point).unwrap();
                made_true(call.formula, holds)
            };
            let mut leaves = leaves_alike(&mut random, operator, leaf);
            let out = negate_one(&mut random, &mut leaves);
            if leaves.is_empty() {
                continue;
            }
            let call = single.asks(&wide(build, operator, &leaves));
            let verdict = half_both(&call, point);
            assert_eq!(verdict, Ok((operator == 3) != out), "{build:?}");
            verdicts.note(&[operator], verdict);
        }
        verdicts.at_least(50, &[3, 4]);
    });
}

/// Wide trees of "and" and "or" mixed at random over true and false.
#[test]
fn mixed_trees_of_constants() {
    with_a_large_stack(|| {
        let mut verdicts = Verdicts::new("trees of and, or, not over true and false");
        let mut random = Random::new(73);
        let call = |formula| Parts {
            k: 0,
            left: vec![1],
            right: vec![1],
            run: vec![0, 0],
            question: formula,
        };
        for _ in 0..600 {
            let most = *random.pick(&[20, 200, 4096]);
            let nodes = random.from_to(1, most);
            let formula = constants(&mut random, nodes);
            verdicts.note(&formula, joint_both(&call(formula.clone()), 0));
        }
        verdicts.at_least(40, &[2, 3, 4]);
    });
}

/// A tree of "not", "and", "or" over constants with this many nodes.
fn constants(random: &mut Random, nodes: usize) -> Vec<u8> {
    let operator = match nodes {
        1 => random.byte(0, 1),
        2 => 2,
        _ => random.byte(2, 4),
    };
    let mut bytes = vec![operator, 0];
    match operator {
        0 | 1 => {}
        2 => bytes.extend(constants(random, nodes - 1)),
        _ => {
            let first = match random.below(3) {
                0 => 1,
                1 => nodes - 2,
                _ => random.from_to(1, nodes - 2),
            };
            bytes.extend(constants(random, first));
            bytes.extend(constants(random, nodes - 1 - first));
        }
    }
    bytes
}

/// Random formulas of thousands of nodes, on logs and on halves.
#[test]
fn random_formulas_of_thousands_of_nodes() {
    with_a_large_stack(|| {
        let mut joint = Verdicts::new("random formulas of thousands of nodes on logs");
        let mut halves = Verdicts::new("random formulas of thousands of nodes on halves");
        let mut random = Random::new(74);
        for round in 0..400 {
            let nodes = random.from_to(1000, QUOTIENT_NODES);
            // Looking ahead multiplies the work, so only little machines are looked at twice ahead.
            let nesting = round % 3;
            let pair = small_pair(&mut random);
            let point = pair.run.steps.len();
            let formula = match random.below(2) {
                0 => random_formula(&mut random, pair.k, nodes, nesting),
                _ => along_joint(pair.k, &pair.left, &pair.right, &pair.run, point).formula(
                    &mut random,
                    nodes,
                    nesting,
                ),
            };
            let call = pair.asks(&formula.to_bytes());
            joint.note(&call.question, joint_both(&call, point));
            let single = small_single(&mut random);
            let point = single.half.steps.len();
            let mut along = along_half(single.k, &single.table, &single.half, point);
            let formula = along.formula(&mut random, nodes, nesting);
            let call = single.asks(&formula.to_bytes());
            halves.note(&call.formula, half_both(&call, point));
        }
        joint.at_least(5, &[2, 3, 4, 6, 8]);
        halves.at_least(5, &[2, 3, 4, 6, 8]);
    });
}

/// Chains of "not" of all kinds of lengths: the verdict is their parity.
#[test]
fn chains_of_not() {
    with_a_large_stack(|| {
        let mut verdicts = Verdicts::new("chains of not");
        for nots in (0..40).chain([1000, 2047, 2048, 4094, 4095]) {
            for leaf in [0, 1] {
                let formula = [[2, 0].repeat(nots), vec![leaf, 0]].concat();
                let pair = small_pair(&mut Random::new(nots as u64));
                let verdict = joint_both(&pair.asks(&formula), 0);
                assert_eq!(verdict, Ok((leaf == 0) == nots.is_multiple_of(2)));
                verdicts.note(&formula, verdict);
                let single = small_single(&mut Random::new(nots as u64));
                assert_eq!(half_both(&single.asks(&formula), 0), verdict);
            }
        }
        verdicts.at_least(40, &[2]);
    });
}

/// Back along the whole of a long log, with hundreds of "not not" between the steps, and once too often.
#[test]
fn chains_of_back() {
    with_a_large_stack(|| {
        let mut verdicts = Verdicts::new("chains of back along the whole run");
        let mut random = Random::new(75);
        for seed in 0..120 {
            let mut shape = Shape::any(&mut random);
            shape.steps = *random.pick(&[1, 7, 150, 200]);
            let pair = Pair::random(&mut random, shape);
            let labels: Vec<u8> = pair.run.steps.iter().map(|step| step.label).collect();
            let formula = back_along(&mut random, &labels, seed % 3);
            let verdict = joint_both(&pair.asks(&formula), shape.steps);
            assert_eq!(verdict, Ok(seed % 3 == 0));
            verdicts.note(&formula, verdict);
            let single = Single::random(&mut random, shape);
            let labels: Vec<u8> = single.half.steps.iter().map(|step| step.label).collect();
            let formula = back_along(&mut random, &labels, seed % 3);
            let verdict = half_both(&single.asks(&formula), shape.steps);
            assert_eq!(verdict, Ok(seed % 3 == 0));
            verdicts.note(&formula, verdict);
        }
        verdicts.at_least(20, &[6, 8]);
    });
}

/// Back along these labels over true (0), with one step more (1), or with one step another (2).
fn back_along(random: &mut Random, labels: &[u8], change: usize) -> Vec<u8> {
    let back = |label: u8| match label {
        255 => [8, 0],
        _ => [6, label],
    };
    let mut modalities: Vec<[u8; 2]> = labels.iter().rev().map(|label| back(*label)).collect();
    let at = random.below(modalities.len());
    match change {
        0 => {}
        1 => modalities.insert(at, modalities[at]),
        _ if modalities[at] == [8, 0] => modalities[at] = [6, 0],
        _ => modalities[at] = [8, 0],
    }
    if change == 1 {
        // A step more than the run has fails, wherever it stands.
        assert!(modalities.len() > labels.len());
    }
    let mut formula = Vec::new();
    for modality in modalities {
        formula.extend(modality);
        formula.extend([2, 0].repeat(2 * random.below(9)));
    }
    formula.extend([0, 0]);
    formula
}

/// Tables of up to 64 states with 8 rows each, and four nested forward modalities over operands that mostly fail.
#[test]
fn four_ahead_on_dense_tables() {
    let mut joint = Verdicts::new("four nested forwards on dense tables, joint");
    let mut halves = Verdicts::new("four nested forwards on dense tables, half");
    let mut random = Random::new(76);
    for round in 0..320 {
        let mut shape = Shape::maximal((round % 16) as u8);
        shape.left_states = *random.pick(&[1, 2, 9, 64]);
        shape.right_states = *random.pick(&[1, 2, 9, 64]);
        shape.steps = *random.pick(&[0, 3, 200]);
        let labels = 2 * shape.k;
        let mut formula = Vec::new();
        for _ in 0..4 {
            let any = random.byte(0, labels);
            let label = *random.pick(&[0, 0, any]);
            formula.extend([5, label]);
            if random.once_in(2) {
                formula.extend([2, 0, 2, 0]);
            }
        }
        // Fails on nearly all runs: it wants labels in a row that are not those looked ahead along.
        for _ in 0..random.from_to(0, 2) {
            formula.extend([6, random.byte(0, labels)]);
        }
        formula.extend([random.once_in(3) as u8, 0]);
        let pair = Pair::random(&mut random, shape);
        joint.note(&formula, joint_both(&pair.asks(&formula), shape.steps));
        let single = Single::random(&mut random, shape);
        halves.note(&formula, half_both(&single.asks(&formula), shape.steps));
    }
    joint.at_least(20, &[5]);
    halves.at_least(20, &[5]);
}
