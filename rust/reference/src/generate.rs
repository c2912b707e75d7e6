//! Sound casebooks of all sizes, made at random from a seed.

use crate::casebook::Parts;
use crate::fitted::along_joint;
use crate::formula::{Formula, MOST_NESTING, QUESTION_NODES};
use crate::half::{HalfRun, HalfStep};
use crate::label::{highest, partner, IDLE, MOST_PAIRS, SILENT};
use crate::random::Random;
use crate::run::{ways, JointRun, JointStep, MOST_STEPS};
use crate::table::{Row, Table, MOST_ROWS, MOST_STATES};

/// How large a casebook is to be.
#[derive(Clone, Copy, PartialEq, Eq, Debug)]
pub struct Shape {
    pub k: u8,
    pub left_states: u8,
    pub right_states: u8,
    /// At most so many rows leave one state, or exactly so many where `full`.
    pub rows: usize,
    pub full: bool,
    pub steps: usize,
    pub nodes: usize,
}

impl Shape {
    /// Few states, rows, steps and nodes, so that every byte can be changed.
    pub fn small(random: &mut Random) -> Shape {
        Shape {
            k: random.byte(0, 2),
            left_states: random.byte(1, 3),
            right_states: random.byte(1, 3),
            rows: random.from_to(0, 3),
            full: random.once_in(2),
            steps: random.from_to(0, 4),
            nodes: random.from_to(1, 7),
        }
    }

    /// Any size that document 01 allows.
    pub fn any(random: &mut Random) -> Shape {
        Shape {
            k: random.byte(0, MOST_PAIRS),
            left_states: random.byte(1, MOST_STATES),
            right_states: random.byte(1, MOST_STATES),
            rows: random.from_to(0, MOST_ROWS),
            full: random.once_in(2),
            steps: random.from_to(0, MOST_STEPS),
            nodes: random.from_to(1, QUESTION_NODES),
        }
    }

    /// All bounds reached, with k pairs.
    pub fn maximal(k: u8) -> Shape {
        Shape {
            k,
            left_states: MOST_STATES,
            right_states: MOST_STATES,
            rows: MOST_ROWS,
            full: true,
            steps: MOST_STEPS,
            nodes: QUESTION_NODES,
        }
    }
}

/// The parts of a casebook, each as its bytes.
fn parts_of(k: u8, left: &Table, right: &Table, run: &JointRun, question: &Formula) -> Parts {
    Parts {
        k,
        left: left.to_bytes(),
        right: right.to_bytes(),
        run: run.to_bytes(),
        question: question.to_bytes(),
    }
}

/// The parts of a sound casebook of this shape.
pub fn sound_parts(random: &mut Random, shape: Shape) -> Parts {
    let left = random_table(random, shape, shape.left_states);
    let right = random_table(random, shape, shape.right_states);
    let run = walk(random, &left, &right, shape.steps);
    let question = random_formula(random, shape.k, shape.nodes, MOST_NESTING);
    parts_of(shape.k, &left, &right, &run, &question)
}

/// A table with random rows from each state.
pub fn random_table(random: &mut Random, shape: Shape, states: u8) -> Table {
    let mut rows = Vec::new();
    for from in 0..states {
        let possible = (highest(shape.k) as usize + 1) * states as usize;
        let most = shape.rows.min(possible);
        let count = if shape.full {
            most
        } else {
            random.from_to(0, most)
        };
        rows.extend(random_rows(random, shape.k, states, from, count));
    }
    Table::new(states, rows)
}

/// `count` different rows from one state, rising, loops among them (`count` must be possible).
pub fn random_rows(random: &mut Random, k: u8, states: u8, from: u8, count: usize) -> Vec<Row> {
    let mut rows = Vec::new();
    while rows.len() < count {
        let label = random.byte(0, highest(k));
        let anywhere = random.byte(0, states - 1);
        let to = if random.once_in(6) { from } else { anywhere };
        let row = Row { from, label, to };
        if !rows.contains(&row) {
            rows.push(row);
        }
    }
    rows.sort();
    rows
}

/// A joint run made by walking: each step takes one of the ways that are open.
pub fn walk(random: &mut Random, left: &Table, right: &Table, steps: usize) -> JointRun {
    let mut run = JointRun {
        left: random.byte(0, left.states - 1),
        right: random.byte(0, right.states - 1),
        steps: Vec::new(),
    };
    for _ in 0..steps {
        let (p, q) = run.last();
        let mut open = open_steps(left, right, p, q);
        open.retain(|steps| !steps.is_empty());
        let steps = random.pick(&open);
        run.steps.push(*random.pick(steps));
    }
    run
}

/// Two machines and a log of this shape whose splittings are at most so many: a walk that prefers steps with several
/// ways while there is room for them. A joint idle has one way, so there is always a step.
pub fn many_ways(random: &mut Random, shape: Shape, most: usize) -> (Table, Table, JointRun) {
    let left = looping(random, shape, shape.left_states);
    let right = looping(random, shape, shape.right_states);
    let mut run = JointRun {
        left: random.byte(0, left.states - 1),
        right: random.byte(0, right.states - 1),
        steps: Vec::new(),
    };
    let mut splittings = 1;
    for _ in 0..shape.steps {
        let (p, q) = run.last();
        let open = open_steps(&left, &right, p, q).concat();
        let mut best = (IDLE, 1, open[open.len() - 1]);
        for _ in 0..random.from_to(1, 4) {
            let step = *random.pick(&open);
            let count = ways(&left, &right, p, q, step).len();
            if count * splittings <= most && (count > best.1 || best.0 == IDLE) {
                best = (step.label, count, step);
            }
        }
        splittings *= best.1;
        run.steps.push(best.2);
    }
    (left, right, run)
}

/// A random table to which loops are added where a state has room for them.
fn looping(random: &mut Random, shape: Shape, states: u8) -> Table {
    let mut rows = random_table(random, shape, states).rows;
    for state in 0..states {
        for _ in 0..random.from_to(0, 3) {
            let label = random.byte(0, highest(shape.k));
            let row = Row {
                from: state,
                label,
                to: state,
            };
            let same = rows.iter().filter(|row| row.from == state).count();
            if same < MOST_ROWS && !rows.contains(&row) {
                rows.push(row);
            }
        }
    }
    rows.sort();
    Table::new(states, rows)
}

/// The parts of a casebook whose log has at most so many splittings, with a question that looks along the log from one
/// of its points, now and then with one that has nothing to do with it.
pub fn many_ways_parts(random: &mut Random, shape: Shape, most: usize) -> Parts {
    let (left, right, run) = many_ways(random, shape, most);
    let question = if random.once_in(6) {
        random_formula(random, shape.k, shape.nodes, MOST_NESTING)
    } else {
        let point = random.from_to(0, shape.steps);
        let mut along = along_joint(shape.k, &left, &right, &run, point);
        along.formula(random, shape.nodes, MOST_NESTING)
    };
    parts_of(shape.k, &left, &right, &run, &question)
}

/// The real steps from (p, q), kind by kind: left alone, right alone, handshakes, joint idle.
pub fn open_steps(left: &Table, right: &Table, p: u8, q: u8) -> Vec<Vec<JointStep>> {
    let step = |label, left, right| JointStep { label, left, right };
    let (from_p, from_q) = (left.rows_from(p), right.rows_from(q));
    let left_alone = from_p.iter().map(|row| step(row.label, row.to, q));
    let right_alone = from_q.iter().map(|row| step(row.label, p, row.to));
    let mut handshakes = Vec::new();
    for a in from_p {
        for b in from_q {
            if a.label != SILENT && partner(a.label) == Some(b.label) {
                handshakes.push(step(SILENT, a.to, b.to));
            }
        }
    }
    vec![
        left_alone.collect(),
        right_alone.collect(),
        handshakes,
        vec![step(IDLE, p, q)],
    ]
}

/// A half run made by walking: each step is an idle or takes one of the rows that are open.
pub fn walk_half(random: &mut Random, table: &Table, steps: usize) -> HalfRun {
    let mut half = HalfRun {
        start: random.byte(0, table.states - 1),
        steps: Vec::new(),
    };
    for _ in 0..steps {
        let from = half.last();
        let rows = table.rows_from(from);
        let (label, to) = if rows.is_empty() || random.once_in(3) {
            (IDLE, from)
        } else {
            let row = random.pick(rows);
            (row.label, row.to)
        };
        half.steps.push(HalfStep { label, to });
    }
    half
}

/// A formula with exactly `nodes` nodes and forward modalities nested at most `nesting` deep.
pub fn random_formula(random: &mut Random, k: u8, nodes: usize, nesting: usize) -> Formula {
    if nodes == 1 {
        return random.pick(&[Formula::True, Formula::False]).clone();
    }
    if nodes >= 3 && random.once_in(3) {
        let first = random.from_to(1, nodes - 2);
        let a = Box::new(random_formula(random, k, first, nesting));
        let b = Box::new(random_formula(random, k, nodes - 1 - first, nesting));
        return match random.below(2) {
            0 => Formula::And(a, b),
            _ => Formula::Or(a, b),
        };
    }
    let label = random.byte(0, highest(k));
    let kind = random.below(if nesting > 0 { 5 } else { 3 });
    let deeper = if kind < 3 { nesting } else { nesting - 1 };
    let operand = Box::new(random_formula(random, k, nodes - 1, deeper));
    match kind {
        0 => Formula::Not(operand),
        1 => Formula::Back(label, operand),
        2 => Formula::BackIdle(operand),
        3 => Formula::Forward(label, operand),
        _ => Formula::ForwardIdle(operand),
    }
}
