//! Benches of joint and half verdicts.

use reference::half::HalfRun;
use reference::run::JointRun;
use reference::table::Table;
use reference::{verdict, Refusal};
use yenuslap::bare;

use crate::inputs::{dense, half_log, log, times, way_back, wide, Build};
use crate::timing::{on_both, Bench, Group};

/// The formulas "false" and "true".
const FALSE: [u8; 2] = [1, 0];
const TRUE: [u8; 2] = [0, 0];

/// All benches of verdicts.
pub fn groups() -> Vec<Group> {
    let group = |name, benches| Group { name, benches };
    vec![
        group("verdict: looking ahead, joint", ahead_joint()),
        group("verdict: looking ahead, half", ahead_half()),
        group("verdict: long logs", long_logs()),
        group("verdict: wide trees", wide_trees()),
        group("verdict: small calls", small_calls()),
    ]
}

/// The reference's answer as the engine gives it.
fn as_bare(verdict: Result<bool, Refusal>) -> u64 {
    match verdict {
        Ok(holds) => u64::from(holds),
        Err(number) => u64::from(number) << 32,
    }
}

/// Two machines and a log, as bytes.
#[derive(Clone)]
struct Pair {
    k: u8,
    left: Vec<u8>,
    right: Vec<u8>,
    run: Vec<u8>,
}

impl Pair {
    fn new(k: u8, left: &Table, right: &Table, run: &JointRun) -> Pair {
        Pair {
            k,
            left: left.to_bytes(),
            right: right.to_bytes(),
            run: run.to_bytes(),
        }
    }

    /// The bench of one joint verdict.
    fn bench(&self, what: &str, formula: &[u8], point: usize) -> Bench {
        on_both(
            what,
            (self.clone(), formula.to_vec()),
            move |(it, f)| bare::joint_verdict(it.k, &it.left, &it.right, &it.run, f, point),
            move |(it, f)| as_bare(verdict::joint(it.k, &it.left, &it.right, &it.run, f, point)),
        )
    }
}

/// A machine and a half run, as bytes.
#[derive(Clone)]
struct Single {
    k: u8,
    table: Vec<u8>,
    half: Vec<u8>,
}

impl Single {
    fn new(k: u8, table: &Table, half: &HalfRun) -> Single {
        Single {
            k,
            table: table.to_bytes(),
            half: half.to_bytes(),
        }
    }

    /// The bench of one half verdict.
    fn bench(&self, what: &str, formula: &[u8], point: usize) -> Bench {
        on_both(
            what,
            (self.clone(), formula.to_vec()),
            move |(it, f)| bare::half_verdict(it.k, &it.table, &it.half, f, point),
            move |(it, f)| as_bare(verdict::half(it.k, &it.table, &it.half, f, point)),
        )
    }
}

/// Two dense machines at their start.
fn dense_pair(left: [u8; 8], right: [u8; 8]) -> Pair {
    let (left, right) = (dense(left), dense(right));
    let run = log(&left, &right, 0);
    Pair::new(4, &left, &right, &run)
}

/// Nested forward modalities on machines of 64 states and 512 rows each. Over false, or true under "not", the innermost
/// one fails at once; over what looks back, all is searched.
fn ahead_joint() -> Vec<Bench> {
    let two_pairs = [1, 1, 1, 1, 2, 2, 2, 2];
    let mut over_all = TRUE.to_vec();
    for _ in 0..4 {
        over_all = [&[2, 0, 5, 1, 2, 0], &over_all[..]].concat();
    }
    let eight = [1, 2, 3, 4, 5, 6, 7, 8];
    vec![
        dense_pair(two_pairs, two_pairs).bench(
            "4 nested forward by 0 over false, 32 handshakes from each state",
            &times(4, [5, 0], &FALSE),
            0,
        ),
        dense_pair([1; 8], [2; 8]).bench(
            "3 nested forward by 0 over false, 64 handshakes from each state",
            &times(3, [5, 0], &FALSE),
            0,
        ),
        dense_pair([0; 8], [0; 8]).bench(
            "4 nested forward by 0 over false, 16 silent rows from each state",
            &times(4, [5, 0], &FALSE),
            0,
        ),
        dense_pair([1; 8], [1; 8]).bench(
            "4 nested forward by 1 over false, 16 rows from each state",
            &times(4, [5, 1], &FALSE),
            0,
        ),
        dense_pair([1; 8], [1; 8]).bench(
            "4 nested not forward by 1 not, over true, 16 rows from each state",
            &over_all,
            0,
        ),
        dense_pair([1; 8], [1; 8]).bench(
            "4 nested forward by 1 over back by 2 over true, 16 rows from each state",
            &times(4, [5, 1], &[6, 2, 0, 0]),
            0,
        ),
        dense_pair([1; 8], [1; 8]).bench(
            "4 nested not forward by 1 not, over back by 1 over true, 16 rows from each state",
            &[&over_all[..over_all.len() - 2], &[6, 1, 0, 0]].concat(),
            0,
        ),
        dense_pair([1; 8], [1; 8]).bench(
            "3 nested forward by 1 over back by 1, true, and forward by 2, true, 16 rows from each state",
            &times(3, [5, 1], &[3, 0, 6, 1, 0, 0, 5, 2, 0, 0]),
            0,
        ),
        dense_pair(eight, eight).bench(
            "3 nested or over forward by 1 to 8, over false, 2 rows for each label",
            &every_label(3),
            0,
        ),
        dense_pair(eight, eight).bench(
            "4 nested forward by 0 over false, 8 handshakes from each state",
            &times(4, [5, 0], &FALSE),
            0,
        ),
    ]
}

/// Forward by 1 or .. or forward by 8, nested so deep, over false.
fn every_label(depth: usize) -> Vec<u8> {
    if depth == 0 {
        return FALSE.to_vec();
    }
    let inner = every_label(depth - 1);
    let mut formula = Vec::new();
    for label in 1..=8 {
        if label < 8 {
            formula.extend([4, 0]);
        }
        formula.extend([5, label]);
        formula.extend(&inner);
    }
    formula
}

/// The same on a half run.
fn ahead_half() -> Vec<Bench> {
    let single = |labels| {
        let table = dense(labels);
        Single::new(4, &table, &half_log(&table, 0))
    };
    let there_and_back = [5, 1, 6, 1].repeat(4);
    vec![
        single([1; 8]).bench(
            "4 nested forward by 1 over false, 8 rows from each state",
            &times(4, [5, 1], &FALSE),
            0,
        ),
        single([1; 8]).bench(
            "4 nested forward by 1 over back by 2 over true, 8 rows from each state",
            &times(4, [5, 1], &[6, 2, 0, 0]),
            0,
        ),
        single([0; 8]).bench(
            "4 nested forward by 0 over false, 8 silent rows from each state",
            &times(4, [5, 0], &FALSE),
            0,
        ),
        single([1; 8]).bench(
            "4 times forward by 1 and back by 1, over false, 8 rows from each state",
            &[&there_and_back[..], &FALSE].concat(),
            0,
        ),
        single([1, 2, 3, 4, 5, 6, 7, 8]).bench(
            "3 nested or over forward by 1 to 8, over false, 1 row for each label",
            &every_label(3),
            0,
        ),
    ]
}

/// Runs of 200 steps on machines of 64 states and 512 rows.
fn long_logs() -> Vec<Bench> {
    let labels = [0, 1, 1, 1, 1, 2, 3, 4];
    let table = dense(labels);
    let run = log(&table, &table, 200);
    let half = half_log(&table, 200);
    let pair = Pair::new(4, &table, &table, &run);
    let single = Single::new(4, &table, &half);
    let joint_labels: Vec<u8> = run.steps.iter().map(|step| step.label).collect();
    let half_labels: Vec<u8> = half.steps.iter().map(|step| step.label).collect();
    let once = |labels: &[u8]| [&way_back(labels)[..], &TRUE].concat();
    let ten = |labels: &[u8]| wide(Build::Right, 3, &once(labels), 10);
    vec![
        pair.bench("joint, true: the checks alone", &TRUE, 200),
        pair.bench("joint, back 200 steps", &once(&joint_labels), 200),
        pair.bench(
            "joint, and over 10 times back 200 steps",
            &ten(&joint_labels),
            200,
        ),
        pair.bench(
            "joint, 4 times back 49 steps and forward by 1, over false",
            &back_and_ahead(&joint_labels),
            200,
        ),
        single.bench("half, true: the checks alone", &TRUE, 200),
        single.bench("half, back 200 steps", &once(&half_labels), 200),
        single.bench(
            "half, and over 10 times back 200 steps",
            &ten(&half_labels),
            200,
        ),
        single.bench(
            "half, 4 times back 49 steps and forward by 1, over false",
            &back_and_ahead(&half_labels),
            200,
        ),
    ]
}

/// Four times 49 steps back along the log, then forward by 1 (and back from there, to go on), over false.
fn back_and_ahead(labels: &[u8]) -> Vec<u8> {
    let mut formula = Vec::new();
    for quarter in 0..4 {
        let end = labels.len() - 49 * quarter;
        if quarter > 0 {
            formula.extend([6, 1]);
        }
        formula.extend(way_back(&labels[end - 49..end]));
        formula.extend([5, 1]);
    }
    formula.extend(FALSE);
    formula
}

/// Trees of 4,095 nodes and more in which every leaf is judged.
fn wide_trees() -> Vec<Bench> {
    let small = case_a();
    let half = case_a_half();
    let table = dense([1; 8]);
    let busy = Pair::new(1, &table, &table, &log(&table, &table, 0));
    let builds = [
        (Build::Right, "to the right"),
        (Build::Left, "to the left"),
        (Build::Balanced, "balanced"),
    ];
    let mut benches = Vec::new();
    for (build, how) in builds {
        let ands = wide(build, 3, &TRUE, 2048);
        let name = format!("joint, and over 2,048 times true, {how}");
        benches.push(small.bench(&name, &ands, 1));
        let name = format!("half, and over 2,048 times true, {how}");
        benches.push(half.bench(&name, &ands, 1));
        let asking = wide(build, 4, &[6, 0, 5, 0, 1, 0], 1024);
        let name = format!("joint, or over 1,024 times back by 0, forward by 0, false, {how}");
        benches.push(small.bench(&name, &asking, 1));
        let ors = wide(build, 4, &FALSE, 2047);
        let name = format!(
            "joint, 2 nested forward by 1 (256 runs) over or over 2,047 times false, {how}"
        );
        benches.push(busy.bench(&name, &times(2, [5, 1], &ors), 0));
    }
    let nots = times(4095, [2, 0], &TRUE);
    benches.push(small.bench("joint, 4,095 times not", &nots, 1));
    benches.push(half.bench("half, 4,095 times not", &nots, 1));
    benches
}

/// Document 01's case A.
fn case_a() -> Pair {
    Pair {
        k: 2,
        left: vec![2, 0, 1, 1, 0, 3, 1],
        right: vec![2, 0, 2, 1, 0, 4, 1],
        run: vec![0, 0, 0, 1, 1],
    }
}

/// Case A's left half, shaking hands on 1.
fn case_a_half() -> Single {
    Single {
        k: 2,
        table: vec![2, 0, 1, 1, 0, 3, 1],
        half: vec![0, 1, 1],
    }
}

/// Case A: what a call costs apart from its work.
fn small_calls() -> Vec<Bench> {
    let refused = Pair { k: 16, ..case_a() };
    vec![
        case_a().bench(
            "joint, case A at point 1, back by 0 over true",
            &[6, 0, 0, 0],
            1,
        ),
        case_a().bench(
            "joint, case A at point 0, forward by 0 over true",
            &[5, 0, 0, 0],
            0,
        ),
        case_a_half().bench(
            "half, case A at point 1, back by 1 over true",
            &[6, 1, 0, 0],
            1,
        ),
        refused.bench("joint, case A with k 16", &[6, 0, 0, 0], 1),
    ]
}
