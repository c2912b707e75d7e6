//! Benches of counting, splitting and joining.

use std::iter;

use reference::label::{IDLE, SILENT};
use reference::run::{JointRun, JointStep};
use reference::table::{Row, Table};
use reference::{splitting, Refusal};
use yenuslap::bare;

use crate::timing::{Bench, Group};

/// All benches of splittings.
pub fn groups() -> Vec<Group> {
    let group = |name, benches| Group { name, benches };
    vec![
        group("splitting: 200 steps", long_logs()),
        group("splitting: linear in the steps", growing_logs()),
        group("splitting: small calls", small_calls()),
    ]
}

/// The reference's answer as the engine gives it.
pub fn as_bare(value: Result<usize, Refusal>) -> u64 {
    match value {
        Ok(value) => value as u64,
        Err(number) => u64::from(number) << 32,
    }
}

/// The length of the longest half run and of the longest joint run.
const HALF: usize = 401;
const JOINT: usize = 602;

/// Two machines and a log, as bytes.
#[derive(Clone)]
pub struct Log {
    what: &'static str,
    pub k: u8,
    pub left: Vec<u8>,
    pub right: Vec<u8>,
    pub run: Vec<u8>,
}

impl Log {
    fn new(what: &'static str, k: u8, left: &Table, right: &Table, run: &JointRun) -> Log {
        Log {
            what,
            k,
            left: left.to_bytes(),
            right: right.to_bytes(),
            run: run.to_bytes(),
        }
    }

    /// How many splittings there are, or the refusal.
    fn counted(&self) -> Result<usize, Refusal> {
        splitting::count(self.k, &self.left, &self.right, &self.run)
    }

    /// The bench of counting.
    fn count(&self) -> Bench {
        let (it, again) = (self.clone(), self.clone());
        Bench {
            what: format!("count, {}", self.what),
            engine: Box::new(move || bare::count_splittings(it.k, &it.left, &it.right, &it.run)),
            plain: Box::new(move || as_bare(again.counted())),
        }
    }

    /// The bench of splitting by a number.
    fn split(&self, which: &str, number: usize) -> Bench {
        let (it, again) = (self.clone(), self.clone());
        let engine = move || {
            let (mut left, mut right) = ([0; HALF], [0; HALF]);
            let outputs = (&mut left[..], &mut right[..]);
            let (k, run) = (it.k, &it.run);
            bare::split(k, &it.left, &it.right, run, number, outputs.0, outputs.1)
        };
        let plain = move || {
            let (left, right, run) = (&again.left, &again.right, &again.run);
            let halves = splitting::split(again.k, left, right, run, number, [HALF; 2]);
            as_bare(halves.map(|halves| halves[0].len()))
        };
        Bench {
            what: format!("split by {which} number, {}", self.what),
            engine: Box::new(engine),
            plain: Box::new(plain),
        }
    }

    /// The bench of joining two halves that the log has.
    fn join(&self, halves: [Vec<u8>; 2]) -> Bench {
        let (it, again) = ((self.clone(), halves.clone()), (self.clone(), halves));
        let engine = move || {
            let (log, [left_half, right_half]) = &it;
            let mut out = [0; JOINT];
            bare::join(
                log.k, &log.left, &log.right, left_half, right_half, &mut out,
            )
        };
        let plain = move || {
            let (log, [left_half, right_half]) = &again;
            let (left, right) = (&log.left, &log.right);
            let run = splitting::join(log.k, left, right, left_half, right_half, JOINT);
            as_bare(run.map(|run| run.len()))
        };
        Bench {
            what: format!("join, {}", self.what),
            engine: Box::new(engine),
            plain: Box::new(plain),
        }
    }

    /// Counting, splitting by the first, the middle and the last number, and joining what the middle one gives.
    fn benches(&self) -> Vec<Bench> {
        let count = self.counted().expect("a log with numbered splittings");
        let (left, right, run) = (&self.left, &self.right, &self.run);
        let halves = splitting::split(self.k, left, right, run, count / 2, [HALF; 2]).unwrap();
        vec![
            self.count(),
            self.split("the first", 0),
            self.split("the middle", count / 2),
            self.split("the last", count - 1),
            self.join(halves),
        ]
    }
}

/// A table with one state and loops of these labels.
fn loops(labels: &[u8]) -> Table {
    let row = |label: &u8| Row {
        from: 0,
        label: *label,
        to: 0,
    };
    Table::new(1, labels.iter().map(row).collect())
}

/// A log on two one-state machines.
fn looping(labels: impl Iterator<Item = u8>) -> JointRun {
    let step = |label| JointStep {
        label,
        left: 0,
        right: 0,
    };
    JointRun {
        left: 0,
        right: 0,
        steps: labels.map(step).collect(),
    }
}

/// A machine of 64 states with a row for each of the labels 1 to 8 from each state, so many states further.
fn dense(further: [u8; 8]) -> Table {
    let mut rows = Vec::new();
    for from in 0..64 {
        let row = |(by, label): (u8, u8)| Row {
            from,
            label,
            to: (from + by) % 64,
        };
        rows.extend(further.into_iter().zip(1..).map(row));
    }
    Table::new(64, rows)
}

/// A log of handshakes on dense tables. On 1 and on 3 the machines come to the same states: 15 steps have these two
/// ways, each other one has one.
pub fn dense_log() -> Log {
    let left = dense([1, 9, 1, 17, 25, 33, 41, 49]);
    let right = dense([9, 1, 17, 1, 25, 33, 41, 49]);
    let mut run = looping(iter::empty());
    for at in 0..200 {
        // A handshake on 1 or 3, else on 2 or on 5 to 8.
        let (by, other) = match at % 13 {
            5 if at < 195 => (1, 1),
            turn => [(9, 9), (25, 33), (33, 25), (41, 49), (49, 41)][turn % 5],
        };
        let (p, q) = run.last();
        run.steps.push(JointStep {
            label: SILENT,
            left: (p + by) % 64,
            right: (q + other) % 64,
        });
    }
    let what = "512 rows a side, 200 handshakes, 15 of them two-way";
    Log::new(what, 4, &left, &right, &run)
}

/// Logs of 200 steps.
fn long_logs() -> Vec<Bench> {
    let (odd, even) = (loops(&[0, 1, 3, 5, 7]), loops(&[2, 4, 6, 8]));
    let twin = loops(&[1, 2]);
    // One silent step has five ways; each other one is an idle, or taken by the only machine that has its label.
    let one_way = |at: usize| [1, IDLE, 2, 3, 4][at % 5];
    let few = looping((0..200).map(|at| if at == 100 { SILENT } else { one_way(at) }));
    let fifteen = looping((0..200).map(|at| if at % 13 == 5 && at < 195 { 1 } else { IDLE }));
    let many = looping(iter::repeat_n(SILENT, 200));
    let few = Log::new(
        "one five-way step and 199 one-way steps",
        4,
        &odd,
        &even,
        &few,
    );
    let fifteen = Log::new("15 two-way steps and 185 idles", 1, &twin, &twin, &fifteen);
    let many = Log::new("five ways at each step", 4, &odd, &even, &many);
    let mut benches = few.benches();
    benches.extend(fifteen.benches());
    benches.extend(dense_log().benches());
    benches.extend([many.count(), many.split("any", 7)]);
    benches.push(many.join([
        [vec![0], [5, 0].repeat(200)].concat(),
        [vec![0], [6, 0].repeat(200)].concat(),
    ]));
    benches
}

/// The first 25, 50, 100 and 200 steps of a log.
fn growing_logs() -> Vec<Bench> {
    let whole = dense_log();
    let mut benches = Vec::new();
    for (what, steps) in [
        ("25 steps", 25),
        ("50 steps", 50),
        ("100 steps", 100),
        ("200 steps", 200),
    ] {
        let log = Log {
            what,
            run: whole.run[..2 + 3 * steps].to_vec(),
            ..whole.clone()
        };
        let [count, _, _, last, join] = log.benches().try_into().ok().unwrap();
        benches.extend([count, last, join]);
    }
    benches
}

/// Document 01's case A, a log without steps, and a refusal at once: what a call costs apart from its work.
fn small_calls() -> Vec<Bench> {
    let case_a = Log {
        what: "case A",
        k: 2,
        left: vec![2, 0, 1, 1, 0, 3, 1],
        right: vec![2, 0, 2, 1, 0, 4, 1],
        run: vec![0, 0, 0, 1, 1],
    };
    let no_steps = Log {
        what: "case A's machines and no steps",
        run: vec![0, 0],
        ..case_a.clone()
    };
    let refused = Log {
        what: "case A with k 16",
        k: 16,
        ..case_a.clone()
    };
    let mut benches = case_a.benches();
    benches.extend([no_steps.count(), no_steps.split("the only", 0)]);
    benches.push(no_steps.join([vec![0], vec![0]]));
    benches.push(refused.count());
    benches
}
