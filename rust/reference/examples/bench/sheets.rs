//! Times the engine's sheet program and the plain one as child processes on the same casebooks: standard input from a
//! file, standard output to nowhere, runs of both in turn, the best of each.

use std::env;
use std::fs::{self, File};
use std::io::Read;
use std::path::{Path, PathBuf};
use std::process::{Command, Stdio};
use std::time::{Duration, Instant};

use reference::casebook::Parts;
use reference::table::{Row, Table};

use crate::inputs::times;
use crate::timing::shown;

/// About so long all runs on one casebook are to take.
const LOAD: Duration = Duration::from_millis(3000);
/// The fewest and the most runs of each program on one casebook.
const RUNS: [usize; 2] = [3, 40];

/// Nodes of questions.
const TRUE: [u8; 2] = [0, 0];
const FALSE: [u8; 2] = [1, 0];
const NOT: [u8; 2] = [2, 0];
const AHEAD: [u8; 2] = [5, 0];
const BACK: [u8; 2] = [6, 1];

/// A casebook and what is in it.
struct Load {
    what: &'static str,
    casebook: Vec<u8>,
}

/// Times the loads that were chosen (all, if no word is given) and prints a line for each, then the mean of the ratios.
pub fn run(words: &[String]) {
    let heading = "sheets: best time of a program, engine and plain program in turn";
    let chosen = |load: &Load| {
        let holds = |word: &String| load.what.contains(word) || heading.contains(word);
        words.is_empty() || words.iter().any(holds)
    };
    let six: Vec<Load> = six_loads().into_iter().filter(chosen).collect();
    let small = Some(case_a()).filter(chosen);
    if six.is_empty() && small.is_none() {
        return;
    }
    println!("{heading}");
    let programs = Programs::find();
    let ratios: Vec<f64> = six.iter().map(|load| programs.bench(load)).collect();
    if !ratios.is_empty() {
        let mean = ratios.iter().map(|ratio| ratio.ln()).sum::<f64>() / ratios.len() as f64;
        println!(
            "{:>34.2}  geometric mean of these {}",
            mean.exp(),
            ratios.len()
        );
    }
    if let Some(load) = small {
        programs.bench(&load);
    }
}

/// Where both programs and the casebook lie.
struct Programs {
    engine: PathBuf,
    plain: PathBuf,
    casebook: PathBuf,
}

impl Programs {
    /// The engine's program is named by YENUSLAP_SHEET or lies where its build leaves it, the plain one beside this one.
    fn find() -> Programs {
        let built = Path::new(env!("CARGO_MANIFEST_DIR")).join("../../target/bin/sheet");
        let engine = env::var_os("YENUSLAP_SHEET").map_or(built, PathBuf::from);
        let plain = env::current_exe().unwrap().with_file_name("plain_sheet");
        for program in [&engine, &plain] {
            assert!(program.exists(), "no program {}", program.display());
        }
        let name = format!("yenuslap-bench-{}.casebook", std::process::id());
        Programs {
            engine,
            plain,
            casebook: env::temp_dir().join(name),
        }
    }

    /// Runs both programs on a load, prints the line and gives the ratio of their times.
    fn bench(&self, load: &Load) -> f64 {
        fs::write(&self.casebook, &load.casebook).unwrap();
        let lines = self.same_lines(load.what);
        let mut best = [f64::INFINITY; 2];
        let begin = Instant::now();
        for run in 0..RUNS[1] {
            if run >= RUNS[0] && begin.elapsed() > LOAD {
                break;
            }
            for (best, program) in best.iter_mut().zip([&self.engine, &self.plain]) {
                *best = best.min(self.time(program));
            }
        }
        fs::remove_file(&self.casebook).unwrap();
        let [engine, plain] = best;
        let (ratio, what) = (engine / plain, load.what);
        let (engine, plain) = (shown(engine), shown(plain));
        println!("{engine:>10} {plain:>10} {ratio:>12.2}  {what}: {lines} lines");
        ratio
    }

    /// A program about to read the casebook.
    fn command(&self, program: &Path) -> Command {
        let mut command = Command::new(program);
        command.stdin(File::open(&self.casebook).unwrap());
        command
    }

    /// The seconds of one run.
    fn time(&self, program: &Path) -> f64 {
        let mut command = self.command(program);
        command.stdout(Stdio::null());
        let begin = Instant::now();
        let status = command.status().unwrap();
        let seconds = begin.elapsed().as_secs_f64();
        assert!(status.success(), "{}: {status}", program.display());
        seconds
    }

    /// How many lines both print; they must be the same.
    fn same_lines(&self, what: &str) -> usize {
        let mut children = [&self.engine, &self.plain].map(|program| {
            let mut command = self.command(program);
            command.stdout(Stdio::piped()).spawn().unwrap()
        });
        let mut outputs = children
            .each_mut()
            .map(|child| child.stdout.take().unwrap());
        let mut lines = 0;
        let mut blocks = [Vec::new(), Vec::new()];
        loop {
            for (block, output) in blocks.iter_mut().zip(&mut outputs) {
                block.clear();
                output.take(1 << 20).read_to_end(block).unwrap();
            }
            assert!(blocks[0] == blocks[1], "{what}: sheets differ");
            lines += blocks[0].iter().filter(|byte| **byte == b'\n').count();
            if blocks[0].is_empty() {
                break;
            }
        }
        for child in &mut children {
            child.wait().unwrap();
        }
        lines
    }
}

/// The six kinds of load.
fn six_loads() -> Vec<Load> {
    let mut loads = short_logs();
    loads.extend(long_logs());
    loads.extend(dense_tables());
    loads.extend(large_quotients());
    loads.extend(too_large());
    loads.extend(deep_backs());
    loads
}

/// A log of label 1 whose steps have two ways where this says so: both machines loop. Elsewhere the left machine moves.
fn by_ones(what: &'static str, two_way: &[bool], question: Vec<u8>) -> Load {
    let mut run = vec![0, 0];
    let mut left = 0;
    for loops in two_way {
        left ^= u8::from(!loops);
        run.extend([1, left, 0]);
    }
    let parts = Parts {
        k: 1,
        left: vec![2, 0, 1, 0, 0, 1, 1, 1, 1, 0, 1, 1, 1],
        right: vec![1, 0, 1, 0],
        run,
        question,
    };
    let casebook = parts.to_bytes();
    Load { what, casebook }
}

/// 200 steps of which so many have two ways: the first, evenly spread, or the last.
fn front(two_way: usize) -> Vec<bool> {
    (0..200).map(|step| step < two_way).collect()
}

fn spread(two_way: usize) -> Vec<bool> {
    let gap = 200 / two_way;
    (0..200)
        .map(|step| step % gap == gap - 1 && step / gap < two_way)
        .collect()
}

fn end(two_way: usize) -> Vec<bool> {
    (0..200).map(|step| step >= 200 - two_way).collect()
}

/// So many nested back by 1 over true.
fn backs(count: usize) -> Vec<u8> {
    times(count, BACK, &TRUE)
}

/// "Or" over so many times three nested backs.
fn wide(count: usize) -> Vec<u8> {
    [[4, 0].repeat(count - 1), backs(3).repeat(count)].concat()
}

/// 1: 32,768 splittings on a short log.
fn short_logs() -> Vec<Load> {
    let fifteen = [true; 15];
    let more = [true, false, false].repeat(15);
    vec![
        by_ones("1. 15 two-way steps, 1 back", &fifteen, backs(1)),
        by_ones("1. 15 two-way steps, 3 backs", &fifteen, backs(3)),
        by_ones("1. 15 two-way steps, 12 times 3 backs", &fifteen, wide(12)),
        by_ones(
            "1. 15 of 45 steps two-way, 12 times 3 backs",
            &more,
            wide(12),
        ),
    ]
}

/// 2: 32,768 splittings on a log of 200 steps.
fn long_logs() -> Vec<Load> {
    vec![
        by_ones(
            "2. 200 steps, the first 15 two-way, 3 backs",
            &front(15),
            backs(3),
        ),
        by_ones(
            "2. 200 steps, 15 two-way evenly spread, 3 backs",
            &spread(15),
            backs(3),
        ),
    ]
}

/// A machine of 64 states, each with a row of each of the labels 1 to 4 to each of two other states.
fn paired() -> Table {
    let row = |at: u16| {
        let (from, label) = ((at / 8) as u8, (at / 2 % 4) as u8 + 1);
        let to = (from + 8 * (at % 2) as u8 + 5) % 64;
        Row { from, label, to }
    };
    let mut rows: Vec<Row> = (0..512).map(row).collect();
    rows.sort();
    Table::new(64, rows)
}

/// So many handshakes of two such machines from their states 0, each in four ways, then a question of nested forwards.
fn paired_log(what: &'static str, steps: u8, ahead: [u8; 4], rest: &[u8]) -> Load {
    let table = paired().to_bytes();
    let mut run = vec![0, 0];
    let (mut p, mut q) = (0, 0);
    for step in 0..steps {
        p = (p + 5) % 64;
        q = (q + 5 + 8 * (step % 2)) % 64;
        run.extend([0, p, q]);
    }
    let forwards: Vec<u8> = ahead.into_iter().flat_map(|label| [5, label]).collect();
    let parts = Parts {
        k: 2,
        left: table.clone(),
        right: table,
        run,
        question: [&forwards[..], rest].concat(),
    };
    let casebook = parts.to_bytes();
    Load { what, casebook }
}

/// 3: four nested forwards on machines of 512 rows with handshakes.
fn dense_tables() -> Vec<Load> {
    let over_false = "3. 512 rows, forward by 0, 0, 1, 1 over false";
    let over_backs = "3. 512 rows, forward by 1, 0, 1, 2 over back by 2, 1, 0";
    let backs = [6, 2, 6, 1, 6, 0, 0, 0];
    vec![
        paired_log(over_false, 6, [0, 0, 1, 1], &FALSE),
        paired_log(over_backs, 7, [1, 0, 1, 2], &backs),
    ]
}

/// One state each: the left loops by 1, the right by 1 to 8; some two-way steps, then one-way steps by 2.
fn eight_loops(what: &'static str, [two_way, one_way]: [usize; 2], question: Vec<u8>) -> Load {
    let rows = (1..=8).flat_map(|label| [0, label, 0]);
    let run = [
        vec![0, 0],
        [1, 0, 0].repeat(two_way),
        [2, 0, 0].repeat(one_way),
    ]
    .concat();
    let parts = Parts {
        k: 4,
        left: vec![1, 0, 1, 0],
        right: [1].into_iter().chain(rows).collect(),
        run,
        question,
    };
    let casebook = parts.to_bytes();
    Load { what, casebook }
}

/// 4: quotients near 4,096 nodes on each line.
fn large_quotients() -> Vec<Load> {
    let ahead = times(3, AHEAD, &times(2, NOT, &TRUE));
    let two_ahead = times(2, AHEAD, &times(1, NOT, &TRUE));
    // 1 + 3,734 + 1 + 332 + 28 nodes.
    let nots = times(27, NOT, &TRUE);
    let exactly = [&[3, 0][..], &ahead, &[4, 0], &two_ahead, &nots].concat();
    let backs = [&[3, 0][..], &times(2, BACK, &TRUE), &ahead].concat();
    vec![
        eight_loops("4. 3,734 nodes on each line", [8, 28], ahead),
        eight_loops("4. 4,096 nodes on each line", [7, 50], exactly),
        eight_loops("4. 3,734 nodes and 2 backs on each line", [9, 12], backs),
    ]
}

/// 5: 17 on each line.
fn too_large() -> Vec<Load> {
    let ahead = times(4, AHEAD, &TRUE);
    let after = times(4, AHEAD, &times(20, NOT, &TRUE));
    let backs = [&[3, 0][..], &times(3, BACK, &TRUE), &after].concat();
    vec![
        eight_loops("5. 17 on each line, 15 two-way steps", [15, 0], ahead),
        eight_loops("5. 17 on each line, 3 backs beside", [13, 20], backs),
    ]
}

/// 6: questions of 64 nodes with 60 nested backs, on 200 steps.
fn deep_backs() -> Vec<Load> {
    let ask = times(60, BACK, &times(3, NOT, &TRUE));
    vec![
        by_ones(
            "6. 60 backs, 200 steps, the first 13 two-way",
            &front(13),
            ask.clone(),
        ),
        by_ones(
            "6. 60 backs, 200 steps, 14 two-way evenly spread",
            &spread(14),
            ask.clone(),
        ),
        by_ones("6. 60 backs, 200 steps, the last 15 two-way", &end(15), ask),
    ]
}

/// Case A: what a program costs apart from its work.
fn case_a() -> Load {
    let parts = Parts {
        k: 2,
        left: vec![2, 0, 1, 1, 0, 3, 1],
        right: vec![2, 0, 2, 1, 0, 4, 1],
        run: vec![0, 0, 0, 1, 1],
        question: vec![6, 0, 0, 0],
    };
    Load {
        what: "small: case A",
        casebook: parts.to_bytes(),
    }
}
