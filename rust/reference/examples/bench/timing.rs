//! Interleaved repetitions, medians and the printed table.

use std::hint::black_box;
use std::time::{Duration, Instant};

/// About so long one sample is to take; short calls are repeated within it.
const SAMPLE: Duration = Duration::from_millis(6);
/// About so long all samples of one bench are to take.
const BENCH: Duration = Duration::from_millis(1000);
/// The fewest and the most samples of one bench.
const SAMPLES: [usize; 2] = [3, 25];

/// One call, whole, with its answer as the engine gives it.
pub type Call = Box<dyn Fn() -> u64>;

/// The same call into the engine and into the reference.
pub struct Bench {
    pub what: String,
    pub engine: Call,
    pub plain: Call,
}

/// The bench of a call by the engine and by the plain implementation on one input.
pub fn on_both<T: Clone + 'static>(
    what: &str,
    input: T,
    engine: impl Fn(&T) -> u64 + 'static,
    plain: impl Fn(&T) -> u64 + 'static,
) -> Bench {
    let again = input.clone();
    Bench {
        what: what.to_string(),
        engine: Box::new(move || engine(&input)),
        plain: Box::new(move || plain(&again)),
    }
}

/// Benches under one heading.
pub struct Group {
    pub name: &'static str,
    pub benches: Vec<Bench>,
}

/// Runs the benches that were chosen (all, if no word is given) and prints a line for each.
pub fn run(groups: Vec<Group>, words: &[String]) {
    println!("median time of one call, engine and plain implementation interleaved");
    println!(
        "{:>10} {:>10} {:>12}  what",
        "engine", "plain", "engine/plain"
    );
    for group in groups {
        let chosen = |bench: &&Bench| {
            let holds = |word: &String| bench.what.contains(word) || group.name.contains(word);
            words.is_empty() || words.iter().any(holds)
        };
        let benches: Vec<&Bench> = group.benches.iter().filter(chosen).collect();
        if !benches.is_empty() {
            println!("{}", group.name);
        }
        for bench in benches {
            bench.run();
        }
    }
}

impl Bench {
    /// Times both sides and prints the line.
    fn run(&self) {
        let answer = (self.engine)();
        assert_eq!(answer, (self.plain)(), "{}: answers differ", self.what);
        let calls = [&self.engine, &self.plain];
        let repeats = calls.map(repeats);
        let mut samples = [Vec::new(), Vec::new()];
        let begin = Instant::now();
        while samples[0].len() < SAMPLES[0]
            || (samples[0].len() < SAMPLES[1] && begin.elapsed() < BENCH)
        {
            for side in [0, 1] {
                samples[side].push(sample(calls[side], repeats[side]));
            }
        }
        let [engine, plain] = samples.map(median);
        let (ratio, what) = (engine / plain, &self.what);
        let (engine, plain) = (shown(engine), shown(plain));
        println!(
            "{engine:>10} {plain:>10} {ratio:>12.2}  {what}: {}",
            said(answer)
        );
    }
}

/// How often a call fits into one sample, at least once.
fn repeats(call: &Call) -> u32 {
    let begin = Instant::now();
    let mut count = 0;
    while count == 0 || begin.elapsed() < SAMPLE {
        black_box(call());
        count += 1;
    }
    count
}

/// The seconds that one call takes, on average over so many.
fn sample(call: &Call, repeats: u32) -> f64 {
    let begin = Instant::now();
    for _ in 0..repeats {
        black_box(call());
    }
    begin.elapsed().as_secs_f64() / f64::from(repeats)
}

/// The sample in the middle.
fn median(mut samples: Vec<f64>) -> f64 {
    samples.sort_by(f64::total_cmp);
    samples[samples.len() / 2]
}

/// Seconds in a unit that suits them.
pub fn shown(seconds: f64) -> String {
    match seconds {
        s if s < 1e-6 => format!("{:.0} ns", s * 1e9),
        s if s < 1e-3 => format!("{:.2} us", s * 1e6),
        s if s < 1.0 => format!("{:.2} ms", s * 1e3),
        s => format!("{s:.2} s"),
    }
}

/// The answer on which both agree, in words.
fn said(answer: u64) -> String {
    match answer >> 32 {
        0 => format!("value {answer}"),
        number => format!("refused {number}"),
    }
}
