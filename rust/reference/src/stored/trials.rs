//! The trials of `crates/ground_cases`: the edges of every argument, written out, and damaged inputs from fixed seeds.

mod damage;
mod halves;
mod joints;
mod numbers;
mod tables;

use std::collections::HashSet;

use super::trial::Trial;

/// All trials, in the order of the program's input; what comes up twice stands there once.
pub fn all() -> Vec<Trial> {
    let mut trials = [
        numbers::trials(),
        tables::trials(),
        halves::trials(),
        joints::trials(),
    ]
    .concat();
    let mut seen = HashSet::new();
    trials.retain(|trial| seen.insert(trial.to_bytes()));
    trials
}

/// Numbers of pairs on both sides of each bound: 15 is the most that is accepted, and from 127 on labels end at 254.
const PAIRS: [u8; 12] = [0, 1, 2, 14, 15, 16, 17, 126, 127, 128, 254, 255];

/// A table that the check refuses, by each of its numbers: of no bytes, of no states, with a label out of range, with a
/// row twice, with nine rows from one state.
fn refused_tables() -> [Vec<u8>; 5] {
    let nine: Vec<u8> = (0..=8).flat_map(|to| [0, 0, to]).collect();
    [
        vec![],
        vec![0],
        vec![2, 0, 255, 1],
        vec![2, 0, 1, 1, 0, 1, 1],
        [vec![9], nine].concat(),
    ]
}

#[cfg(test)]
mod tests {
    use super::*;
    use std::collections::BTreeMap;

    /// How many trials of each function answer each line; lines of several numbers count by their first one.
    fn answers() -> BTreeMap<u8, BTreeMap<String, usize>> {
        let mut found: BTreeMap<u8, BTreeMap<String, usize>> = BTreeMap::new();
        for trial in all() {
            let first = trial.line().split(' ').next().unwrap_or("").to_string();
            let kinds = found.entry(trial.to_bytes()[0]).or_default();
            *kinds.entry(first).or_default() += 1;
        }
        found
    }

    /// Each check refuses by each of its numbers many times and accepts many times; each lookup finds and fails.
    #[test]
    fn every_answer_is_tried() {
        let found = answers();
        println!("{found:?}");
        let least = |code: u8, first: &[&str], times: usize| {
            for answer in first {
                let count = found[&code].get(*answer).copied().unwrap_or(0);
                assert!(count >= times, "function {code}: {answer} {count} times");
            }
        };
        least(0, &["0", "4"], 16);
        least(1, &["0", "1"], 12);
        least(3, &["0", "3", "4", "5", "6"], 20);
        least(3, &["7"], 8);
        least(4, &["1", "-"], 10);
        least(5, &["R", "0", "3", "24"], 4);
        least(6, &["0", "1"], 20);
        least(6, &["R"], 4);
        least(7, &["0", "3", "4", "5", "6", "7", "15"], 4);
        least(8, &["0", "1", "2"], 5);
        least(9, &["0", "1", "3", "5", "7"], 5);
        least(10, &["1", "2"], 1);
        least(12, &["0", "8"], 60);
        least(12, &["3", "4", "5", "6", "7"], 4);
    }

    /// A line of the program has at most 4,096 bytes, its end among them.
    #[test]
    fn lines_fit_into_the_programs_array() {
        assert!(all().iter().all(|trial| trial.line().len() < 4096));
    }
}
