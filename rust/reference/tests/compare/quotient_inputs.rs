//! Logs with questions for quotients.

use crate::quotient_both::Logged;
use crate::splitting_both::Log;
use reference::fitted::along_joint;
use reference::formula::MOST_NESTING;
use reference::generate::random_formula;
use reference::random::Random;
use reference::run::read_run;
use reference::table::read_table;

/// A question of so many nodes, with forward modalities nested at most so deep, that looks along a sound log stopped at
/// a point.
pub fn fitted_question(
    random: &mut Random,
    log: &Log,
    point: usize,
    [nodes, nesting]: [usize; 2],
) -> Vec<u8> {
    let left = read_table(&log.left, log.k).unwrap();
    let right = read_table(&log.right, log.k).unwrap();
    let run = read_run(&log.run, &left, &right).unwrap();
    let mut along = along_joint(log.k, &left, &right, &run, point);
    along.formula(random, nodes, nesting).to_bytes()
}

/// A log with a question of so many nodes, now and then one that has nothing to do with the log.
pub fn with_question(random: &mut Random, log: Log, nodes: usize) -> Logged {
    let question = if random.once_in(6) {
        random_formula(random, log.k, nodes, MOST_NESTING).to_bytes()
    } else {
        let point = random.from_to(0, log.steps());
        fitted_question(random, &log, point, [nodes, MOST_NESTING])
    };
    Logged { log, question }
}
