//! Asks the engine and the reference for one verdict and demands that they agree in every respect.

use std::hint::black_box;
use std::panic::resume_unwind;
use std::thread;

use crate::both::{bare_answer, number_of, wrapped_number};
use reference::casebook::Parts;
use reference::verdict;
use reference::Refusal;
use yenuslap::bare;

/// What a half verdict is asked about.
#[derive(Clone, PartialEq, Eq, Debug)]
pub struct HalfParts {
    pub k: u8,
    pub table: Vec<u8>,
    pub half: Vec<u8>,
    pub formula: Vec<u8>,
}

/// The joint verdict on which both agree; the parts' question is the formula.
pub fn joint_both(parts: &Parts, point: usize) -> Result<bool, Refusal> {
    let before = parts.clone();
    let Parts {
        k,
        left,
        right,
        run,
        question,
    } = parts;
    let expected = verdict::joint(*k, left, right, run, question, point);
    let answer = bare::joint_verdict(*k, left, right, run, question, point);
    let wrapped = yenuslap::joint_verdict(*k, left, right, run, question, point);
    alike(expected, answer, wrapped, || {
        format!("{parts:?} at {point}")
    });
    assert_eq!(black_box(parts), &before, "lent parts changed");
    expected
}

/// The half verdict on which both agree.
pub fn half_both(parts: &HalfParts, point: usize) -> Result<bool, Refusal> {
    let before = parts.clone();
    let HalfParts {
        k,
        table,
        half,
        formula,
    } = parts;
    let expected = verdict::half(*k, table, half, formula, point);
    let answer = bare::half_verdict(*k, table, half, formula, point);
    let wrapped = yenuslap::half_verdict(*k, table, half, formula, point);
    alike(expected, answer, wrapped, || {
        format!("{parts:?} at {point}")
    });
    assert_eq!(black_box(parts), &before, "lent parts changed");
    expected
}

/// Demands that the bare answer and the wrapped one say what is expected.
fn alike(
    expected: Result<bool, Refusal>,
    answer: u64,
    wrapped: Result<bool, yenuslap::Refusal>,
    about: impl Fn() -> String,
) {
    let bare = bare_answer(&expected.map(usize::from));
    assert_eq!(answer, bare, "expected {expected:?} of {}", about());
    assert_eq!(wrapped.ok(), expected.ok(), "of {}", about());
    let number = number_of(&expected);
    assert_eq!(wrapped_number(&wrapped), number, "of {}", about());
}

/// Runs a test whose formulas are deep: the reference reads, judges and drops trees by recursion.
pub fn with_a_large_stack(test: impl FnOnce() + Send + 'static) {
    let thread = thread::Builder::new().stack_size(256 << 20);
    if let Err(panic) = thread.spawn(test).unwrap().join() {
        resume_unwind(panic);
    }
}

/// The trees inside a formula, the whole one first.
pub fn subtrees(formula: &[u8]) -> Vec<&[u8]> {
    let starts = (0..formula.len()).step_by(2);
    starts.map(|at| first_tree(&formula[at..])).collect()
}

/// The tree with which these nodes begin.
fn first_tree(nodes: &[u8]) -> &[u8] {
    let (mut end, mut missing) = (0, 1);
    while missing > 0 {
        missing += operands(nodes[end]);
        missing -= 1;
        end += 2;
    }
    &nodes[..end]
}

/// How many operands an operator has.
fn operands(operator: u8) -> usize {
    match operator {
        0 | 1 => 0,
        3 | 4 => 2,
        _ => 1,
    }
}

/// How often formulas held and failed, by the operator at their root.
pub struct Verdicts {
    name: &'static str,
    failed: [u64; 9],
    held: [u64; 9],
}

impl Verdicts {
    pub fn new(name: &'static str) -> Verdicts {
        Verdicts {
            name,
            failed: [0; 9],
            held: [0; 9],
        }
    }

    /// Counts one verdict; a refusal is none.
    pub fn note(&mut self, formula: &[u8], verdict: Result<bool, Refusal>) {
        let operator = formula[0] as usize;
        match verdict.expect("a sound call") {
            true => self.held[operator] += 1,
            false => self.failed[operator] += 1,
        }
    }

    /// Demands that true held, false failed, and each other of these operators did both at least so often.
    pub fn at_least(&self, least: u64, operators: &[u8]) {
        let total: u64 = self.held.iter().chain(&self.failed).sum();
        println!(
            "compared {}: {total} (by root 0 to 8, held {:?}, failed {:?})",
            self.name, self.held, self.failed
        );
        for operator in operators {
            let (held, failed) = (
                self.held[*operator as usize],
                self.failed[*operator as usize],
            );
            assert!(*operator == 1 || held >= least, "{operator} held {held}");
            assert!(
                *operator == 0 || failed >= least,
                "{operator} failed {failed}"
            );
        }
        assert_eq!((self.failed[0], self.held[1]), (0, 0), "{}", self.name);
    }
}

/// All operators.
pub const OPERATORS: [u8; 9] = [0, 1, 2, 3, 4, 5, 6, 7, 8];
