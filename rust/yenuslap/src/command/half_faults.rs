//! Why two halves are refused, and where: asked of the engine by beginnings of them.

use yenuslap::{join, Casebook, MOST_RUN};

use super::contents::{half_steps, start_state, states, HALF_HEAD, HALF_STEP, IDLE_LABEL};
use super::faults::{first_refused, Item};
use super::judge;
use super::words::counted;

/// The number of halves that do not match.
const NO_MATCH: u32 = 16;

/// Why one of two halves is no run of its table.
pub fn explain_half(book: &Casebook, left: &[u8], right: &[u8]) -> String {
    let sides = [("left", book.left, left), ("right", book.right, right)];
    let refused = sides
        .iter()
        .find(|(_, table, half)| is_refused(book.k, table, half));
    match refused {
        Some((side, table, half)) => explain_one(book.k, side, table, half),
        None => "a half is no run of its table".to_string(),
    }
}

/// Does the engine refuse the half as a run of the table? An even length has no points, which is a refusal here too.
fn is_refused(k: u8, table: &[u8], half: &[u8]) -> bool {
    judge::half(k, table, half).is_some()
}

/// Why a half is no run of its table.
pub fn explain_one(k: u8, side: &str, table: &[u8], half: &[u8]) -> String {
    let refused = |beginning: &[u8]| is_refused(k, table, beginning);
    match first_refused(half, (HALF_HEAD, HALF_STEP), refused) {
        Item::Head => format!(
            "start state {} of the {side} half is out of range; the {side} table has {}, counted from 0",
            start_state(half),
            counted(states(table).into(), "state")
        ),
        Item::Entry(step) => wrong_step(k, side, table, half, step),
        Item::Whole => format!(
            "the {side} half has {}; a half has one byte, and two for each step",
            counted(half.len(), "byte")
        ),
    }
}

/// Why a half is no run from a step on, counted from 1.
fn wrong_step(k: u8, side: &str, table: &[u8], half: &[u8], number: usize) -> String {
    let end = HALF_HEAD + HALF_STEP * number;
    let before = &half[..end - HALF_STEP];
    let from = last_state(before);
    let idle = [before, &[IDLE_LABEL, from]].concat();
    if is_refused(k, table, &idle) {
        return format!("the {side} half has a step {number}; a half has at most 200 steps");
    }
    let (label, to) = (half[end - 2], half[end - 1]);
    match label {
        IDLE_LABEL => format!(
            "step {number} of the {side} half is an idle from state {from} to {to}; \
             an idle keeps the state"
        ),
        _ => format!(
            "step {number} of the {side} half goes from {from} by label {label} to {to}, \
             and the {side} table has no such row"
        ),
    }
}

/// The state in which a half run ends.
fn last_state(half: &[u8]) -> u8 {
    half_steps(half)
        .last()
        .map_or(start_state(half), |step| step.to)
}

/// Why two halves do not match.
pub fn explain_match(book: &Casebook, left: &[u8], right: &[u8]) -> String {
    let shorter = left.len().min(right.len());
    let refused = |beginning: &[u8]| {
        let end = beginning.len();
        no_match(book, &left[..end], &right[..end])
    };
    match first_refused(&left[..shorter], (HALF_HEAD, HALF_STEP), refused) {
        Item::Entry(step) => steps_sentence(left, right, step),
        _ => format!(
            "the left half has {} and the right half {}; matching halves are equally long",
            counted(half_steps(left).count(), "step"),
            counted(half_steps(right).count(), "step")
        ),
    }
}

/// Does the engine say that the halves do not match?
fn no_match(book: &Casebook, left: &[u8], right: &[u8]) -> bool {
    let mut out = [0; MOST_RUN];
    let joined = join(book.k, book.left, book.right, left, right, &mut out);
    joined.is_err_and(|refusal| refusal.number() == NO_MATCH)
}

/// Why two steps do not match.
fn steps_sentence(left: &[u8], right: &[u8], number: usize) -> String {
    let step = |half: &[u8]| match half_steps(half).nth(number - 1) {
        Some(step) if !step.is_idle() => format!("moves by label {}", step.label),
        _ => "idles".to_string(),
    };
    format!(
        "at step {number} the left half {} and the right half {}; a move matches an idle \
         or a move by its label's partner, and an idle matches an idle",
        step(left),
        step(right)
    )
}
