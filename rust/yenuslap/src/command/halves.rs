//! The text form of half runs: `0,1:1,idle` starts in 0, moves by label 1 to 1, and idles.

use super::contents::{half_steps, start_state, IDLE_LABEL};
use super::statement::IDLE;
use super::words::quoted;

/// A label, or the word for an idle.
pub fn label_word(label: u8) -> String {
    match label {
        IDLE_LABEL => IDLE.to_string(),
        _ => label.to_string(),
    }
}

/// A half run as text.
pub fn half_text(half: &[u8]) -> String {
    let mut text = start_state(half).to_string();
    for step in half_steps(half) {
        text.push(',');
        text += &if step.is_idle() {
            IDLE.to_string()
        } else {
            format!("{}:{}", step.label, step.to)
        };
    }
    text
}

/// The half run that a text spells, or what is wrong with it.
pub fn parse_half(text: &str) -> Result<Vec<u8>, String> {
    let mut pieces = text.split(',');
    let mut state = byte(pieces.next().unwrap_or(""), 1, "a start state")?;
    let mut half = vec![state];
    for (number, piece) in pieces.enumerate() {
        let (label, to) = if piece == IDLE {
            (IDLE_LABEL, state)
        } else {
            half_move(piece, number + 2)?
        };
        half.extend([label, to]);
        state = to;
    }
    Ok(half)
}

/// The label and the target of a move.
fn half_move(piece: &str, place: usize) -> Result<(u8, u8), String> {
    let Some((label, to)) = piece.split_once(':') else {
        return Err(wrong(piece, place, "idle or label:target"));
    };
    let label = byte(label, place, "a label")?;
    Ok((label, byte(to, place, "a target")?))
}

/// A number that is a byte.
fn byte(text: &str, place: usize, what: &str) -> Result<u8, String> {
    let expected = format!("{what} (a number from 0 to 255)");
    let digits = text.bytes().all(|sign| sign.is_ascii_digit());
    match text.parse() {
        Ok(byte) if digits => Ok(byte),
        _ => Err(wrong(text, place, &expected)),
    }
}

/// What is wrong with a piece.
fn wrong(piece: &str, place: usize, expected: &str) -> String {
    format!("item {place}: expected {expected}, found {}", quoted(piece))
}
