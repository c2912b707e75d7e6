//! What a caller asks for by options: sides, points, splittings, halves and statements.

use std::ops::RangeInclusive;

use yenuslap::Side;

use super::arguments::{usage, Arguments};
use super::book::{Book, Halves};
use super::failure::Failure;
use super::halves::parse_half;
use super::hex;
use super::statement_parser::{parse_statement, Statement};
use super::tokens::Tokens;
use super::words::quoted;

/// The side that an option names.
pub fn side(arguments: &Arguments, option: &str) -> Result<Side, Failure> {
    match arguments.text(option)? {
        None => Ok(Side::Unnamed),
        Some("left") => Ok(Side::Left),
        Some("right") => Ok(Side::Right),
        Some(other) => usage(format!(
            "option --{option} needs left or right, not {}",
            quoted(other)
        )),
    }
}

/// The point that is asked for, else every point up to the last.
pub fn points(asked: Option<usize>, last: usize) -> RangeInclusive<usize> {
    match asked {
        Some(point) => point..=point,
        None => 0..=last,
    }
}

/// The splitting that is asked for, else every splitting of the log.
pub fn splittings(asked: Option<usize>, book: &Book) -> Result<RangeInclusive<usize>, Failure> {
    Ok(match asked {
        Some(number) => number..=number,
        // There is at least one.
        None => 0..=book.splittings()? - 1,
    })
}

/// The two halves that `--left` and `--right` give, if they are given.
pub fn halves(arguments: &Arguments) -> Result<Option<Halves>, Failure> {
    arguments.needs("left", "right")?;
    arguments.needs("right", "left")?;
    arguments.not_both("splitting", "left")?;
    let (left, right) = (half(arguments, "left")?, half(arguments, "right")?);
    let both = left.zip(right);
    Ok(both.map(|(left, right)| Halves { left, right }))
}

/// The half that an option gives: in the text form of halves, or with `--hex` as bytes.
fn half(arguments: &Arguments, side: &str) -> Result<Option<Vec<u8>>, Failure> {
    let Some(text) = arguments.text(side)? else {
        return Ok(None);
    };
    let parsed = if arguments.has("hex") {
        hex::parse(text)
    } else {
        parse_half(text)
    };
    match parsed {
        Ok(half) => Ok(Some(half)),
        Err(wrong) => usage(format!("--{side}: {wrong}")),
    }
}

/// The statement that `--formula` gives.
pub fn formula(arguments: &Arguments) -> Result<Option<Statement>, Failure> {
    let Some(text) = arguments.text("formula")? else {
        return Ok(None);
    };
    match parse_statement(Tokens::of(text)) {
        Ok(statement) => Ok(Some(statement)),
        Err(error) => usage(format!("--formula: {error}")),
    }
}
