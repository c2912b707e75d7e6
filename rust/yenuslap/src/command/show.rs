//! `yenuslap show`: a casebook for the eye.

use std::ops::RangeInclusive;

use yenuslap::Casebook;

use super::arguments::Arguments;
use super::book::{Book, Loaded};
use super::check::table_size;
use super::contents::{rows, states, steps};
use super::dot::dot;
use super::failure::{Ending, Failure};
use super::judge;
use super::lanes::{log_lanes, splitting_lanes};
use super::output::Output;
use super::statement::notation;
use super::text_form::text_form;
use super::words::counted;

/// How many splittings are shown if nothing else is asked for.
const FIRST_FEW: usize = 4;

/// The options of which at most one is given.
const WHAT: [&str; 4] = ["text", "dot", "all", "splitting"];

/// Shows a casebook readably, as text form, or as a graph.
pub fn run(arguments: &Arguments, out: &mut Output) -> Result<Ending, Failure> {
    for (index, first) in WHAT.iter().enumerate() {
        for second in &WHAT[index + 1..] {
            arguments.not_both(first, second)?;
        }
    }
    let splitting = arguments.number("splitting")?;
    let loaded = Loaded::read(arguments.file()?)?;
    let book = loaded.book()?;
    if arguments.has("text") {
        out.bytes(text_form(&book.parts).as_bytes())?;
    } else if arguments.has("dot") {
        lines(out, dot(book.name, &book.parts))?;
    } else {
        lines(out, casebook(&book.parts))?;
        splittings(&book, splitting, arguments.has("all"), out)?;
    }
    Ok(Ending::Fine)
}

/// Prints lines.
fn lines(out: &mut Output, lines: Vec<String>) -> Result<(), Failure> {
    lines.iter().try_for_each(|line| out.line(line))
}

/// Everything but the splittings.
fn casebook(parts: &Casebook) -> Vec<String> {
    let mut lines = vec![labels(parts.k), String::new()];
    lines.extend(table("left", parts.left));
    lines.push(String::new());
    lines.extend(table("right", parts.right));
    lines.push(String::new());
    lines.push(format!("log: {}", counted(steps(parts.run), "step")));
    lines.extend(log_lanes(parts.run));
    lines.push(String::new());
    lines.push(format!("question: {}", notation(parts.question)));
    lines.push(String::new());
    lines
}

/// The pairs of labels, as the engine lets them shake hands.
fn labels(k: u8) -> String {
    let highest = judge::highest_label(k);
    let mut pairs = Vec::new();
    for first in 1..=highest {
        let partners = (first..=highest).filter(|second| judge::are_partners(k, first, *second));
        pairs.extend(partners.map(|second| format!("{first} with {second}")));
    }
    let pairs = if pairs.is_empty() {
        String::new()
    } else {
        format!(" ({})", pairs.join(", "))
    };
    format!("pairs: {k}{pairs}; label 0 is the silent step")
}

/// A table, grouped by state.
fn table(side: &str, table: &[u8]) -> Vec<String> {
    let mut lines = vec![format!("{side}: {}", table_size(table))];
    for state in 0..states(table) {
        let leaving = rows(table).filter(|row| row.from == state);
        let moves: Vec<String> = leaving
            .map(|row| format!("{}->{}", row.label, row.to))
            .collect();
        lines.push(
            format!("  {state:>2}: {}", moves.join("  "))
                .trim_end()
                .to_string(),
        );
    }
    lines
}

/// The splittings, or the one that is asked for.
fn splittings(
    book: &Book,
    asked: Option<usize>,
    all: bool,
    out: &mut Output,
) -> Result<(), Failure> {
    let Ok(count) = book.count() else {
        out.line("splittings: over 65,535")?;
        // None of them has a number; who asks for one hears that.
        return asked.map_or(Ok(()), |number| lanes(book, number..=number, out));
    };
    out.line(format!(
        "splittings: {count} (. is an idle, shake a handshake of both halves)"
    ))?;
    let shown = match asked {
        Some(number) => number..=number,
        None if all => 0..=count - 1,
        None => 0..=count.min(FIRST_FEW) - 1,
    };
    let last = *shown.end();
    lanes(book, shown, out)?;
    if asked.is_some() || last + 1 == count {
        return Ok(());
    }
    let more = count - last - 1;
    out.line("")?;
    out.line(format!(
        "and {more} more (--all shows all, --splitting N one)"
    ))
}

/// The lanes of these splittings.
fn lanes(book: &Book, numbers: RangeInclusive<usize>, out: &mut Output) -> Result<(), Failure> {
    for number in numbers {
        let halves = book.splitting(number)?;
        out.line("")?;
        out.line(format!("splitting {number}"))?;
        lines(out, splitting_lanes(book.parts.run, &halves))?;
    }
    Ok(())
}
