//! `yenuslap check`: a line for each file, sound or refused.

use std::ffi::OsStr;

use yenuslap::{read_casebook, Casebook};

use super::arguments::{usage, Arguments};
use super::book::{Book, Loaded};
use super::contents::{rows, states, steps, NODE};
use super::explain::explain_casebook;
use super::failure::{numbered, Ending, Failure};
use super::input::once_only;
use super::output::Output;
use super::words::counted;

/// Checks each file.
pub fn run(arguments: &Arguments, out: &mut Output) -> Result<Ending, Failure> {
    let files = &arguments.operands;
    if files.is_empty() {
        return usage("a file is missing (- is standard input)".to_string());
    }
    once_only(files)?;
    let mut ending = Ending::Fine;
    for file in files {
        let checked = check(file, out);
        let ended = match checked {
            Ok(ended) => ended,
            Err(Failure::Closed) => return Err(Failure::Closed),
            Err(failure) => {
                out.flush()?;
                failure.report()
            }
        };
        ending = ending.max(ended);
    }
    Ok(ending)
}

/// Prints the line of one file.
fn check(file: &OsStr, out: &mut Output) -> Result<Ending, Failure> {
    let loaded = Loaded::read(file)?;
    let name = &loaded.name;
    match read_casebook(&loaded.bytes) {
        Ok(parts) => {
            out.line(format!("{name}: sound: {}", sizes(&Book { name, parts })))?;
            Ok(Ending::Fine)
        }
        Err(refusal) => {
            let sentence = explain_casebook(&loaded.bytes, refusal);
            out.line(format!("{name}: {}", numbered(refusal, &sentence)))?;
            Ok(Ending::Refused)
        }
    }
}

/// The sizes of a sound casebook.
fn sizes(book: &Book) -> String {
    let Casebook {
        k,
        left,
        right,
        run,
        question,
    } = book.parts;
    let splittings = match book.count() {
        Ok(count) => counted(count, "splitting"),
        Err(_) => "over 65,535 splittings".to_string(),
    };
    format!(
        "k {k}, left {}, right {}, log of {}, question of {}, {splittings}",
        table_size(left),
        table_size(right),
        counted(steps(run), "step"),
        counted(question.len() / NODE, "node")
    )
}

/// How many states and rows a table has.
pub fn table_size(table: &[u8]) -> String {
    let states = counted(states(table).into(), "state");
    format!("{states} and {}", counted(rows(table).count(), "row"))
}
