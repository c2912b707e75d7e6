//! `yenuslap join`: two halves joined to their log on a casebook's machines.

use yenuslap::{join, MOST_RUN};

use super::answer::answer;
use super::arguments::{usage, Arguments};
use super::asked::halves;
use super::book::{Book, Halves, Loaded};
use super::failure::{Ending, Failure};
use super::hex;
use super::output::Output;
use super::text_form::log_section;

/// Joins the two halves and prints their log.
pub fn run(arguments: &Arguments, out: &mut Output) -> Result<Ending, Failure> {
    let Some(halves) = halves(arguments)? else {
        return usage("options --left and --right are missing".to_string());
    };
    let loaded = Loaded::read(arguments.file()?)?;
    let log = joined(&loaded.book()?, &halves)?;
    if arguments.has("hex") {
        out.line(hex::joined(&log))?;
    } else {
        out.bytes(log_section(&log).as_bytes())?;
    }
    Ok(Ending::Fine)
}

/// The log of two halves.
fn joined(book: &Book, halves: &Halves) -> Result<Vec<u8>, Failure> {
    let parts = &book.parts;
    let (left, right) = (&halves.left, &halves.right);
    answer(MOST_RUN, |out| {
        join(parts.k, parts.left, parts.right, left, right, out)
    })
    .map_err(|refusal| book.refused_halves(refusal, halves))
}
