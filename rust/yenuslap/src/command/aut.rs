//! `yenuslap aut`: a machine of a casebook as an Aldebaran text.

use yenuslap::{write_aldebaran, Refusal, MOST_TEXT};

use super::aldebaran_faults::first_not_below;
use super::answer::answer;
use super::arguments::{usage, Arguments};
use super::book::{Book, Loaded};
use super::contents::{start_states, states};
use super::failure::{Ending, Failure};
use super::output::Output;

/// The number of a first state that the table does not have.
const WRONG_FIRST: u32 = 20;

/// Writes the machine of the side that is named.
pub fn run(arguments: &Arguments, out: &mut Output) -> Result<Ending, Failure> {
    arguments.not_both("left", "right")?;
    if !arguments.has("left") && !arguments.has("right") {
        return usage("option --left or --right is missing".to_string());
    }
    let first = arguments.number("first")?;
    let loaded = Loaded::read(arguments.file()?)?;
    let text = text_of(&loaded.book()?, arguments.has("left"), first)?;
    out.deliver(arguments.value("output"), &text)?;
    Ok(Ending::Fine)
}

/// The text of one machine; its first state is the one that is named, else the one that the log starts in.
fn text_of(book: &Book, is_left: bool, first: Option<usize>) -> Result<Vec<u8>, Failure> {
    let (left, right) = start_states(book.parts.run);
    let (table, start) = if is_left {
        (book.parts.left, left)
    } else {
        (book.parts.right, right)
    };
    let first = first.unwrap_or(start.into());
    answer(MOST_TEXT, |out| write_aldebaran(table, first, out))
        .map_err(|refusal| book.refused(refusal, &sentence(refusal, table, first)))
}

/// Why the text is not written: the table is sound, so it is the first state.
fn sentence(refusal: Refusal, table: &[u8], first: usize) -> String {
    match refusal.number() {
        WRONG_FIRST => first_not_below(first, states(table).into()),
        _ => refusal.meaning().to_string(),
    }
}
