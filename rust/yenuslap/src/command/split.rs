//! `yenuslap split`: the splittings, each with its two halves as `yenuslap join` takes them.

use super::arguments::Arguments;
use super::asked::splittings;
use super::book::{Halves, Loaded};
use super::failure::{Ending, Failure};
use super::halves::half_text;
use super::hex::joined;
use super::output::Output;

/// Prints all splittings, or the one that is asked for.
pub fn run(arguments: &Arguments, out: &mut Output) -> Result<Ending, Failure> {
    let hex = arguments.has("hex");
    let loaded = Loaded::read(arguments.file()?)?;
    let book = loaded.book()?;
    for number in splittings(arguments.number("number")?, &book)? {
        out.line(line(number, &book.splitting(number)?, hex))?;
    }
    Ok(Ending::Fine)
}

/// A splitting's line.
fn line(number: usize, halves: &Halves, hex: bool) -> String {
    let half = if hex { joined } else { half_text };
    let (left, right) = (half(&halves.left), half(&halves.right));
    format!("{number} --left {left} --right {right}")
}
