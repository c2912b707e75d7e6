//! `yenuslap sheet`: the sheet as the sheet program prints it, in large blocks.

use std::io::{self, IsTerminal, Write};
use std::time::{Duration, Instant};

use yenuslap::{sheet_lines, Refusal};

use super::arguments::Arguments;
use super::book::Loaded;
use super::contents::steps;
use super::failure::{Ending, Failure};
use super::output::Output;

/// How many bytes of lines are asked for at once.
const BLOCK: usize = 1 << 20;

/// Prints the sheet; a refused casebook's one line is printed too, and then explained.
pub fn run(arguments: &Arguments, out: &mut Output) -> Result<Ending, Failure> {
    let loaded = Loaded::read(arguments.file()?)?;
    let due = lines_due(&loaded);
    let mut progress = Progress::new(*due.as_ref().unwrap_or(&1));
    let printed = print(&loaded, &mut progress, out);
    progress.wipe();
    match (due, printed) {
        // Also who does not read the line is told why.
        (Err(refused), Ok(()) | Err(Failure::Closed)) => Err(refused),
        (_, printed) => printed.map(|()| Ending::Fine),
    }
}

/// How many lines the sheet has: a line for each point and splitting; or why it is refused.
fn lines_due(loaded: &Loaded) -> Result<usize, Failure> {
    let book = loaded.book()?;
    let splittings = book.splittings()?;
    Ok((steps(book.parts.run) + 1) * splittings)
}

/// Prints the sheet block by block.
fn print(loaded: &Loaded, progress: &mut Progress, out: &mut Output) -> Result<(), Failure> {
    let mut block = vec![0; BLOCK];
    let mut done = 0;
    loop {
        let lines = sheet_lines(&loaded.bytes, done, usize::MAX, &mut block)
            .map_err(|refusal| short(loaded, refusal))?;
        if lines.lines == 0 {
            return out.flush();
        }
        out.bytes(&block[..lines.bytes])?;
        done += lines.lines;
        progress.show(done);
    }
}

/// A block is longer than any line, so this is not met; if it were, it is told.
fn short(loaded: &Loaded, refusal: Refusal) -> Failure {
    Failure::refused(&loaded.name, refusal, refusal.meaning())
}

/// How much of a long sheet is done, on one line of a terminal.
struct Progress {
    due: usize,
    wanted: bool,
    shown: bool,
    last: Instant,
}

/// How long a line of progress stays before the next one.
const PAUSE: Duration = Duration::from_millis(100);
/// Goes back to the line's first column and wipes it.
const WIPE: &str = "\r\x1b[K";

impl Progress {
    /// Progress towards so many lines. It is wanted where standard error is a terminal, unless the sheet itself goes to
    /// one, whose lines it would tear.
    fn new(due: usize) -> Progress {
        Progress {
            due,
            wanted: io::stderr().is_terminal() && !io::stdout().is_terminal(),
            shown: false,
            last: Instant::now(),
        }
    }

    /// Shows how many lines are done, if some time has passed since the last.
    fn show(&mut self, done: usize) {
        if self.wanted && self.last.elapsed() >= PAUSE {
            let due = self.due;
            let _ = write!(io::stderr(), "{WIPE}{done} of {due} lines");
            self.shown = true;
            self.last = Instant::now();
        }
    }

    /// Wipes the line if there is one.
    fn wipe(&self) {
        if self.shown {
            let _ = write!(io::stderr(), "{WIPE}");
        }
    }
}
