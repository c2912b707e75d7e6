//! The plain sheet program: a casebook on standard input, its sheet on standard output.

use std::io::{self, Read, Write};
use std::process::ExitCode;

use reference::casebook::LONGEST;
use reference::sheet::write_sheet;

/// One byte more than the longest casebook has: enough to judge any input.
const ENOUGH: u64 = LONGEST as u64 + 1;

/// Reads, judges and prints. The sheet comes in blocks of 1 MiB that end with a line, so standard output passes them on.
fn print_sheet() -> io::Result<()> {
    let mut bytes = Vec::new();
    io::stdin().lock().take(ENOUGH).read_to_end(&mut bytes)?;
    let mut out = io::stdout().lock();
    write_sheet(&bytes, &mut out)?;
    out.flush()
}

/// An output that takes no more ends the program.
fn main() -> ExitCode {
    match print_sheet() {
        Ok(()) => ExitCode::SUCCESS,
        Err(_) => ExitCode::FAILURE,
    }
}
