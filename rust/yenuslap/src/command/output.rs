//! Standard output, buffered, and files in its place: every failed write is told but that of a closed pipe.

use std::ffi::OsStr;
use std::fmt;
use std::fs;
use std::io::{self, BufWriter, ErrorKind, StdoutLock, Write};

use super::failure::{misused, reason, Failure};
use super::input::{is_standard, shown_name};

/// How much is kept back before it is written.
const BUFFER: usize = 1 << 16;

/// Standard output.
pub struct Output {
    buffer: BufWriter<StdoutLock<'static>>,
    /// A failure is told once; nothing is written after it.
    failed: bool,
}

impl Output {
    /// Takes standard output.
    pub fn new() -> Output {
        Output {
            buffer: BufWriter::with_capacity(BUFFER, io::stdout().lock()),
            failed: false,
        }
    }

    /// Writes text and ends the line.
    pub fn line(&mut self, text: impl fmt::Display) -> Result<(), Failure> {
        let written = writeln!(self.buffer, "{text}");
        self.told(written)
    }

    /// Writes bytes as they are.
    pub fn bytes(&mut self, bytes: &[u8]) -> Result<(), Failure> {
        let written = self.buffer.write_all(bytes);
        self.told(written)
    }

    /// Writes bytes to the file that is named; `-` and none are standard output.
    pub fn deliver(&mut self, target: Option<&OsStr>, bytes: &[u8]) -> Result<(), Failure> {
        let Some(path) = target.filter(|path| !is_standard(path)) else {
            return self.bytes(bytes);
        };
        match fs::write(path, bytes) {
            Ok(()) => Ok(()),
            Err(error) => misused(format!("{}: {}", shown_name(path), reason(&error))),
        }
    }

    /// Hands on what is kept back, so that a failure to write it is told.
    pub fn flush(&mut self) -> Result<(), Failure> {
        if self.failed {
            Ok(())
        } else {
            {
                let written = self.buffer.flush();
                self.told(written)
            }
        }
    }

    /// The failure behind a failed write.
    fn told(&mut self, written: io::Result<()>) -> Result<(), Failure> {
        let Err(error) = written else {
            return Ok(());
        };
        self.failed = true;
        match error.kind() {
            ErrorKind::BrokenPipe => Err(Failure::Closed),
            _ => misused(format!("standard output: {}", reason(&error))),
        }
    }
}
