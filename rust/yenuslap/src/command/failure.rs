//! Why a command ends early, and with which exit status.

use std::io::{self, Write};

use yenuslap::Refusal;

/// How a command ended that printed its output; a later one is graver.
#[derive(Clone, Copy, PartialEq, Eq, PartialOrd, Ord, Debug)]
pub enum Ending {
    /// Nothing was refused.
    Fine,
    /// Something was refused.
    Refused,
    /// Something was misused, as a file that cannot be read.
    Misused,
}

impl Ending {
    /// The exit status.
    pub fn status(self) -> u8 {
        match self {
            Ending::Fine => 0,
            Ending::Refused => 1,
            Ending::Misused => 2,
        }
    }
}

/// Why a command ended before it was done.
#[derive(Clone, PartialEq, Eq, Debug)]
pub enum Failure {
    /// The reader of standard output wants no more.
    Closed,
    /// The engine refused; the explanation.
    Refused(String),
    /// The subcommand's options or operands are wrong; what is wrong with them.
    Usage(String),
    /// A file or a text was misused; what is wrong.
    Misused(String),
}

impl Failure {
    /// A refusal under its number, with a sentence.
    pub fn refused(name: &str, refusal: Refusal, sentence: &str) -> Failure {
        Failure::Refused(format!("{name}: {}", numbered(refusal, sentence)))
    }

    /// Tells standard error, and gives how the command ended.
    pub fn report(&self) -> Ending {
        match self {
            Failure::Closed => Ending::Fine,
            Failure::Refused(text) => {
                complain(text);
                Ending::Refused
            }
            Failure::Usage(text) | Failure::Misused(text) => {
                complain(text);
                Ending::Misused
            }
        }
    }
}

/// A refusal's number, and the sentence that explains it.
pub fn numbered(refusal: Refusal, sentence: &str) -> String {
    format!("refused {}: {sentence}", refusal.number())
}

/// A misuse of a file or a text.
pub fn misused<T>(text: String) -> Result<T, Failure> {
    Err(Failure::Misused(text))
}

/// What the system says of a failed read or write, without its number.
pub fn reason(error: &io::Error) -> String {
    let text = error.to_string();
    let end = text.find(" (os error").unwrap_or(text.len());
    text[..end].to_string()
}

/// Writes a line to standard error; if that is closed, nobody is there to be told.
pub fn complain(text: &str) {
    let _ = writeln!(io::stderr(), "yenuslap: {text}");
}
