//! The files that a command reads; `-` is standard input.

use std::ffi::{OsStr, OsString};
use std::fs::File;
use std::io::{self, Read};

use yenuslap::MOST_CASEBOOK;

use super::arguments::usage;
use super::failure::{misused, reason, Failure};

/// One byte more than the longest casebook: enough to judge a file of any size.
const CASEBOOK_BYTES: u64 = MOST_CASEBOOK as u64 + 1;

/// The longest text that is read. The text form of the largest casebook has some 20,000 bytes.
const TEXT_BYTES: u64 = 1 << 20;

/// The longest Aldebaran text that is read. The longest sound one has under 8,000 bytes if nothing is to be tidied.
const ALDEBARAN_BYTES: u64 = 1 << 24;

/// A file's name as it is shown.
pub fn shown_name(file: &OsStr) -> String {
    if is_standard(file) {
        "standard input".to_string()
    } else {
        file.to_string_lossy().into_owned()
    }
}

/// Does the name stand for standard input (or, behind `-o`, for standard output)?
pub fn is_standard(file: &OsStr) -> bool {
    file == "-"
}

/// As many of a casebook's bytes as judge it.
pub fn read_bytes(file: &OsStr) -> Result<Vec<u8>, Failure> {
    read_at_most(file, CASEBOOK_BYTES)
}

/// A text, its wrong characters replaced: outside comments no such character is taken.
pub fn read_text(file: &OsStr) -> Result<String, Failure> {
    let bytes = read_up_to(file, TEXT_BYTES)?;
    // Some editors begin a text with this mark, which is no part of it.
    let text = bytes.strip_prefix(b"\xef\xbb\xbf").unwrap_or(&bytes);
    Ok(String::from_utf8_lossy(text).into_owned())
}

/// An Aldebaran text, or a file about its labels: any bytes.
pub fn read_aldebaran_text(file: &OsStr) -> Result<Vec<u8>, Failure> {
    read_up_to(file, ALDEBARAN_BYTES)
}

/// A whole text, which may have so many bytes.
fn read_up_to(file: &OsStr, most: u64) -> Result<Vec<u8>, Failure> {
    let bytes = read_at_most(file, most + 1)?;
    if bytes.len() as u64 > most {
        let name = shown_name(file);
        return misused(format!("{name}: a text has at most {most} bytes"));
    }
    Ok(bytes)
}

/// The first bytes of a file.
fn read_at_most(file: &OsStr, most: u64) -> Result<Vec<u8>, Failure> {
    let mut bytes = Vec::new();
    let read = if is_standard(file) {
        io::stdin().lock().take(most).read_to_end(&mut bytes)
    } else {
        File::open(file).and_then(|file| file.take(most).read_to_end(&mut bytes))
    };
    match read {
        Ok(_) => Ok(bytes),
        Err(error) => misused(format!("{}: {}", shown_name(file), reason(&error))),
    }
}

/// Standard input can be read once only.
pub fn once_only(files: &[OsString]) -> Result<(), Failure> {
    match files.iter().filter(|file| is_standard(file)).count() {
        0 | 1 => Ok(()),
        _ => usage("- stands more than once, and can be read only once".to_string()),
    }
}
