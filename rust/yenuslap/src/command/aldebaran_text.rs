//! A whole Aldebaran text: what its lines say and where, and the bytes that the engine is given.

use super::aldebaran_line::{is_blank, Header, Off, RowLine, Scan};
use super::label_map::LabelMap;
use super::repairs::{Repair, Repairs};
use super::tokens::Place;

/// A mark that some editors put at the front of a text.
const MARK: &[u8] = b"\xef\xbb\xbf";
/// What the silent step is called elsewhere.
pub const TAU: &[u8] = b"tau";
/// What it is called here.
const SILENT: &[u8] = b"i";

/// How a text is read.
#[derive(Clone, Copy, Debug)]
pub struct Manner<'a> {
    /// Is what other tools write differently repaired?
    pub tidy: bool,
    /// How their labels are renamed, if they are.
    pub labels: Option<&'a LabelMap>,
}

/// A line that says a row.
#[derive(Clone, PartialEq, Eq, Debug)]
pub struct Row<'a> {
    /// Its number in the file.
    pub line: usize,
    /// What it says.
    pub said: RowLine<'a>,
    /// Its label, renamed and repaired.
    pub label: Vec<u8>,
}

/// The first line that is not of the form.
#[derive(Clone, PartialEq, Eq, Debug)]
pub struct OffLine {
    /// Its number in the file.
    pub line: usize,
    /// Where in it, and why.
    pub off: Off,
    /// Would `--tidy` repair it?
    pub tidies: bool,
}

/// A text that was looked through.
#[derive(Clone, PartialEq, Eq, Debug)]
pub struct Text<'a> {
    lines: Vec<&'a [u8]>,
    /// What the engine is given.
    pub bytes: Vec<u8>,
    /// What the header says, if it is of the form.
    pub header: Option<Header>,
    /// The lines that say rows.
    pub rows: Vec<Row<'a>>,
    /// The first line that is not of the form.
    pub off: Option<OffLine>,
    /// What was repaired.
    pub repairs: Repairs,
}

impl<'a> Text<'a> {
    /// Looks through a file's bytes.
    pub fn of(file: &'a [u8], manner: Manner) -> Text<'a> {
        let mut text = Text {
            lines: Vec::new(),
            bytes: Vec::new(),
            header: None,
            rows: Vec::new(),
            off: None,
            repairs: Repairs::default(),
        };
        let file = text.without_mark(file, manner.tidy);
        text.lines = lines_of(file);
        let ended = text.lines.is_empty() || file.ends_with(b"\n");
        let said = text.said_lines();
        let taken = if manner.tidy { said } else { text.lines.len() };
        for index in 0..taken {
            text.take(index, manner, said);
        }
        for index in taken..text.lines.len() {
            text.repairs.note(Repair::BlankLines, index + 1);
        }
        if !ended && taken == text.lines.len() {
            text.end(manner.tidy);
        }
        if !manner.tidy && manner.labels.is_none() {
            // Nothing is changed, so nothing is composed anew.
            text.bytes = file.to_vec();
        }
        text
    }

    /// The file without the mark at its front, if that is repaired.
    fn without_mark(&mut self, file: &'a [u8], tidy: bool) -> &'a [u8] {
        match file.strip_prefix(MARK).filter(|_| tidy) {
            Some(rest) => {
                self.repairs.note(Repair::Mark, 1);
                rest
            }
            None => file,
        }
    }

    /// How many lines there are without the blank ones at the end.
    fn said_lines(&self) -> usize {
        let is_empty = |line: &&&[u8]| line.iter().all(|byte| is_blank(*byte) || *byte == b'\r');
        self.lines.len() - self.lines.iter().rev().take_while(is_empty).count()
    }

    /// Reads a line; from line `said` on all lines are blank.
    fn take(&mut self, index: usize, manner: Manner, said: usize) {
        let line = self.lines[index];
        let mut scan = Scan::new(line, manner.tidy);
        let composed = if index == 0 {
            scan.header().map(|header| {
                self.header = Some(header);
                header_line(&header)
            })
        } else {
            scan.row().map(|said| {
                let label = self.label(said.label, index + 1, manner);
                let composed = row_line(&said, &label);
                let line = index + 1;
                self.rows.push(Row { line, said, label });
                composed
            })
        };
        for repair in scan.repairs.iter().filter(|_| composed.is_ok()) {
            self.repairs.note(*repair, index + 1);
        }
        match composed {
            Ok(line) => self.bytes.extend(line),
            Err(off) => {
                self.bytes.extend(line);
                let tidies = !manner.tidy && (index >= said.max(1) || is_tidied(line, index));
                self.note_off(index + 1, off, tidies);
            }
        }
        self.bytes.push(b'\n');
    }

    /// Notes a line that is not of the form, if it is the first.
    fn note_off(&mut self, line: usize, off: Off, tidies: bool) {
        self.off.get_or_insert(OffLine { line, off, tidies });
    }

    /// The last line has no line feed.
    fn end(&mut self, tidy: bool) {
        let (line, last) = (self.lines.len(), self.lines[self.lines.len() - 1]);
        if tidy {
            self.repairs.note(Repair::LastLineFeed, line);
            return;
        }
        self.bytes.pop();
        let off = Off {
            at: last.len(),
            sentence: "expected a line feed, found the end of the text".to_string(),
        };
        self.note_off(line, off, true);
    }

    /// A label, renamed and repaired.
    fn label(&mut self, theirs: &[u8], line: usize, manner: Manner) -> Vec<u8> {
        let renamed = manner.labels.and_then(|map| map.renamed(theirs));
        match renamed {
            Some(ours) => ours.to_vec(),
            None if manner.tidy && theirs == TAU => {
                self.repairs.note(Repair::Tau, line);
                SILENT.to_vec()
            }
            None => theirs.to_vec(),
        }
    }

    /// Is there nothing that the engine is given?
    pub fn is_empty(&self) -> bool {
        self.bytes.is_empty()
    }

    /// The place of a byte of a line, both in the file; columns count characters.
    pub fn place(&self, line: usize, at: usize) -> Place {
        let bytes = self.lines.get(line - 1).copied().unwrap_or(b"");
        let before = String::from_utf8_lossy(&bytes[..at.min(bytes.len())]);
        let column = before.chars().count() + 1;
        Place { line, column }
    }
}

/// The lines of a text, each without the line feed that ends it; the last one may have none.
fn lines_of(text: &[u8]) -> Vec<&[u8]> {
    let mut lines: Vec<&[u8]> = text.split(|byte| *byte == b'\n').collect();
    if lines.last().is_some_and(|line| line.is_empty()) {
        lines.pop();
    }
    lines
}

/// Is the line of the form once it is repaired?
fn is_tidied(line: &[u8], index: usize) -> bool {
    let line = match line.strip_prefix(MARK) {
        Some(rest) if index == 0 => rest,
        _ => line,
    };
    let mut scan = Scan::new(line, true);
    match index {
        0 => scan.header().is_ok(),
        _ => scan.row().is_ok(),
    }
}

/// The header as the form has it.
fn header_line(header: &Header) -> Vec<u8> {
    let (first, rows, states) = (header.first, header.rows, header.states);
    format!("des ({},{},{})", first.value, rows.value, states.value).into_bytes()
}

/// A row as the form has it, with this label.
pub fn row_line(said: &RowLine, label: &[u8]) -> Vec<u8> {
    let front = format!("({},\"", said.from.value).into_bytes();
    let back = format!("\",{})", said.to.value).into_bytes();
    [&front, label, &back].concat()
}
