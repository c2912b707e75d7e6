//! One line of an Aldebaran text, read from left to right: exactly, or as other tools write it.

use super::repairs::Repair;
use super::words::quoted;

/// The form of the first line.
const HEADER: &str = "the header des (first,rows,states)";
/// The form of every other line.
const ROW: &str = "`(` of a row (from,\"label\",to)";
/// How many digits a number has at most.
const MOST_DIGITS: usize = 5;

/// A number in a line.
#[derive(Clone, Copy, PartialEq, Eq, Debug)]
pub struct Number {
    /// What it is.
    pub value: usize,
    /// Where it begins, in bytes.
    pub at: usize,
}

/// What the first line says.
#[derive(Clone, Copy, PartialEq, Eq, Debug)]
pub struct Header {
    /// The first state.
    pub first: Number,
    /// How many rows there are.
    pub rows: Number,
    /// How many states there are.
    pub states: Number,
}

/// What another line says.
#[derive(Clone, Copy, PartialEq, Eq, Debug)]
pub struct RowLine<'a> {
    /// Where it begins, in bytes.
    pub at: usize,
    /// The state that the row leaves.
    pub from: Number,
    /// Its label, as the line has it.
    pub label: &'a [u8],
    /// Where the label begins, in bytes.
    pub label_at: usize,
    /// Its target.
    pub to: Number,
}

/// Why a line is not of the form.
#[derive(Clone, PartialEq, Eq, Debug)]
pub struct Off {
    /// Where something else was expected, in bytes.
    pub at: usize,
    /// What was expected, and what was found.
    pub sentence: String,
}

/// A line that is being read.
#[derive(Clone, Debug)]
pub struct Scan<'a> {
    line: &'a [u8],
    at: usize,
    /// Is what other tools write differently read too?
    tidy: bool,
    /// What was repaired so far.
    pub repairs: Vec<Repair>,
}

impl<'a> Scan<'a> {
    /// A line, without the line feed that ends it.
    pub fn new(line: &'a [u8], tidy: bool) -> Scan<'a> {
        Scan {
            line,
            at: 0,
            tidy,
            repairs: Vec::new(),
        }
    }

    /// Reads `des (first,rows,states)`.
    pub fn header(&mut self) -> Result<Header, Off> {
        self.skip_blanks();
        if !self.rest().starts_with(b"des") {
            return self.off(HEADER);
        }
        self.at += b"des".len();
        self.blank_behind_des()?;
        self.sign(b'(', "`(`")?;
        let first = self.number("the first state")?;
        self.sign(b',', "`,` behind the first state")?;
        let rows = self.number("the row count")?;
        self.sign(b',', "`,` behind the row count")?;
        let states = self.number("the number of states")?;
        self.sign(b')', "`)` behind the number of states")?;
        self.end()?;
        Ok(Header {
            first,
            rows,
            states,
        })
    }

    /// Reads `(from,"label",to)`.
    pub fn row(&mut self) -> Result<RowLine<'a>, Off> {
        self.skip_blanks();
        let at = self.at;
        self.sign(b'(', ROW)?;
        let from = self.number("from")?;
        self.sign(b',', "`,` behind from")?;
        let (label, label_at) = self.label()?;
        self.sign(b',', "`,` behind the label")?;
        let to = self.number("to")?;
        self.sign(b')', "`)` behind to")?;
        self.end()?;
        Ok(RowLine {
            at,
            from,
            label,
            label_at,
            to,
        })
    }

    /// What is still to be read.
    fn rest(&self) -> &'a [u8] {
        &self.line[self.at..]
    }

    /// The line is not of the form here.
    fn off<T>(&self, expected: &str) -> Result<T, Off> {
        let found = found(self.rest());
        Err(Off {
            at: self.at,
            sentence: format!("expected {expected}, found {found}"),
        })
    }

    /// Passes over blanks, where that is allowed.
    fn skip_blanks(&mut self) {
        let blanks = self.blanks();
        if self.tidy && blanks > 0 {
            self.at += blanks;
            self.repairs.push(Repair::Blanks);
        }
    }

    /// How many blanks stand here.
    fn blanks(&self) -> usize {
        let rest = self.rest().iter();
        rest.take_while(|byte| is_blank(**byte)).count()
    }

    /// Reads the one blank behind `des`.
    fn blank_behind_des(&mut self) -> Result<(), Off> {
        if self.tidy && !self.rest().starts_with(b" (") {
            self.at += self.blanks();
            self.repairs.push(Repair::BehindDes);
            Ok(())
        } else if self.rest().first() == Some(&b' ') {
            self.at += 1;
            Ok(())
        } else {
            self.off("one blank behind des")
        }
    }

    /// Reads a sign.
    fn sign(&mut self, sign: u8, expected: &str) -> Result<(), Off> {
        self.skip_blanks();
        if self.rest().first() == Some(&sign) {
            self.at += 1;
            Ok(())
        } else {
            self.off(expected)
        }
    }

    /// Reads a number.
    fn number(&mut self, what: &str) -> Result<Number, Off> {
        self.skip_blanks();
        let at = self.at;
        let zeros = match run(self.rest(), |byte| byte == b'0') {
            0 => 0,
            // The last digit stays, whatever it is.
            zeros => zeros.min(run(self.rest(), |byte| byte.is_ascii_digit()) - 1),
        };
        if zeros > 0 && !self.tidy {
            return self.off(&format!("a number without leading zeros ({what})"));
        } else if zeros > 0 {
            self.at += zeros;
            self.repairs.push(Repair::Zeros);
        }
        let digits = &self.rest()[..run(self.rest(), |byte| byte.is_ascii_digit())];
        match digits.len() {
            0 => self.off(&format!("a number ({what})")),
            1..=MOST_DIGITS => {
                self.at += digits.len();
                let value = digits
                    .iter()
                    .fold(0, |value, digit| value * 10 + usize::from(digit - b'0'));
                Ok(Number { value, at })
            }
            _ => self.off(&format!("a number of at most five digits ({what})")),
        }
    }

    /// Reads a label and says where it begins.
    fn label(&mut self) -> Result<(&'a [u8], usize), Off> {
        self.skip_blanks();
        if self.rest().first() != Some(&b'"') {
            return self.bare_label();
        }
        self.at += 1;
        let at = self.at;
        let label = &self.rest()[..run(self.rest(), |byte| byte != b'"')];
        self.at += label.len();
        match self.rest().first() {
            Some(_) => self.at += 1,
            None => return self.off("`\"` behind the label"),
        }
        Ok((label, at))
    }

    /// Reads a label without quotes, where that is allowed: it goes to the line's last comma.
    fn bare_label(&mut self) -> Result<(&'a [u8], usize), Off> {
        let end = self.rest().iter().rposition(|byte| *byte == b',');
        let Some(end) = end.filter(|end| self.tidy && !self.rest()[..*end].contains(&b'"')) else {
            return self.off("`\"` before the label");
        };
        let (label, at) = (&self.rest()[..end], self.at);
        self.at += end;
        self.repairs.push(Repair::Quotes);
        let blanks = run_back(label, is_blank);
        if blanks > 0 {
            self.repairs.push(Repair::Blanks);
        }
        Ok((&label[..label.len() - blanks], at))
    }

    /// Demands that nothing else stands in the line.
    fn end(&mut self) -> Result<(), Off> {
        self.skip_blanks();
        if self.tidy && self.rest() == b"\r" {
            self.at += 1;
            self.repairs.push(Repair::CarriageReturns);
        }
        if self.rest().is_empty() {
            Ok(())
        } else {
            self.off("the end of the line")
        }
    }
}

/// Is the byte a blank or a tab?
pub fn is_blank(byte: u8) -> bool {
    byte == b' ' || byte == b'\t'
}

/// How many bytes from the first on pass a test.
fn run(bytes: &[u8], test: impl Fn(u8) -> bool) -> usize {
    bytes.iter().take_while(|byte| test(**byte)).count()
}

/// How many bytes from the last back pass a test.
fn run_back(bytes: &[u8], test: impl Fn(u8) -> bool) -> usize {
    bytes.iter().rev().take_while(|byte| test(**byte)).count()
}

/// What stands at the front of some bytes, in words: letters and digits stay together.
fn found(rest: &[u8]) -> String {
    let Some(first) = rest.first() else {
        return "the end of the line".to_string();
    };
    match first {
        b' ' => "a blank".to_string(),
        b'\t' => "a tab".to_string(),
        b'\r' => "a carriage return".to_string(),
        _ => match first_word(rest) {
            "" => format!("byte {first:02x}"),
            word => quoted(word),
        },
    }
}

/// The word at the front of some bytes, or their first sign; nothing where they are no UTF-8.
fn first_word(rest: &[u8]) -> &str {
    let text = match std::str::from_utf8(rest) {
        Ok(text) => text,
        Err(error) => std::str::from_utf8(&rest[..error.valid_up_to()]).unwrap_or(""),
    };
    let word = text.find(|sign: char| !sign.is_alphanumeric());
    let first = text.chars().next().map_or(0, char::len_utf8);
    &text[..word.unwrap_or(text.len()).max(first)]
}
