//! The words, numbers and signs of a text, each with its place.

use std::fmt;

use super::words::quoted;

/// A place in a text; lines and columns are counted from 1.
#[derive(Clone, Copy, PartialEq, Eq, Debug)]
pub struct Place {
    /// The line.
    pub line: usize,
    /// The character in the line.
    pub column: usize,
}

impl fmt::Display for Place {
    fn fmt(&self, f: &mut fmt::Formatter<'_>) -> fmt::Result {
        write!(f, "line {}, column {}", self.line, self.column)
    }
}

/// One word, number or sign of a text.
#[derive(Clone, Copy, PartialEq, Eq, Debug)]
pub struct Token<'a> {
    /// Its characters.
    pub text: &'a str,
    /// Where it begins.
    pub place: Place,
}

/// A text that is not of the form asked for: where, and what was expected.
#[derive(Clone, PartialEq, Eq, Debug)]
pub struct SyntaxError {
    /// Where something else was expected.
    pub place: Place,
    /// What was expected, and what was found.
    pub message: String,
}

impl fmt::Display for SyntaxError {
    fn fmt(&self, f: &mut fmt::Formatter<'_>) -> fmt::Result {
        write!(f, "{}: {}", self.place, self.message)
    }
}

/// Tokens that are taken one after the other.
#[derive(Clone, Debug)]
pub struct Tokens<'a> {
    tokens: Vec<Token<'a>>,
    next: usize,
    end: Place,
}

impl<'a> Tokens<'a> {
    /// The tokens of a text, without its comments.
    pub fn of(text: &'a str) -> Tokens<'a> {
        let mut tokens = Vec::new();
        for (number, line) in text.lines().enumerate() {
            let code = line.split('#').next().unwrap_or("");
            tokens_of_line(number + 1, code, &mut tokens);
        }
        let last = text.lines().last().unwrap_or("");
        let end = Place {
            line: text.lines().count().max(1),
            column: last.chars().count() + 1,
        };
        Tokens {
            tokens,
            next: 0,
            end,
        }
    }

    /// The next token, which stays where it is.
    pub fn peek(&self) -> Option<Token<'a>> {
        self.tokens.get(self.next).copied()
    }

    /// Takes the next token.
    pub fn take(&mut self) -> Option<Token<'a>> {
        let token = self.peek();
        self.next += token.is_some() as usize;
        token
    }

    /// Takes the next token if it is this one.
    pub fn take_if(&mut self, text: &str) -> Option<Token<'a>> {
        self.peek().filter(|token| token.text == text)?;
        self.take()
    }

    /// Where the next token stands, or where the text ends.
    pub fn place(&self) -> Place {
        self.peek().map_or(self.end, |token| token.place)
    }

    /// Does the next token stand in this line?
    pub fn in_line(&self, line: usize) -> bool {
        self.peek().is_some_and(|token| token.place.line == line)
    }

    /// The error that something else was expected here.
    pub fn expected<T>(&self, what: &str) -> Result<T, SyntaxError> {
        let found = match self.peek() {
            Some(token) => quoted(token.text),
            None => "the end of the text".to_string(),
        };
        Err(SyntaxError {
            place: self.place(),
            message: format!("expected {what}, found {found}"),
        })
    }

    /// The error that a line ended before something that was expected in it.
    pub fn line_too_short(&self, line: usize, what: &str) -> SyntaxError {
        let taken = self.tokens[..self.next].iter().rev();
        let last = taken.take_while(|token| token.place.line == line).next();
        let column = last.map_or(1, |token| token.place.column + token.text.chars().count());
        SyntaxError {
            place: Place { line, column },
            message: format!("expected {what}, found the end of the line"),
        }
    }

    /// Takes this word or sign.
    pub fn expect(&mut self, text: &str) -> Result<Token<'a>, SyntaxError> {
        match self.take_if(text) {
            Some(token) => Ok(token),
            None => self.expected(&format!("`{text}`")),
        }
    }

    /// Takes a number that is a byte.
    pub fn byte(&mut self, what: &str) -> Result<u8, SyntaxError> {
        match self.peek().map(|token| token.text.parse()) {
            Some(Ok(byte)) => {
                self.take();
                Ok(byte)
            }
            _ => self.expected(&format!("{what} (a number from 0 to 255)")),
        }
    }
}

/// Adds the tokens of one line.
fn tokens_of_line<'a>(line: usize, code: &'a str, tokens: &mut Vec<Token<'a>>) {
    let signs: Vec<(usize, char)> = code.char_indices().collect();
    let mut at = 0;
    while at < signs.len() {
        let end = token_end(&signs, at);
        let byte = |at: usize| signs.get(at).map_or(code.len(), |sign| sign.0);
        let text = &code[byte(at)..byte(end)];
        let column = at + 1;
        if !text.trim().is_empty() {
            let place = Place { line, column };
            tokens.push(Token { text, place });
        }
        at = end;
    }
}

/// Where the token that begins here ends: letters and digits stay together, every other sign is one token.
fn token_end(signs: &[(usize, char)], at: usize) -> usize {
    let rest = &signs[at..];
    let length = rest.iter().take_while(|sign| sign.1.is_alphanumeric());
    at + length.count().max(1)
}
