//! The text form of a casebook: reading it into parts, each entry with its place.

use super::contents::IDLE_LABEL;
use super::statement::IDLE;
use super::statement_parser::{parse_statement, Statement};
use super::tokens::{Place, SyntaxError, Tokens};

/// A part's bytes, and where its head and its entries stand in the text.
#[derive(Clone, PartialEq, Eq, Debug)]
pub struct Section {
    /// The part's bytes.
    pub bytes: Vec<u8>,
    /// The place of its keyword.
    pub head: Place,
    /// The place of each row or step.
    pub entries: Vec<Place>,
}

/// The parts of a casebook as the text has them; whether they are sound is the engine's to say.
#[derive(Clone, PartialEq, Eq, Debug)]
pub struct Draft {
    /// The number of pairs.
    pub k: u8,
    /// The place of its keyword.
    pub pairs: Place,
    /// The left table.
    pub left: Section,
    /// The right table.
    pub right: Section,
    /// The joint run.
    pub log: Section,
    /// The question.
    pub question: Statement,
    /// The place of its keyword.
    pub question_head: Place,
}

/// Reads the text form.
pub fn parse_text(text: &str) -> Result<Draft, SyntaxError> {
    let mut tokens = Tokens::of(text);
    let pairs = tokens.expect("pairs")?.place;
    let k = byte_in_line(&mut tokens, pairs, "the number of pairs")?;
    end_of_line(&tokens, pairs)?;
    let left = table(&mut tokens, "left")?;
    let right = table(&mut tokens, "right")?;
    let log = log(&mut tokens)?;
    let question_head = tokens.place();
    if tokens.take_if("question").is_none() {
        return tokens.expected("a step (label, left target, right target) or `question`");
    }
    Ok(Draft {
        k,
        pairs,
        left,
        right,
        log,
        question: parse_statement(tokens)?,
        question_head,
    })
}

/// Reads a table's section.
fn table(tokens: &mut Tokens, keyword: &str) -> Result<Section, SyntaxError> {
    let head = tokens.place();
    if tokens.take_if(keyword).is_none() {
        return tokens.expected(&expected_section(keyword));
    }
    let mut section = Section {
        bytes: vec![byte_in_line(tokens, head, "the number of states")?],
        head,
        entries: Vec::new(),
    };
    end_of_line(tokens, head)?;
    while tokens.peek().is_some_and(|token| is_number(token.text)) {
        let place = tokens.place();
        for what in ["a state", "a label", "a target"] {
            section.bytes.push(byte_in_line(tokens, place, what)?);
        }
        end_of_line(tokens, place)?;
        section.entries.push(place);
    }
    Ok(section)
}

/// What may stand where a section is due: its keyword or, behind a table, another row.
fn expected_section(keyword: &str) -> String {
    match keyword {
        "left" => "`left`".to_string(),
        _ => format!("a row (from, label, to) or `{keyword}`"),
    }
}

/// Reads the log's section.
fn log(tokens: &mut Tokens) -> Result<Section, SyntaxError> {
    let head = tokens.place();
    if tokens.take_if("log").is_none() {
        return tokens.expected(&expected_section("log"));
    }
    let left = byte_in_line(tokens, head, "the left start state")?;
    let right = byte_in_line(tokens, head, "the right start state")?;
    end_of_line(tokens, head)?;
    let mut section = Section {
        bytes: vec![left, right],
        head,
        entries: Vec::new(),
    };
    while tokens.peek().is_some_and(|token| begins_step(token.text)) {
        let place = tokens.place();
        section.bytes.push(step_label(tokens)?);
        for what in ["the left target", "the right target"] {
            section.bytes.push(byte_in_line(tokens, place, what)?);
        }
        end_of_line(tokens, place)?;
        section.entries.push(place);
    }
    Ok(section)
}

/// Takes a step's label.
fn step_label(tokens: &mut Tokens) -> Result<u8, SyntaxError> {
    match tokens.take_if(IDLE) {
        Some(_) => Ok(IDLE_LABEL),
        None => tokens.byte("a label"),
    }
}

/// Is the token a number, as a row's first one?
fn is_number(text: &str) -> bool {
    text.starts_with(|sign: char| sign.is_ascii_digit())
}

/// Is the token a step's first one?
fn begins_step(text: &str) -> bool {
    text == IDLE || is_number(text)
}

/// Takes a byte that must stand in the line that began at a place.
fn byte_in_line(tokens: &mut Tokens, began: Place, what: &str) -> Result<u8, SyntaxError> {
    if tokens.in_line(began.line) {
        tokens.byte(what)
    } else {
        Err(tokens.line_too_short(began.line, what))
    }
}

/// Demands that the line that began at a place has ended.
fn end_of_line(tokens: &Tokens, began: Place) -> Result<(), SyntaxError> {
    if tokens.in_line(began.line) {
        tokens.expected("the end of the line")
    } else {
        Ok(())
    }
}
