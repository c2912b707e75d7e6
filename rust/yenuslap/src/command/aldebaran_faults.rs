//! Why an Aldebaran text is refused, and where: the first place of the engine's number, found in the text.

use std::collections::HashMap;

use yenuslap::{read_aldebaran, Refusal};

use super::aldebaran_line::Header;
use super::aldebaran_text::{row_line, Manner, Row, Text, TAU};
use super::faults::{ninth_row, state_out_of_range};
use super::label_map::shown;
use super::spelling::{Spelling, LABELS};
use super::tokens::Place;
use super::words::counted;

/// How many rows may leave a state.
const MOST_ROWS: usize = 8;
/// How many rows a table may have.
const MOST_TABLE_ROWS: usize = 512;
/// The number of a table's limits.
const OUT_OF_RANGE: u32 = 5;

/// Why the text is refused, in a sentence with its place.
pub fn explain_text(text: &Text, manner: Manner, spelling: &Spelling, refusal: Refusal) -> String {
    let fault = match refusal.number() {
        19 => not_of_form(text),
        20 => wrong_header(text),
        21 => unknown_label(text, manner, spelling),
        5 => out_of_range(text),
        6 => given_twice(text),
        7 => ninth(text),
        _ => None,
    };
    match fault {
        Some((place, sentence)) => format!("{place}: {sentence}"),
        None => refusal.meaning().to_string(),
    }
}

/// A fault: where it is, and what is wrong there.
type Fault = Option<(Place, String)>;

/// 19: a line not of the form; a text without lines has no header.
fn not_of_form(text: &Text) -> Fault {
    if text.is_empty() {
        let sentence = "expected the header des (first,rows,states), found the end of the text";
        return Some((text.place(1, 0), sentence.to_string()));
    }
    let first = text.off.as_ref()?;
    let hint = if first.tidies {
        "; --tidy repairs this"
    } else {
        ""
    };
    let place = text.place(first.line, first.off.at);
    Some((place, format!("{}{hint}", first.off.sentence)))
}

/// 20: the first state or the row count; where both are wrong, both are told.
fn wrong_header(text: &Text) -> Fault {
    let header = text.header?;
    let (first, states) = (header.first.value, header.states.value);
    let lines = text.rows.len();
    let mut faults = Vec::new();
    if first >= states {
        faults.push((header.first.at, first_not_below(first, states)));
    }
    if header.rows.value != lines {
        faults.push((header.rows.at, wrong_count(&header, lines)));
    }
    let at = faults.first()?.0;
    let sentences: Vec<String> = faults.into_iter().map(|(_, sentence)| sentence).collect();
    Some((text.place(1, at), sentences.join("; also, ")))
}

/// A first state that the table does not have.
pub fn first_not_below(first: usize, states: usize) -> String {
    let rule = match states {
        0 => "a table has 1 to 64 states".to_string(),
        1 => "the only state is 0".to_string(),
        _ => format!("the states are 0 to {}", states - 1),
    };
    format!("the first state, {first}, is not below the number of states, {states}; {rule}")
}

/// A row count other than the lines.
fn wrong_count(header: &Header, lines: usize) -> String {
    let said = counted(header.rows.value, "row");
    let there = counted(lines, "line");
    let right = if lines > MOST_TABLE_ROWS {
        format!("a table has at most {MOST_TABLE_ROWS} rows")
    } else {
        format!("a row count of {lines} would be right")
    };
    format!("the header says {said}, but has {there} below it; {right}")
}

/// 21: a label that is not spelled as one.
fn unknown_label(text: &Text, manner: Manner, spelling: &Spelling) -> Fault {
    let row = text.rows.iter().find(|row| !spelling.has(&row.label))?;
    let label = shown(row.said.label);
    let hint = if row.said.label == TAU && !manner.tidy {
        "--tidy writes it as i"
    } else {
        "--labels MAP renames those of other tools"
    };
    let sentence = format!("label {label} is not one of ours; {LABELS}; {hint}");
    Some((text.place(row.line, row.said.label_at), sentence))
}

/// 5: the number of states, or a state of a row.
fn out_of_range(text: &Text) -> Fault {
    let states = text.header?.states;
    if !is_number_of_states(states.value) {
        let there = counted(states.value, "state");
        let sentence = format!("there are {there}; a table has 1 to 64");
        return Some((text.place(1, states.at), sentence));
    }
    let mut pieces = text.rows.iter().flat_map(|row| {
        let said = &row.said;
        [(row.line, "from", said.from), (row.line, "to", said.to)]
    });
    let (line, role, state) = pieces.find(|(_, _, state)| state.value >= states.value)?;
    let sentence = state_out_of_range(role, state.value, states.value);
    Some((text.place(line, state.at), sentence))
}

/// May a table have so many states? The engine is asked.
fn is_number_of_states(states: usize) -> bool {
    let text = format!("des (0,0,{states})\n");
    !matches!(read_aldebaran(text.as_bytes(), &mut [0]), Err(refusal) if refusal.number() == OUT_OF_RANGE)
}

/// 6: a row that an earlier line gives too.
fn given_twice(text: &Text) -> Fault {
    let mut given: HashMap<(usize, &[u8], usize), usize> = HashMap::new();
    for row in &text.rows {
        let key = (row.said.from.value, &row.label[..], row.said.to.value);
        if let Some(before) = given.insert(key, row.line) {
            let row_text = row_line(&row.said, &row.label);
            let row_text = String::from_utf8_lossy(&row_text);
            let sentence = format!("{row_text} stands in line {before} too; a row is given once");
            return Some((text.place(row.line, row.said.at), sentence));
        }
    }
    None
}

/// 7: the ninth row from one state.
fn ninth(text: &Text) -> Fault {
    let mut leaving: HashMap<usize, usize> = HashMap::new();
    let is_ninth = |row: &&Row| {
        let count = leaving.entry(row.said.from.value).or_default();
        *count += 1;
        *count > MOST_ROWS
    };
    let row = text.rows.iter().find(is_ninth)?;
    let place = text.place(row.line, row.said.at);
    Some((place, ninth_row(row.said.from.value)))
}
