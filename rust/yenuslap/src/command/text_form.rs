//! The text form of a casebook: printing it.

use yenuslap::Casebook;

use super::contents::{log, rows, start_states, states};
use super::halves::label_word;
use super::statement::notation;

/// A sound casebook as text, which `write` turns into the same bytes.
pub fn text_form(book: &Casebook) -> String {
    let mut text = format!("pairs {}\n", book.k);
    text += &table_section("left", book.left);
    text += &table_section("right", book.right);
    text += &log_section(book.run);
    text += &format!("question {}\n", notation(book.question));
    text
}

/// A table's section.
pub fn table_section(keyword: &str, table: &[u8]) -> String {
    let mut text = format!("{keyword} {}\n", states(table));
    for row in rows(table) {
        text += &format!("  {row}\n");
    }
    text
}

/// The log's section.
pub fn log_section(run: &[u8]) -> String {
    let (left, right) = start_states(run);
    let mut text = format!("log {left} {right}\n");
    for step in log(run) {
        let label = label_word(step.label);
        text += &format!("  {label} {} {}\n", step.left, step.right);
    }
    text
}
