//! `yenuslap table`: an Aldebaran text read into a table, shown in the text form or as a graph.

use std::ffi::OsString;

use yenuslap::{read_aldebaran, MOST_TABLE};

use super::aldebaran_faults::explain_text;
use super::aldebaran_text::{Manner, Text};
use super::arguments::Arguments;
use super::dot::dot_of_table;
use super::failure::{complain, Ending, Failure};
use super::input::{once_only, read_aldebaran_text, shown_name};
use super::judge;
use super::label_map::LabelMap;
use super::output::Output;
use super::spelling::Spelling;
use super::text_form::table_section;

/// A table that was read.
struct Table {
    bytes: Vec<u8>,
    first: u8,
}

/// Reads the text and shows its table.
pub fn run(arguments: &Arguments, out: &mut Output) -> Result<Ending, Failure> {
    arguments.not_both("left", "right")?;
    arguments.not_both("dot", "left")?;
    arguments.not_both("dot", "right")?;
    let table = read(arguments)?;
    let shown = if arguments.has("dot") {
        let name = shown_name(arguments.file()?);
        dot_of_table(&name, &table.bytes, table.first).join("\n") + "\n"
    } else {
        text_of(&table, arguments.has("right"))
    };
    out.deliver(arguments.value("output"), shown.as_bytes())?;
    Ok(Ending::Fine)
}

/// The table of the file; what was repaired is told first.
fn read(arguments: &Arguments) -> Result<Table, Failure> {
    let file = arguments.file()?;
    let map = arguments.value("labels");
    let files = [Some(file), map].into_iter().flatten();
    once_only(&files.map(OsString::from).collect::<Vec<_>>())?;
    let spelling = Spelling::ask();
    let labels = map.map(|map| LabelMap::read(map, &spelling)).transpose()?;
    let manner = Manner {
        tidy: arguments.has("tidy"),
        labels: labels.as_ref(),
    };
    let (name, bytes) = (shown_name(file), read_aldebaran_text(file)?);
    let text = Text::of(&bytes, manner);
    for sentence in text.repairs.sentences() {
        complain(&format!("{name}: {sentence}"));
    }
    let mut table = vec![0; MOST_TABLE];
    match read_aldebaran(&text.bytes, &mut table) {
        Ok(read) => {
            table.truncate(read.length);
            Ok(Table {
                bytes: table,
                first: read.first,
            })
        }
        Err(refusal) => {
            let sentence = explain_text(&text, manner, &spelling, refusal);
            Err(Failure::refused(&name, refusal, &sentence))
        }
    }
}

/// The table's section of the text form, below a comment with what else a casebook needs to know.
fn text_of(table: &Table, right: bool) -> String {
    let keyword = if right { "right" } else { "left" };
    let mut pairs = 0..u8::MAX;
    let least = pairs.find(|k| judge::table(*k, &table.bytes).is_none());
    let least = least.map_or(String::new(), |k| format!(", pairs {k} or more"));
    let section = table_section(keyword, &table.bytes);
    format!("# first state {}{least}\n{section}", table.first)
}
