//! Benches of reading and writing Aldebaran texts.

use reference::aldebaran::{self, Machine, Spelled};
use reference::random::Random;
use reference::table::Row;
use reference::Refusal;
use yenuslap::bare;

use crate::inputs::dense;
use crate::splittings::as_bare;
use crate::timing::{on_both, Bench, Group};

/// All benches of Aldebaran texts.
pub fn groups() -> Vec<Group> {
    let group = |name, benches| Group { name, benches };
    vec![
        group("aldebaran: a full table of 512 rows", full_table()),
        group("aldebaran: texts of 99,999 lines", many_lines()),
        group("aldebaran: linear in the lines", growing_texts()),
        group("aldebaran: small calls", small_calls()),
    ]
}

/// The lengths of the longest table and of an output in which every text has room.
const TABLE: usize = 1537;
const TEXT: usize = 7700;

/// The most lines that a header can name.
const MOST_LINES: usize = 99_999;

/// What the engine answers to reading: the first state and the table's length in one value.
fn as_read(machine: Result<Machine, Refusal>) -> u64 {
    as_bare(machine.map(|machine| machine.first as usize * 65536 + machine.table.len()))
}

/// The bench of reading a text.
fn read(what: &str, text: Vec<u8>) -> Bench {
    let engine = |text: &Vec<u8>| bare::aldebaran_read(text, &mut [0; TABLE]);
    let plain = |text: &Vec<u8>| as_read(aldebaran::read(text, TABLE));
    on_both(&format!("read, {what}"), text, engine, plain)
}

/// The bench of writing a table with a first state.
fn write(what: &str, table: &[u8], first: usize) -> Bench {
    let engine = move |table: &Vec<u8>| bare::aldebaran_write(table, first, &mut [0; TEXT]);
    let plain =
        move |table: &Vec<u8>| as_bare(aldebaran::write(table, first, TEXT).map(|text| text.len()));
    on_both(&format!("write, {what}"), table.to_vec(), engine, plain)
}

/// The bench of reading a text and writing its table again.
fn read_and_write(what: &str, text: Vec<u8>) -> Bench {
    let engine = |text: &Vec<u8>| {
        let mut table = [0; TABLE];
        let read = bare::aldebaran_read(text, &mut table) as usize;
        bare::aldebaran_write(&table[..read % 65536], read / 65536, &mut [0; TEXT])
    };
    let plain = |text: &Vec<u8>| {
        let read = aldebaran::read(text, TABLE);
        let written = read.and_then(|read| aldebaran::write(&read.table, read.first.into(), TEXT));
        as_bare(written.map(|text| text.len()))
    };
    on_both(&format!("read and written, {what}"), text, engine, plain)
}

/// Puts items in any order.
fn shuffled<T>(mut items: Vec<T>) -> Vec<T> {
    let mut random = Random::new(5);
    for at in (1..items.len()).rev() {
        items.swap(at, random.from_to(0, at));
    }
    items
}

/// The text of these rows on 64 states.
fn text(rows: &[Row]) -> Vec<u8> {
    let mut text = format!("des (0,{},64)\n", rows.len());
    for row in rows {
        let label = Spelled(row.label);
        text += &format!("({},\"{label}\",{})\n", row.from, row.to);
    }
    text.into_bytes()
}

/// So many different rows on 64 states in any order, with no heed of how many leave one state.
fn different_rows(count: usize) -> Vec<Row> {
    let row = |number: usize| Row {
        from: (number / (31 * 64)) as u8,
        label: (number / 64 % 31) as u8,
        to: (number % 64) as u8,
    };
    let mut rows = shuffled((0..64 * 31 * 64).map(row).collect());
    rows.truncate(count);
    rows
}

/// A full table, its rows in row order and in any order.
fn full_table() -> Vec<Bench> {
    let table = dense([0, 1, 2, 9, 16, 23, 29, 30]);
    vec![
        read("rows in row order", text(&table.rows)),
        read("rows in any order", text(&shuffled(table.rows.clone()))),
        write("first state 0", &table.to_bytes(), 0),
        read_and_write("rows in row order", text(&table.rows)),
        write("no such first state", &table.to_bytes(), 64),
    ]
}

/// Refusals of the longest texts: what is found at the end only, and what comes last of all.
fn many_lines() -> Vec<Bench> {
    let rows = different_rows(MOST_LINES);
    let sound = text(&rows);
    let malformed = [&sound[..sound.len() - 2], b" )\n"].concat();
    let other_count = [b"des (0,1,64)\n", behind_header(&sound)].concat();
    let mut doubled = rows.clone();
    doubled[MOST_LINES - 1] = rows[0];
    vec![
        read("different rows in range", sound.clone()),
        read("the last one again the first", text(&doubled)),
        read("a blank in the last line", malformed),
        read("another count in the header", other_count),
        read("one row over and over", text(&vec![rows[0]; MOST_LINES])),
    ]
}

/// The lines behind the header.
fn behind_header(text: &[u8]) -> &[u8] {
    let end = text.iter().position(|byte| *byte == b'\n');
    &text[end.expect("a header") + 1..]
}

/// A tenth of the lines, a hundredth, a thousandth.
fn growing_texts() -> Vec<Bench> {
    let lines = [("99 lines", 99), ("999 lines", 999), ("9,999 lines", 9_999)];
    let bench = |(what, count): (&str, usize)| read(what, text(&different_rows(count)));
    lines.into_iter().map(bench).collect()
}

/// Case A's left and a table without rows: what a call costs apart from its work.
fn small_calls() -> Vec<Bench> {
    let case_a = b"des (0,2,2)\n(0,\"a1!\",1)\n(0,\"a2!\",1)\n";
    vec![
        read("case A's left", case_a.to_vec()),
        write("case A's left", &[2, 0, 1, 1, 0, 3, 1], 0),
        read("64 states and no rows", b"des (63,0,64)\n".to_vec()),
        write("64 states and no rows", &[64], 63),
    ]
}
