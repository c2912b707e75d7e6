//! Reads and writes Aldebaran texts with the engine and the reference and demands that they agree in every respect.

use std::hint::black_box;

use crate::both::{bare_answer, number_of, wrapped_number};
use crate::splitting_both::Output;
use reference::aldebaran::{self, Machine};
use reference::Refusal;
use yenuslap::bare;

/// The length of the longest table, which is an output that is never too short.
pub const LONGEST_TABLE: usize = 1537;

/// As much of a text as a message can show.
pub fn shown(text: &[u8]) -> String {
    let part = &text[..text.len().min(400)];
    format!("{} bytes: {}", text.len(), part.escape_ascii())
}

/// What the engine must answer to reading: the first state and the table's length in one value.
fn read_answer(expected: &Result<Machine, Refusal>) -> u64 {
    let value = |machine: &Machine| machine.first as usize * 65536 + machine.table.len();
    bare_answer(&expected.as_ref().map(value).map_err(|number| *number))
}

/// Demands that the wrapper reads a text as expected.
fn wrapped_read(text: &[u8], room: usize, expected: &Result<Machine, Refusal>) {
    let mut output = vec![0; room];
    let wrapped = yenuslap::read_aldebaran(text, &mut output);
    let number = number_of(expected);
    assert_eq!(wrapped_number(&wrapped), number, "{}", shown(text));
    let machine = wrapped.ok().map(|read| Machine {
        table: output[..read.length].to_vec(),
        first: read.first,
    });
    assert_eq!(machine.as_ref(), expected.as_ref().ok(), "{}", shown(text));
}

/// Demands that the wrapper writes a table as expected.
fn wrapped_write(table: &[u8], first: usize, room: usize, expected: &Result<Vec<u8>, Refusal>) {
    let mut output = vec![0; room];
    let wrapped = yenuslap::write_aldebaran(table, first, &mut output);
    let number = number_of(expected);
    assert_eq!(wrapped_number(&wrapped), number, "{table:?} with {first}");
    let text = wrapped.ok().map(|length| output[..length].to_vec());
    assert_eq!(
        text.as_ref(),
        expected.as_ref().ok(),
        "{table:?} with {first}"
    );
}

/// Reads a text into `room` bytes with both and gives what they agree on. The engine is asked twice: a byte that is
/// left alone keeps its value under a pattern and under its complement.
pub fn read_both(text: &[u8], room: usize) -> Result<Machine, Refusal> {
    let before = text.to_vec();
    let expected = aldebaran::read(text, room);
    let about = || format!("read into {room}, {}", shown(&before));
    for complement in [false, true] {
        let mut output = Output::new(room, complement);
        let answer = bare::aldebaran_read(text, output.lent());
        let wanted = read_answer(&expected);
        assert_eq!(answer, wanted, "expected {expected:?} of {}", about());
        let table = expected.as_ref().ok().map(|machine| &machine.table[..]);
        output.holds(table, &about);
    }
    wrapped_read(text, room, &expected);
    assert!(black_box(text) == before, "lent text changed, {}", about());
    expected
}

/// The number of a text that is read into an output that is never too short, 0 if it is read.
pub fn number_both(text: &[u8]) -> u8 {
    number_of(&read_both(text, LONGEST_TABLE))
}

/// Writes a table into `room` bytes with both and gives what they agree on. The engine is asked twice, as in reading.
pub fn write_both(table: &[u8], first: usize, room: usize) -> Result<Vec<u8>, Refusal> {
    let before = table.to_vec();
    let expected = aldebaran::write(table, first, room);
    let about = || format!("write {before:?} with {first} into {room}");
    for complement in [false, true] {
        let mut output = Output::new(room, complement);
        let answer = bare::aldebaran_write(table, first, output.lent());
        let length = expected.as_ref().map(Vec::len).map_err(|number| *number);
        assert_eq!(answer, bare_answer(&length), "{}", about());
        output.holds(expected.as_deref().ok(), &about);
    }
    wrapped_write(table, first, room, &expected);
    assert!(
        black_box(table) == before,
        "lent table changed, {}",
        about()
    );
    expected
}

/// Outputs that are empty, far too short, one byte short, exact, one byte longer and much longer.
pub fn rooms(exact: usize) -> [usize; 6] {
    [0, exact / 2, exact - 1, exact, exact + 1, exact + 300]
}
