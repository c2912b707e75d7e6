//! Cases made by hand: case A, what is made from it, and sound cases at the edges of the rules.

use crate::both::{parts_of, read_both, unhex, Tally};

pub const PAIRS: &str = "0300 0100 02";
pub const LEFT: &str = "0900 0200 02 000101 000301";
pub const RIGHT: &str = "0900 0300 02 000201 000401";
pub const RUN: &str = "0700 0400 0000 000101";
pub const QUESTION: &str = "0600 0500 06000000";

/// The records of document 01's case A.
pub const CASE_A: [&str; 5] = [PAIRS, LEFT, RIGHT, RUN, QUESTION];

/// Case A whole.
pub fn case_a() -> Vec<u8> {
    unhex(&CASE_A.concat())
}

/// Case A with one record (counted from 0) put in another's place.
pub fn with(record: usize, other: &str) -> Vec<u8> {
    let mut records = CASE_A;
    records[record] = other;
    unhex(&records.concat())
}

/// Case A up to a record, then this and nothing more.
pub fn ending(record: usize, last: &str) -> Vec<u8> {
    unhex(&(CASE_A[..record].concat() + last))
}

/// A record's bytes from its body, with a true length.
pub fn record(kind: u8, body: &str) -> String {
    let length = unhex(body).len() + 2;
    format!(
        "{:02x}{:02x} {kind:02x}00 {body}",
        length % 256,
        length / 256
    )
}

/// Case A with another table and a run of no steps, so that the table alone decides.
pub fn with_table(record_number: usize, body: &str) -> Vec<u8> {
    let table = record(record_number as u8 + 1, body);
    let run = record(4, "0000");
    let mut records = [PAIRS, LEFT, RIGHT, &run, QUESTION];
    records[record_number] = &table;
    unhex(&records.concat())
}

/// Reads each casebook with both and demands this number.
pub fn all_give(tally: &mut Tally, number: u8, casebooks: &[Vec<u8>]) {
    for (place, bytes) in casebooks.iter().enumerate() {
        assert_eq!(read_both(bytes), number, "case {place} for {number}");
        tally.note(number);
    }
}

/// Case A is read, and its parts are those that document 01 prints.
#[test]
fn case_a_is_read() {
    let bytes = case_a();
    assert_eq!(bytes.len(), 44);
    assert_eq!(read_both(&bytes), 0);
    let parts = parts_of(yenuslap::read_casebook(&bytes).unwrap());
    assert_eq!(parts.k, 2);
    assert_eq!(parts.left, unhex("02 000101 000301"));
    assert_eq!(parts.right, unhex("02 000201 000401"));
    assert_eq!(parts.run, unhex("0000 000101"));
    assert_eq!(parts.question, unhex("06000000"));
}

/// Tables and runs at the edges of each rule are sound, so that a rule drawn too tight is seen.
#[test]
fn machines_at_the_edges_are_sound() {
    let eight = "09 000000 000001 000002 000003 000004 000005 000006 000007";
    let idles = "0000".to_string() + &"ff0000".repeat(200);
    let sound = [
        with(0, "0300 0100 0f"),
        with_table(1, "40 000101 000301 3f043f"),
        with_table(2, "01"),
        with_table(1, eight),
        with_table(2, &format!("{eight} 010000")),
        with_table(1, "02 000001 000100 000101 000301 010000"),
        with_table(2, "02 000101 000201 000401"),
        with(3, &record(4, "0101")),
        with(3, &record(4, "0000 ff0000 000101 ff0101")),
        with(3, &record(4, "0000 010100 020101")),
        with(3, &record(4, &idles)),
    ];
    let mut tally = Tally::new("hand-made sound machines and runs");
    all_give(&mut tally, 0, &sound);
    tally.saw_exactly(&[0]);
}

/// Questions at the edges of each rule are sound.
#[test]
fn questions_at_the_edges_are_sound() {
    let longest = "0200".repeat(63) + "0100";
    let questions = [
        "0604 0000",
        "0504 0000",
        "0000",
        &longest,
        "0504 0700 0500 0700 0000",
        "0300 0500 0500 0500 0500 0000 0700 0700 0700 0700 0100",
        "0500 0600 0500 0800 0500 0200 0500 0600 0800 0000",
        "0400 0300 0000 0100 0200 0400 0000 0600 0100",
    ];
    let mut tally = Tally::new("hand-made sound questions");
    for question in questions {
        all_give(&mut tally, 0, &[with(4, &record(5, question))]);
    }
    tally.saw_exactly(&[0]);
}
