//! Which of several faults comes first: within a record, within contents, and at the end.

use crate::both::{unhex, Tally};
use crate::handmade::{all_give, ending, record, with, LEFT, QUESTION, RIGHT, RUN};

/// Eight rows from state 0 of a table with nine states.
const EIGHT: &str = "09 000000 000001 000002 000003 000004 000005 000006 000007";
/// Five nested forward modalities, which still want an operand.
const FIVE: &str = "0500 0500 0500 0500 0500";

/// Demands that each casebook, although it has several faults, is refused with this number.
fn first(number: u8, casebooks: &[Vec<u8>]) {
    let mut tally = Tally::new("hand-made casebooks with several faults");
    all_give(&mut tally, number, casebooks);
    tally.saw_exactly(&[number]);
}

/// Case A with another left table.
fn left(body: &str) -> Vec<u8> {
    with(1, &record(2, body))
}

/// A header that is not whole is 1, whatever its bytes are: so 0 to 3 bytes are always 1.
#[test]
fn cut_header_is_1() {
    let few = ["", "03", "0300", "030001", "ff", "ffffff", "0400 02"];
    first(1, &few.map(unhex));
    first(1, &[ending(1, "0900 03"), ending(4, "0500 00")]);
}

/// Wrong kind and wrong length is 2, with or without a body.
#[test]
fn kind_comes_before_length() {
    let headers = ["0400 0200 02", "0400 0200", "0000 0000", "ffff ffff"];
    first(2, &headers.map(unhex));
    first(2, &[ending(3, "0800 0500"), with(4, "0700 0400 0000 09")]);
}

/// Wrong length and cut body is 3.
#[test]
fn length_comes_before_body() {
    let headers = ["0400 0100", "0200 0100", "ffff 0100", "0003 0100 02"];
    first(3, &headers.map(unhex));
    let table = ending(1, "0a00 0200 00");
    let question = ending(4, "0700 0500 09");
    first(3, &[table, question, ending(3, "5f02 0400 ff")]);
}

/// Cut body with bad contents is 1.
#[test]
fn body_comes_before_contents() {
    let cut = [
        ending(0, "0300 0100"),
        ending(1, "0900 0200 00"),
        ending(1, "0900 0200 02 000101 0001"),
        ending(2, "0900 0300 02 050505 0505"),
        ending(3, "0700 0400 0202"),
        ending(4, "0600 0500 0900 00"),
    ];
    first(1, &cut);
}

/// k = 16 and nothing after it is 4: contents come before the next record.
#[test]
fn contents_come_before_the_next_record() {
    let pairs = ["0300 0100 10", "0300 0100 10 ff", "0300 0100 ff 0000 0000"];
    first(4, &pairs.map(unhex));
    let table = record(2, "00") + "0900 0200";
    first(5, &[ending(1, &table), ending(1, &record(2, "41"))]);
    let tables = record(2, "02 000101 000100") + &record(3, "00");
    first(6, &[ending(1, &tables)]);
    let run = record(4, "0000 010101") + "0700 0500";
    first(8, &[ending(3, &run), ending(3, &record(4, "0202"))]);
}

/// n comes before the rows, and in one row range (5), order (6), count (7).
#[test]
fn rows_are_judged_in_order() {
    let fives = [
        left("02 000101 000002"),
        left(&format!("{EIGHT} 000009")),
        left(&format!("{EIGHT} 000508")),
        left("00 000101 000101"),
        unhex(&["0300 0100 00", LEFT, RIGHT, RUN, QUESTION].concat()),
    ];
    first(5, &fives);
    let sixes = [
        left(&format!("{EIGHT} 000007")),
        left(&format!("{EIGHT} 000000")),
    ];
    first(6, &sixes);
}

/// The first bad row decides, whatever is wrong with later ones.
#[test]
fn first_bad_row_decides() {
    first(5, &[left("02 000105 000101 000100")]);
    first(6, &[left("02 000101 000101 020000")]);
    let sevens = [
        left(&format!("{EIGHT} 000008 000008")),
        left(&format!("{EIGHT} 000008 090000")),
    ];
    first(7, &sevens);
}

/// 9 to the right of a nesting of 5 is 9: the whole formula is judged by 9 before 10.
#[test]
fn whole_tree_comes_before_nesting() {
    let questions = [
        format!("0300 {FIVE} 0000 0900"),
        format!("0300 {FIVE} 0000 0001"),
        format!("0300 {FIVE} 0000 0505 0000"),
        format!("0300 {FIVE} 0000"),
        format!("{FIVE} 0000 0000"),
        FIVE.to_string(),
    ];
    first(9, &questions.map(|body| with(4, &record(5, &body))));
}

/// Bytes after a faulty question give the question's number; 11 comes last of all.
#[test]
fn question_comes_before_what_follows() {
    let nine = with(4, &(record(5, "0900") + "00"));
    // A question that stops short of its tree leaves the rest of the tree as bytes after it.
    let split = with(4, "0400 0500 0600 0000");
    first(9, &[nine, split]);
    let deep = record(5, &format!("{FIVE} 0000"));
    first(10, &[with(4, &deep), with(4, &(deep + "0000"))]);
    first(11, &[with(4, "0400 0500 0000 0000")]);
}
