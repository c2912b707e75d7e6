//! Each number 1 to 11 in cases made by hand in which nothing else explains the refusal.

use crate::both::{unhex, Tally};
use crate::handmade::{all_give, case_a, record, with, with_table, CASE_A, PAIRS, QUESTION, RUN};

/// Demands that each casebook is refused with this number.
fn alone(number: u8, casebooks: &[Vec<u8>]) {
    let mut tally = Tally::new("hand-made casebooks with one fault");
    all_give(&mut tally, number, casebooks);
    tally.saw_exactly(&[number]);
}

/// Case A with each of these as the body of a record.
fn bodies(record_number: usize, bodies: &[&str]) -> Vec<Vec<u8>> {
    let kind = record_number as u8 + 1;
    let with_body = |body: &&str| with(record_number, &record(kind, body));
    bodies.iter().map(with_body).collect()
}

/// Each of these as left and as right table, with a run of no steps.
fn tables(bodies: &[&str]) -> Vec<Vec<u8>> {
    let both = |body: &&str| [with_table(1, body), with_table(2, body)];
    bodies.iter().flat_map(both).collect()
}

/// The bytes end before the question record is complete.
#[test]
fn only_1_explains() {
    let whole = case_a();
    let lengths = [0, 2, 4, 5, 7, 16, 20, 27, 36, 39, 40, 42, 43];
    alone(1, &lengths.map(|length| whole[..length].to_vec()));
}

/// Not the kind due.
#[test]
fn only_2_explains() {
    let kinds = [
        with(0, "0300 0200 02"),
        with(0, "0300 0101 02"),
        with(1, "0900 0300 02 000101 000301"),
        with(2, "0900 0200 02 000201 000401"),
        with(3, "0700 0000 0000 000101"),
        with(4, "0600 0600 06000000"),
        with(4, "0600 0005 06000000"),
    ];
    alone(2, &kinds);
}

/// Length not in the table.
#[test]
fn only_3_explains() {
    let steps = "0000".to_string() + &"ff0000".repeat(201);
    let nodes = "0200".repeat(64) + "0000";
    let lengths = [
        with(0, &record(1, "02 00")),
        with(0, &record(1, "")),
        with(1, &record(2, "02 000101 000301 00")),
        with(2, &record(3, "02 000201 000401 0101")),
        with(3, &record(4, "0000 000101 ff")),
        with(3, &record(4, &steps)),
        with(4, &record(5, "06000000 00")),
        with(4, &record(5, &nodes)),
    ];
    alone(3, &lengths);
}

/// k over 15.
#[test]
fn only_4_explains() {
    let over: Vec<Vec<u8>> = (16..=255)
        .map(|k| with(0, &record(1, &format!("{k:02x}"))))
        .collect();
    alone(4, &over);
}

/// n is 0 or over 64, or a row holds a state or label out of range.
#[test]
fn only_5_explains() {
    let out_of_range = [
        "00",
        "41",
        "41 000101 000301",
        "ff",
        "01 000001",
        "01 010000",
        "02 000101 000501",
        "02 000102 000301",
        "02 000101 020301",
        "02 00ff01",
        "02 000101 ff0301",
        "02 0001ff",
    ];
    alone(5, &tables(&out_of_range));
}

/// Row not above the one before.
#[test]
fn only_6_explains() {
    let out_of_order = [
        "02 000101 000101",
        "02 000301 000101",
        "02 000101 000100",
        "02 010101 000301",
        "03 000101 010000 010000 020000",
    ];
    alone(6, &tables(&out_of_order));
}

/// A ninth row from one state.
#[test]
fn only_7_explains() {
    let nine = "000000 000001 000100 000101 000200 000201 000300 000301 000400";
    let last_state = nine.replace(" 00", " 01").replacen("00", "01", 1);
    let crowded = [
        "09 000000 000001 000002 000003 000004 000005 000006 000007 000008",
        &format!("02 {nine}"),
        &format!("02 {nine} 000401 010000"),
        &format!("02 {last_state}"),
        &format!("02 000000 {last_state}"),
    ];
    alone(7, &tables(&crowded));
}

/// A start state out of range, or a step not real.
#[test]
fn only_8_explains() {
    let runs = [
        "0200",
        "0002",
        "ff00",
        "0000 010101",
        "0000 000100",
        "0000 000001",
        "0000 000000",
        "0000 ff0100",
        "0000 ff0001",
        "0000 fe0000",
        "0000 020100",
        "0000 010001",
        "0000 010000",
        "0000 010200",
        "0000 000101 000101",
        "0101 ff0101 000101",
        "0000 ff0000 ff0000 ff0101",
    ];
    alone(8, &bodies(3, &runs));
}

/// Two rows that are no handshake do not make the silent step of case A real.
#[test]
fn only_8_explains_no_handshake() {
    // The same label twice; two silent rows; neighbours that are no pair; partners that lead elsewhere.
    let rows = [
        ["000101", "000101"],
        ["000001", "000001"],
        ["000201", "000301"],
        ["000401", "000501"],
        ["000101", "000200"],
        ["000100", "000201"],
        ["010101", "000201"],
    ];
    let book = |rows: [&str; 2]| {
        let left = record(2, &format!("02 {}", rows[0]));
        let right = record(3, &format!("02 {}", rows[1]));
        let pairs = PAIRS.replace("02", "03");
        unhex(&[&pairs, &left, &right, RUN, QUESTION].concat())
    };
    alone(8, &rows.map(book));
}

/// Formula not one whole tree, operator over 8, label over 2k, or a label byte set where none belongs.
#[test]
fn only_9_explains() {
    let questions = [
        "0600",
        "0300 0000",
        "0000 0000",
        "0600 0000 0100",
        "0900",
        "0600 0900",
        "ff00",
        "0605 0000",
        "0505 0000",
        "05ff 0000",
        "0001",
        "0101",
        "0201 0000",
        "0301 0000 0000",
        "0401 0000 0000",
        "0701 0000",
        "0801 0000",
        "07ff 0000",
    ];
    alone(9, &bodies(4, &questions));
}

/// Forward nesting over 4.
#[test]
fn only_10_explains() {
    let questions = [
        "0500 0500 0500 0500 0500 0000",
        "0700 0700 0700 0700 0700 0000",
        "0500 0700 0504 0700 0501 0100",
        "0500 0200 0500 0600 0700 0800 0500 0300 0000 0500 0000",
        "0400 0000 0500 0500 0500 0500 0500 0000",
        "0400 0500 0500 0500 0500 0500 0000 0000",
    ];
    alone(10, &bodies(4, &questions));
}

/// Bytes after the question record.
#[test]
fn only_11_explains() {
    let tails = ["00", "ff", "0600 0500 06000000", "0300 0100 02"];
    let whole = CASE_A.concat();
    alone(11, &tails.map(|tail| unhex(&(whole.clone() + tail))));
}
