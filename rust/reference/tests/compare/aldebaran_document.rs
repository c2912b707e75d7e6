//! Aldebaran texts written out by hand: what document 02 states or implies, and each number where nothing else explains
//! it.

use crate::aldebaran_both::{number_both, read_both, write_both, LONGEST_TABLE};
use crate::aldebaran_texts::{line, Draft, SPELLINGS};
use crate::both::{number_of, Tally};
use reference::aldebaran::Machine;

/// Case A's left machine, which begins in state 0.
pub const CASE_A: &str = "des (0,2,2)\n(0,\"a1!\",1)\n(0,\"a2!\",1)\n";

/// A machine of three rows that begins in state 1.
pub const THREE_ROWS: &str = "des (1,3,3)\n(0,\"i\",2)\n(1,\"a15?\",0)\n(2,\"a7!\",2)\n";

/// Demands that each text gets this number.
fn alone<T: AsRef<[u8]>>(number: u8, texts: impl IntoIterator<Item = T>) {
    let mut tally = Tally::new("Aldebaran texts made by hand");
    for text in texts {
        let text = text.as_ref();
        assert_eq!(number_both(text), number, "{}", text.escape_ascii());
        tally.note(number);
    }
    tally.saw_exactly(&[number]);
}

/// What stands between upright strokes.
fn pieces<'a>(rows: &'a [&'a str]) -> impl Iterator<Item = &'a str> {
    rows.iter().flat_map(|row| row.split('|'))
}

/// Demands that each of these, between strokes, in the place of the header `des (0,1,1)` gets this number.
fn headers(number: u8, headers: &[&str]) {
    let text = |header| format!("{header}\n(0,\"i\",0)\n");
    alone(number, pieces(headers).map(text));
}

/// Demands that each of these, between strokes, as second of three lines gets this number.
fn lines(number: u8, lines: &[&str]) {
    let text = |line| format!("des (0,3,2)\n(0,\"a1!\",1)\n{line}\n(1,\"i\",1)\n");
    alone(number, pieces(lines).map(text));
}

/// Sound texts and the very tables they are.
#[test]
fn tables_as_the_document_says() {
    let sound: [(&str, u8, &[u8]); 9] = [
        (CASE_A, 0, &[2, 0, 1, 1, 0, 3, 1]),
        (THREE_ROWS, 1, &[3, 0, 0, 2, 1, 30, 0, 2, 13, 2]),
        ("des (0,0,1)\n", 0, &[1]),
        ("des (63,0,64)\n", 63, &[64]),
        ("des (0,1,1)\n(0,\"i\",0)\n", 0, &[1, 0, 0, 0]),
        ("des (0,1,1)\n(0,\"a1!\",0)\n", 0, &[1, 0, 1, 0]),
        ("des (0,1,1)\n(0,\"a1?\",0)\n", 0, &[1, 0, 2, 0]),
        ("des (9,1,11)\n(10,\"a15!\",10)\n", 9, &[11, 10, 29, 10]),
        // By from, then label, then to; a10! comes after a9?, and i before all.
        (
            "des (1,6,2)\n(1,\"i\",0)\n(0,\"a10!\",0)\n(0,\"a9?\",1)\n(0,\"a9?\",0)\n(0,\"i\",1)\n(0,\"a2!\",1)\n",
            1,
            &[2, 0, 0, 1, 0, 3, 1, 0, 18, 0, 0, 18, 1, 0, 19, 0, 1, 0, 0],
        ),
    ];
    for (text, first, table) in sound {
        let machine = read_both(text.as_bytes(), LONGEST_TABLE);
        let table = table.to_vec();
        assert_eq!(machine, Ok(Machine { table, first }), "{text:?}");
    }
}

/// Sound tables and the very texts they are written as.
#[test]
fn texts_as_the_document_says() {
    let tables: [(&[u8], usize, &str); 5] = [
        (&[2, 0, 1, 1, 0, 3, 1], 0, CASE_A),
        (&[3, 0, 0, 2, 1, 30, 0, 2, 13, 2], 1, THREE_ROWS),
        (&[1], 0, "des (0,0,1)\n"),
        (&[64], 63, "des (63,0,64)\n"),
        (
            &[64, 9, 19, 63, 63, 18, 10],
            10,
            "des (10,2,64)\n(9,\"a10!\",63)\n(63,\"a9?\",10)\n",
        ),
    ];
    for (table, first, text) in tables {
        let written = write_both(table, first, 100);
        assert_eq!(written, Ok(text.as_bytes().to_vec()), "{table:?}");
    }
}

/// Each label, read and written as document 02 spells it.
#[test]
fn every_label_as_spelled() {
    for (label, spelled) in SPELLINGS.iter().enumerate() {
        let text = Draft::with(0, 1, vec![line(0, spelled, 0)]).to_bytes();
        let table = vec![1, 0, label as u8, 0];
        let machine = read_both(&text, 4).unwrap();
        assert_eq!((machine.first, &machine.table), (0, &table));
        assert_eq!(write_both(&table, 0, text.len()), Ok(text));
    }
}

/// No header, or a line in its place that is none.
#[test]
fn only_19_explains_a_header() {
    alone(
        19,
        [
            "",
            "\n",
            "\n\n",
            "des",
            "des (0,0,1)",
            "(0,\"i\",0)\n",
            "d",
            "des (0,0,1)\r\n",
            "des (0,0,1) \n",
            " des (0,0,1)\n",
            "\ndes (0,0,1)\n",
            "des (0,0,1)\n\n",
            "(0,\"i\",0)\ndes (0,1,1)\n",
            "\u{feff}des (0,0,1)\n",
            "des (0,0,1)\0",
            "des (0,0,1)\ndes (0,0,1)\n",
            "des (0,0,1)\n ",
            "des (0,0,1)\nx",
            "des (0,0,1)\n\0",
        ],
    );
    headers(
        19,
        &[
            "|des|des(0,1,1)|des  (0,1,1)|Des (0,1,1)|DES (0,1,1)|des (0,1,1|des 0,1,1",
            "des 0,1,1)|des (0,1)|des (0,1,1,1)|des (0,1,)|des (,1,1)|des (0,,1)|des ()",
            "des (,,)|des (0 ,1,1)|des (0, 1,1)|des (0,1, 1)|des ( 0,1,1)|des (0,1,1 )",
            "des (0;1;1)|des (0.1.1)|des [0,1,1]|des (00,1,1)|des (0,01,1)|des (0,1,01)",
            "des (000000,1,1)|des (0,000001,1)|des (0,1,000001)|des (0,100000,1)",
            "des (100000,1,1)|des (0,1,100000)|des (+0,1,1)|des (-0,1,1)|des (0,+1,1)",
            "des (0,1,-1)|des (0x0,1,1)|des (0,1,1))|des ((0,1,1)|des (0,1,1)x|des (0,1,1),",
            r#"des ("0",1,1)|des (0,1,a)|es (0,1,1)|ddes (0,1,1)|(0,1,1)|des (0,4294967297,1)"#,
            "des (0,18446744073709551617,1)|des (0,1,18446744073709551617)",
            "des\t(0,1,1)",
        ],
    );
}

/// A line that is not of the form.
#[test]
fn only_19_explains_a_line() {
    lines(
        19,
        &[
            r#"| |x|(|()|(0)|(0,"i")|(0,"i",)|(,"i",0)|(0,i,0)|(0,'i',0)|(0,"i,0)|(0,i",0)"#,
            r#"(0,""i"",0)|(0,"i"",0)|(0,""",0)|(0,"i"i",0)|(0,"i",0,"i",0)|(0,"i",0|0,"i",0)"#,
            r#"0,"i",0|[0,"i",0]|(0,"i",0))|((0,"i",0)|(0,"i",0) | (0,"i",0)|( 0,"i",0)"#,
            r#"(0 ,"i",0)|(0, "i",0)|(0,"i" ,0)|(0,"i", 0)|(0,"i",0 )|(0,"i",0);|(00,"i",0)"#,
            r#"(0,"i",00)|(01,"i",0)|(0,"i",01)|(100000,"i",0)|(0,"i",100000)|(000001,"i",0)"#,
            r#"(0,"i",000001)|(0"i",0)|(0,"i"0)|(0;"i";0)|(0,,"i",0)|(0,"i",,0)|(a,"i",0)"#,
            r#"(0,"i",a)|(-0,"i",0)|(0,"i",-0)|(+0,"i",0)|(0,"i",+0)|(0.,"i",0)"#,
            r#"(0,"i",0)(1,"i",0)|(0,0,"i")|(0,"i"|(0,"|(0,|(0|des (0,3,2)|(4294967296,"i",0)"#,
            r#"(0,"i",18446744073709551616)|(0,"a1!"?",0)|(0,\"i\",0)"#,
            "\r|\0|(0,\"i\",0)\r|\r(0,\"i\",0)|(0,\"i\",0)\t|(0,\"i\n\",0)|(0,\"i\"\n,0)",
            "(0,\n\"i\",0)|\n(0,\"i\",0)|(0,\"i\",0)\n",
        ],
    );
    alone(
        19,
        [
            "des (0,1,1)\n(0,\"i\",0)",
            "des (0,1,1)\n(0,\"i\",0)\r",
            "des (0,1,1)\n(0,\"i\",0)\n(",
            "des (0,1,1)\r\n(0,\"i\",0)\r\n",
            "des (0,1,1)\n\r(0,\"i\",0)\n\r",
            "des (0,1,1)\r(0,\"i\",0)\r",
            "des (0,1,1)\n(0,\"i\",0)\n\n",
            "des (0,1,1)(0,\"i\",0)\n",
        ],
    );
}

/// A row count that differs from the lines, or a first state not below the states.
#[test]
fn only_20_explains() {
    headers(
        20,
        &[
            "des (0,0,1)|des (0,2,1)|des (0,10,1)|des (0,257,1)|des (0,65537,1)|des (0,99999,1)",
            "des (1,1,1)|des (2,1,1)|des (256,1,1)|des (65536,1,1)|des (99999,1,1)|des (0,1,0)",
            "des (1,1,0)|des (64,1,64)|des (300,1,65)|des (99999,1,99999)|des (65536,1,65)",
            "des (5,7,3)",
        ],
    );
    alone(
        20,
        [
            "des (0,0,0)\n",
            "des (1,0,1)\n",
            "des (0,1,1)\n",
            "des (64,0,64)\n",
            "des (65,0,65)\n",
            "des (0,65536,1)\n",
            "des (0,256,1)\n",
            "des (256,0,1)\n",
            "des (65536,0,64)\n",
        ],
    );
}

/// A label that is not spelled as one.
#[test]
fn only_21_explains() {
    lines(
        21,
        &[
            r#"(0,"",0)|(0,"I",0)|(0,"tau",0)|(0,"a",0)|(0,"a1",0)|(0,"a!",0)|(0,"a?",0)"#,
            r#"(0,"1!",0)|(0,"1",0)|(0,"!",0)|(0,"a0!",0)|(0,"a0?",0)|(0,"a16!",0)"#,
            r#"(0,"a16?",0)|(0,"a01!",0)|(0,"a01?",0)|(0,"a00!",0)|(0,"a001!",0)|(0,"A1!",0)"#,
            r#"(0,"b1!",0)|(0,"a1!!",0)|(0,"a1!?",0)|(0,"a1! ",0)|(0," a1!",0)|(0,"a 1!",0)"#,
            r#"(0,"i ",0)|(0," i",0)|(0," ",0)|(0,"ii",0)|(0,",",0)|(0,"(0,i,0)",0)|(0,")",0)"#,
            r#"(0,"é",0)|(0,"'i'",0)|(0,"a15",0)|(0,"a150!",0)|(0,"a151!",0)|(0,"a257!",0)"#,
            r#"(0,"a65537!",0)|(0,"a100001!",0)|(0,"a4294967297!",0)|(0,"a1.",0)|(0,"a+1!",0)"#,
            r#"(0,"a-1!",0)|(0,"0",0)|(0,"des (0,3,2)",0)|(0,",0)(0,",0)|(0,"\",0)|(0,"i\n",0)"#,
            r#"(0,"a1!,a1?",0)|(0,"!1a",0)|(0,"aa1!",0)"#,
            "(0,\"a1!\r\",0)|(0,\"\r\",0)|(0,\"\0\",0)|(0,\"i\0\",0)",
        ],
    );
}

/// More than 64 states, or a state of a row that is out of range.
#[test]
fn only_5_explains() {
    lines(
        5,
        &[
            r#"(2,"i",0)|(0,"i",2)|(2,"i",2)|(64,"i",0)|(0,"i",64)|(255,"i",0)|(256,"i",0)"#,
            r#"(0,"i",256)|(65536,"i",0)|(0,"i",65536)|(99999,"i",0)|(0,"i",99999)"#,
            r#"(65537,"a1?",65537)"#,
        ],
    );
    alone(
        5,
        [
            "des (0,0,65)\n",
            "des (64,0,65)\n",
            "des (0,0,128)\n",
            "des (0,0,255)\n",
            "des (0,0,256)\n",
            "des (0,0,257)\n",
            "des (0,0,65535)\n",
            "des (0,0,65536)\n",
            "des (0,0,65537)\n",
            "des (0,0,99999)\n",
            "des (99998,0,99999)\n",
            "des (0,1,65)\n(64,\"i\",64)\n",
        ],
    );
}

/// A row given twice, wherever the two stand.
#[test]
fn only_6_explains() {
    alone(
        6,
        [
            "des (0,2,1)\n(0,\"i\",0)\n(0,\"i\",0)\n",
            "des (0,3,2)\n(0,\"i\",1)\n(1,\"i\",0)\n(0,\"i\",1)\n",
            "des (0,3,2)\n(0,\"i\",1)\n(0,\"i\",1)\n(0,\"i\",1)\n",
            "des (0,4,2)\n(1,\"a3!\",1)\n(0,\"i\",1)\n(1,\"a3?\",1)\n(1,\"a3!\",1)\n",
        ],
    );
    alone(
        0,
        [
            "des (0,2,2)\n(0,\"i\",1)\n(1,\"i\",0)\n",
            "des (0,2,2)\n(1,\"a1?\",0)\n(1,\"a1!\",0)\n",
            "des (0,2,2)\n(1,\"i\",1)\n(1,\"i\",0)\n",
        ],
    );
}

/// Eight rows from one state are read, a ninth is refused, and so is a tenth.
#[test]
fn only_7_explains() {
    let mut tally = Tally::new("Aldebaran texts with some rows from one state");
    for count in 1..=31 {
        let rows = SPELLINGS[..count].iter().map(|label| line(1, label, 0));
        let text = Draft::with(0, 2, rows.collect()).to_bytes();
        let number = number_both(&text);
        assert_eq!(number, if count > 8 { 7 } else { 0 }, "{count} rows");
        tally.note(number);
    }
    tally.saw_exactly(&[0, 7]);
}

/// Each output for case A, from an empty one to one far longer, both ways.
#[test]
fn every_room_for_case_a() {
    let mut tally = Tally::new("case A's left read and written into every room");
    let table = [2, 0, 1, 1, 0, 3, 1];
    for room in 0..=80 {
        let read = number_of(&read_both(CASE_A.as_bytes(), room));
        assert_eq!(read, if room < 7 { 18 } else { 0 }, "room {room}");
        let written = number_of(&write_both(&table, 0, room));
        assert_eq!(
            written,
            if room < CASE_A.len() { 18 } else { 0 },
            "room {room}"
        );
        tally.note(read);
        tally.note(written);
    }
    tally.saw_exactly(&[0, 18]);
}
