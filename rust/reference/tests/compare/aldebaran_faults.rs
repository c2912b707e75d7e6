//! Ways to damage an Aldebaran text so that it gets a certain number. Each one adds lines of its own or changes the
//! header, and spares what other faults did, so that several faults stand in one text.

use crate::aldebaran_texts::{fresh_rows, line, line_of, machine_with_rows, Draft, SPELLINGS};
use reference::random::Random;
use reference::table::{Row, Table};

/// The order in which the whole text is searched for the numbers.
pub const SEARCHED: [u8; 6] = [19, 20, 21, 5, 6, 7];

/// Where among the lines a fault puts its own.
#[derive(Clone, Copy, PartialEq, Eq, Debug)]
pub enum Place {
    Early,
    Late,
    Anywhere,
}

/// A text that is being damaged, and the sound machine that it was made of.
pub struct Damaged {
    pub draft: Draft,
    table: Table,
    /// What stands behind the header in its line, and how the text ends.
    behind: &'static str,
    end: &'static str,
    no_header: bool,
}

impl Damaged {
    /// A sound text of few states in any order of rows.
    pub fn new(random: &mut Random) -> Damaged {
        let states = random.byte(2, 12);
        let (table, first) = machine_with_rows(random, states);
        Damaged {
            draft: Draft::of(&table, first).shuffled(random),
            table,
            behind: "",
            end: "\n",
            no_header: false,
        }
    }

    /// The text as it stands.
    pub fn to_bytes(&self) -> Vec<u8> {
        let header = [&self.draft.header()[..], self.behind.as_bytes()].concat();
        let header = (!self.no_header).then_some(header);
        let lines: Vec<Vec<u8>> = header.into_iter().chain(self.draft.lines.clone()).collect();
        [&lines.join(&b'\n')[..], self.end.as_bytes()].concat()
    }

    /// Adds a line and counts it.
    fn add(&mut self, line: Vec<u8>, place: Place, random: &mut Random) {
        let lines = &mut self.draft.lines;
        let at = match place {
            Place::Early => 0,
            Place::Late => lines.len(),
            Place::Anywhere => random.from_to(0, lines.len()),
        };
        lines.insert(at, line);
        let count: usize = self.draft.count.parse().expect("counted before 19 and 20");
        self.draft.count = (count + 1).to_string();
    }

    /// A state of the machine.
    fn state(&self, random: &mut Random) -> u8 {
        random.byte(0, self.table.states - 1)
    }

    /// The states that the header names by now.
    fn named_states(&self) -> usize {
        self.draft.states.parse().expect("named before 19")
    }
}

/// A way to get a number.
type Way = fn(&mut Damaged, Place, &mut Random);

/// Every way with its number, those of one number beside each other.
pub const WAYS: [(u8, Way); 17] = [
    (19, malformed_line),
    (19, malformed_number),
    (19, header_number),
    (19, header_line),
    (19, no_line_feed),
    (19, lost_header),
    (20, count_off),
    (20, count_cut),
    (20, first_beyond),
    (21, odd_label),
    (21, nearly_a_label),
    (5, states_over),
    (5, row_out_of_range),
    (6, row_again),
    (6, fresh_row_twice),
    (7, ninth_row),
    (7, many_from_one),
];

/// The ways to get one number.
pub fn ways(number: u8) -> Vec<Way> {
    let of_number = WAYS.iter().filter(|way| way.0 == number);
    of_number.map(|way| way.1).collect()
}

/// A line that is not of the form.
fn malformed_line(text: &mut Damaged, place: Place, random: &mut Random) {
    const LINES: [&str; 16] = [
        "",
        "\r",
        " (0,\"i\",0)",
        "(0,\"i\",0) ",
        "(0, \"i\",0)",
        "(0,\"i\", 0)",
        "(0,\"i\",0)\r",
        "(0,i,0)",
        "(0,\"i\"\",0)",
        "(0,\"a\"1!\",0)",
        "(0,\"i\",0",
        "0,\"i\",0)",
        "(0,\"i\")",
        "des (0,0,1)",
        "(0,\"i\",0)(0,\"i\",0)",
        "(0,\"i\",0)\0",
    ];
    let line = random.pick(&LINES).as_bytes().to_vec();
    text.add(line, place, random);
}

/// A row with a number that is none.
fn malformed_number(text: &mut Damaged, place: Place, random: &mut Random) {
    const NUMBERS: [&str; 10] = [
        "", "00", "01", "-1", "+1", "1 ", "100000", "000001", "1x", "65536000",
    ];
    let number = *random.pick(&NUMBERS);
    let line = match random.below(2) {
        0 => line(number, "i", 0),
        _ => line(0, "i", number),
    };
    text.add(line, place, random);
}

/// A header with a number that is none.
fn header_number(text: &mut Damaged, _: Place, random: &mut Random) {
    let Draft {
        first,
        count,
        states,
        ..
    } = &mut text.draft;
    let number = match random.below(3) {
        0 => first,
        1 => count,
        _ => states,
    };
    *number = match random.below(5) {
        0 => format!("0{number}"),
        1 => format!(" {number}"),
        2 => format!("{number} "),
        3 => format!("1{:0>5}", number),
        _ => String::new(),
    };
}

/// Something behind the header.
fn header_line(text: &mut Damaged, _: Place, random: &mut Random) {
    text.behind = *random.pick(&["\r", " ", ")", "\n", ",", "\0"]);
}

/// The last line without line feed, or more behind it.
fn no_line_feed(text: &mut Damaged, _: Place, random: &mut Random) {
    const ENDS: [&str; 7] = ["", "\r", "\n\n", "\n\r\n", "\n(", "\n\0", "\n "];
    text.end = *random.pick(&ENDS);
}

/// No header.
fn lost_header(text: &mut Damaged, _: Place, _: &mut Random) {
    text.no_header = true;
}

/// A count that differs a little.
fn count_off(text: &mut Damaged, _: Place, random: &mut Random) {
    let lines = text.draft.lines.len();
    let others = [0, 1, lines - 1, lines + 1, lines + 2, 2 * lines + 3, 99_999];
    let mut count = *random.pick(&others);
    if count == lines {
        count += 1;
    }
    text.draft.count = count.to_string();
}

/// A count that is right if it is cut to a byte or to two.
fn count_cut(text: &mut Damaged, _: Place, random: &mut Random) {
    let lines = text.draft.lines.len();
    text.draft.count = (lines + random.pick(&[256, 512, 65_536])).to_string();
}

/// A first state not below the states.
fn first_beyond(text: &mut Damaged, _: Place, random: &mut Random) {
    let states = text.named_states();
    let beyond = [
        states,
        states + 1,
        states + 256,
        256,
        65_536,
        65_537,
        99_999,
    ];
    let beyond: Vec<usize> = beyond
        .into_iter()
        .filter(|first| (states..100_000).contains(first))
        .collect();
    text.draft.first = random.pick(&beyond).to_string();
}

/// A row with a label of any bytes.
fn odd_label(text: &mut Damaged, place: Place, random: &mut Random) {
    const LABELS: [&[u8]; 14] = [
        b"",
        b" ",
        b",",
        b"(",
        b")",
        b"\r",
        b"\0",
        b"\xff",
        b"\x80i",
        b"(0,i,0)",
        b"tau",
        b"'",
        b"i\0",
        b"des (0,0,1)",
    ];
    let (from, to) = (text.state(random), text.state(random));
    let mut label = random.pick(&LABELS).to_vec();
    if random.once_in(3) {
        let count = random.from_to(1, 40);
        label = random.bytes(count);
        label.retain(|byte| ![b'"', b'\n'].contains(byte));
        label.push(b'x');
    }
    text.add(line(from, label, to), place, random);
}

/// A row with a label that is nearly one.
fn nearly_a_label(text: &mut Damaged, place: Place, random: &mut Random) {
    const LABELS: [&str; 12] = [
        "a0!", "a0?", "a16!", "a16?", "a01!", "a1", "A1!", "I", "a!", "a1!!", "a257!", "a65537?",
    ];
    let (from, to) = (text.state(random), text.state(random));
    text.add(line(from, random.pick(&LABELS), to), place, random);
}

/// More states than a table has; cut to a byte or to two they would do.
fn states_over(text: &mut Damaged, _: Place, random: &mut Random) {
    let states = text.table.states as usize;
    let over = [
        65,
        66,
        128,
        255,
        256,
        256 + states,
        65_535,
        65_536,
        65_536 + states,
        99_999,
    ];
    text.draft.states = random.pick(&over).to_string();
}

/// A row from or to a state that is out of range; cut to a byte or to two it would do.
fn row_out_of_range(text: &mut Damaged, place: Place, random: &mut Random) {
    let states = text.table.states as usize;
    let over = [
        states,
        states + 1,
        64,
        255,
        256,
        257,
        65_535,
        65_536,
        65_537,
        99_999,
    ];
    let (within, over) = (text.state(random), *random.pick(&over));
    let label = *random.pick(&SPELLINGS);
    let line = match random.below(3) {
        0 => line(over, label, within),
        1 => line(within, label, over),
        _ => line(over, label, over),
    };
    text.add(line, place, random);
}

/// A row of the machine once more.
fn row_again(text: &mut Damaged, place: Place, random: &mut Random) {
    let row = line_of(random.pick(&text.table.rows));
    text.add(row, place, random);
}

/// A new row twice, once in any place.
fn fresh_row_twice(text: &mut Damaged, place: Place, random: &mut Random) {
    let from = text.state(random);
    let row = line_of(&fresh_rows(random, &text.table, from, 1)[0]);
    text.add(row.clone(), place, random);
    text.add(row, Place::Anywhere, random);
}

/// As many new rows from one state as make nine.
fn ninth_row(text: &mut Damaged, place: Place, random: &mut Random) {
    let from = text.state(random);
    let missing = 9 - text.table.rows_from(from).len();
    let rows = fresh_rows(random, &text.table, from, missing);
    add_rows(text, rows, place, random);
}

/// Many new rows from one state.
fn many_from_one(text: &mut Damaged, place: Place, random: &mut Random) {
    let (from, count) = (text.state(random), random.from_to(9, 40));
    let rows = fresh_rows(random, &text.table, from, count);
    add_rows(text, rows, place, random);
}

/// Adds rows.
fn add_rows(text: &mut Damaged, rows: Vec<Row>, place: Place, random: &mut Random) {
    for row in rows {
        text.add(line_of(&row), place, random);
    }
}
