//! Large Aldebaran texts: doubles far apart and ninth rows among few and many thousand lines, counts around 65,536, and
//! up to 99,999 lines and more.

use crate::aldebaran_both::{number_both, read_both, LONGEST_TABLE};
use crate::aldebaran_texts::{fresh_rows, line, line_of, machine, many_rows, shuffle, Draft};
use crate::both::{number_of, Tally};
use reference::random::Random;
use reference::table::{Row, Table};

/// The most lines that a header can name.
const MOST_LINES: usize = 99_999;

/// The text of different rows on 64 states.
fn many(count: usize, random: &mut Random) -> Draft {
    let rows = many_rows(count, random);
    Draft::with(63, 64, rows.iter().map(line_of).collect())
}

/// Places at the front, in the middle and at the end of so many lines.
fn places(lines: usize) -> [usize; 3] {
    [0, lines / 2, lines - 1]
}

/// A full table of 512 rows with one line put over another: a double, near and far.
#[test]
fn doubles_in_a_full_table() {
    let mut tally = Tally::new("doubles among 512 rows");
    let mut random = Random::new(341);
    for seed in (7..487).step_by(8) {
        let (table, first) = machine(seed);
        let draft = Draft::of(&table, first).shuffled(&mut random);
        tally.note(number_both(&draft.to_bytes()));
        for distance in [1, 2, 7, 64, 100, 255, 256, 257, 400, 510, 511] {
            let mut doubled = draft.clone();
            let at = random.from_to(0, 511 - distance);
            doubled.lines[at + distance] = doubled.lines[at].clone();
            let outcome = number_both(&doubled.to_bytes());
            assert_eq!(outcome, 6, "seed {seed}, {distance} lines apart");
            tally.note(outcome);
        }
    }
    tally.saw_exactly(&[0, 6]);
}

/// A full table and a ninth row, at any place among the others; or one line over another's place, so that 512 rows
/// stay.
#[test]
fn ninths_in_a_full_table() {
    let mut tally = Tally::new("ninth rows among 512");
    let mut random = Random::new(342);
    for seed in (7..807).step_by(8) {
        let (table, first) = machine(seed);
        let mut draft = Draft::of(&table, first).shuffled(&mut random);
        let from = random.byte(0, 63);
        let ninth = line_of(&fresh_rows(&mut random, &table, from, 1)[0]);
        let mut replaced = draft.clone();
        let begins = format!("({from},");
        let others = |line: &Vec<u8>| !line.starts_with(begins.as_bytes());
        let other = replaced.lines.iter().position(others).unwrap();
        replaced.lines[other] = ninth.clone();
        draft.lines.insert(random.from_to(0, 512), ninth);
        draft.count = "513".to_string();
        for text in [draft, replaced] {
            let outcome = number_both(&text.to_bytes());
            assert_eq!(outcome, 7, "seed {seed}");
            tally.note(outcome);
        }
    }
    tally.saw_exactly(&[7]);
}

/// Thousands of different rows: 7. Any one of them again, far away or beside it: 6.
#[test]
fn doubles_among_thousands() {
    let mut tally = Tally::new("doubles among thousands of rows");
    let mut random = Random::new(343);
    for count in [513, 1_000, 1_984, 2_048, 3_000, 5_000, 8_000, 12_000] {
        let draft = many(count, &mut random);
        tally.note(number_both(&draft.to_bytes()));
        for from in places(count) {
            for to in places(count) {
                let mut doubled = draft.clone();
                doubled.lines.insert(to, draft.lines[from].clone());
                doubled.count = (count + 1).to_string();
                let outcome = number_both(&doubled.to_bytes());
                assert_eq!(outcome, 6, "{count} rows, {from} again at {to}");
                tally.note(outcome);
            }
        }
    }
    tally.saw_exactly(&[6, 7]);
}

/// All rows that leave one state, 9 to 1,984 of them, among full other states.
#[test]
fn many_rows_from_one_state() {
    let mut tally = Tally::new("many rows from one state");
    let mut random = Random::new(344);
    for count in [
        1, 7, 8, 9, 10, 16, 255, 256, 257, 260, 263, 264, 265, 512, 1_024, 1_984,
    ] {
        let (full, first) = machine(7);
        let state = random.byte(0, 63);
        let rows = full.rows.into_iter().filter(|row| row.from != state);
        let mut rows: Vec<Row> = rows.collect();
        rows.extend(fresh_rows(
            &mut random,
            &Table::new(64, Vec::new()),
            state,
            count,
        ));
        shuffle(&mut rows, &mut random);
        let draft = Draft::with(first, 64, rows.iter().map(line_of).collect());
        let outcome = number_both(&draft.to_bytes());
        assert_eq!(outcome, if count > 8 { 7 } else { 0 }, "{count} rows");
        tally.note(outcome);
    }
    tally.saw_exactly(&[0, 7]);
}

/// One row and nothing else, over and over.
#[test]
fn one_row_many_times() {
    let mut tally = Tally::new("one row many times");
    for count in [
        2, 9, 255, 256, 257, 512, 513, 65_535, 65_536, 65_537, 65_792, MOST_LINES,
    ] {
        let draft = Draft::with(0, 1, vec![line(0, "i", 0); count]);
        let outcome = number_both(&draft.to_bytes());
        assert_eq!(outcome, 6, "{count} times");
        tally.note(outcome);
    }
    tally.saw_exactly(&[6]);
}

/// Numbers of lines around 256 and 65,536, with the right count and with counts that are right once cut.
#[test]
fn counts_around_every_cut() {
    let mut tally = Tally::new("counts of lines around every cut");
    let mut random = Random::new(345);
    let all = many(MOST_LINES, &mut random);
    for lines in [256, 257, 300, 65_535, 65_536, 65_537, 65_792, MOST_LINES] {
        let mut draft = all.clone();
        draft.lines.truncate(lines);
        let others = [
            lines % 256,
            lines % 65_536,
            lines % 32_768,
            lines - 1,
            lines + 1,
            lines + 65_536,
        ];
        for count in others.into_iter().filter(|count| *count != lines) {
            draft.count = count.to_string();
            let outcome = number_both(&draft.to_bytes());
            assert_eq!(
                outcome,
                if count > MOST_LINES { 19 } else { 20 },
                "{count} for {lines}"
            );
            tally.note(outcome);
        }
    }
    tally.saw_exactly(&[19, 20]);
}

/// 99,999 different rows: 7, or the number of the one thing that is wrong in the first line, the middle or the last.
#[test]
fn the_most_lines() {
    let mut tally = Tally::new("Aldebaran texts of 99,999 lines");
    let mut random = Random::new(346);
    let mut draft = many(MOST_LINES, &mut random);
    tally.note(number_both(&draft.to_bytes()));
    for at in places(MOST_LINES) {
        let far = draft.lines[if at == 0 { MOST_LINES - 1 } else { 0 }].clone();
        let wrong = [
            (19, b"(0,\"i\",00)".to_vec()),
            (19, b"(0,\"i\",0)\r".to_vec()),
            (21, line(0, "a16!", 0)),
            (21, line(0, "", 0)),
            (5, line(64, "i", 0)),
            (5, line(0, "i", 65_536)),
            (6, far),
        ];
        for (number, line) in wrong {
            let kept = std::mem::replace(&mut draft.lines[at], line);
            let outcome = number_both(&draft.to_bytes());
            assert_eq!(outcome, number, "line {at}");
            tally.note(outcome);
            draft.lines[at] = kept;
        }
    }
    for (number, first, states) in [
        (20, 64, 64),
        (20, 65_536, 64),
        (5, 0, 63),
        (5, 64, 65),
        (5, 63, 65_600),
    ] {
        draft.first = first.to_string();
        draft.states = states.to_string();
        let outcome = number_both(&draft.to_bytes());
        assert_eq!(outcome, number, "{first} of {states}");
        tally.note(outcome);
    }
    tally.saw_exactly(&[5, 6, 7, 19, 20, 21]);
}

/// More lines than a header can count: 20, or 19 where it names them.
#[test]
fn more_lines_than_a_count() {
    let mut tally = Tally::new("Aldebaran texts of over 99,999 lines");
    for (lines, counts) in [
        (100_000, ["99999", "100000", "34464", "10000"]),
        (131_072, ["0", "131072", "99999", "1"]),
    ] {
        let mut draft = Draft::with(0, 1, vec![line(0, "i", 0); lines]);
        for count in counts {
            draft.count = count.to_string();
            let outcome = number_both(&draft.to_bytes());
            assert_eq!(
                outcome,
                if count.len() == 6 { 19 } else { 20 },
                "{count} for {lines}"
            );
            tally.note(outcome);
        }
    }
    tally.saw_exactly(&[19, 20]);
}

/// Few lines that are very long, and text without any line feed.
#[test]
fn long_lines() {
    let mut tally = Tally::new("long lines of Aldebaran texts");
    for (number, label) in [
        (21, vec![b'i'; 3 << 20]),
        (21, vec![0xff; 70_000]),
        (19, vec![b'"'; 70_000]),
    ] {
        let text = Draft::with(0, 1, vec![line(0, label, 0), line(0, "i", 0)]).to_bytes();
        let outcome = number_of(&read_both(&text, LONGEST_TABLE));
        assert_eq!(outcome, number);
        tally.note(outcome);
    }
    for byte in [b'0', b'(', b'"', b' ', b'\n', b'd', 0, 255] {
        tally.note(number_both(&vec![byte; 300_000]));
        let text = [b"des (0,1,1)\n", &vec![byte; 300_000][..]].concat();
        tally.note(number_both(&text));
    }
    tally.saw_exactly(&[19, 21]);
}
