//! Writing Aldebaran texts: tables of all sizes, each refusal alone, every pair of faults, outputs of all sizes.

use crate::aldebaran_both::{rooms, write_both};
use crate::aldebaran_texts::{fresh_rows, machine, machine_with_rows, Draft};
use crate::both::{number_of, Tally};
use reference::random::Random;
use reference::table::{Row, Table};

/// An output that is never too short: the longest text has 512 lines of at most 15 bytes and a header.
const ENOUGH: usize = 7_700;

/// Tables of all sizes with every kind of output: 18 exactly when it is too short, the sorted text otherwise.
#[test]
fn sound_tables_are_written() {
    let mut tally = Tally::new("sound tables written as Aldebaran texts");
    for seed in 10_000..11_200 {
        let (table, first) = machine(seed);
        let text = Draft::of(&table, first).to_bytes();
        assert!(text.len() <= ENOUGH);
        for room in rooms(text.len()) {
            let outcome = write_both(&table.to_bytes(), first.into(), room);
            tally.note(number_of(&outcome));
            let expected = match room < text.len() {
                true => Err(18),
                false => Ok(text.clone()),
            };
            assert_eq!(outcome, expected, "seed {seed}, room {room}");
        }
    }
    assert_eq!(tally.of(0), tally.of(18));
    tally.saw_exactly(&[0, 18]);
}

/// Every room for a table of some rows, so that every place of its text is once the end of the output.
#[test]
fn every_room() {
    let mut tally = Tally::new("a table written into every room");
    let (table, first) = machine_with_rows(&mut Random::new(351), 12);
    let exact = Draft::of(&table, first).to_bytes().len();
    for room in (0..=exact + 40).chain([65_535, 65_536, 1 << 20]) {
        let number = number_of(&write_both(&table.to_bytes(), first.into(), room));
        assert_eq!(number, if room < exact { 18 } else { 0 }, "room {room}");
        tally.note(number);
    }
    tally.saw_exactly(&[0, 18]);
}

/// The longest text there is: 512 rows, each with two digits wherever there can be two.
#[test]
fn the_longest_text() {
    let row = |from, label| Row {
        from,
        label,
        to: 63,
    };
    let rows = (0..64).flat_map(|from| (19..27).map(move |label| row(from, label)));
    let rows = rows.collect();
    let table = Table::new(64, rows);
    assert_eq!(table.rows.len(), 512);
    let text = write_both(&table.to_bytes(), 63, ENOUGH).unwrap();
    // States 0 to 9 have one digit.
    assert_eq!(text.len(), "des (63,512,64)\n".len() + 512 * 15 - 80);
    assert_eq!(
        number_of(&write_both(&table.to_bytes(), 63, text.len() - 1)),
        18
    );
}

/// Every first state, up to far beyond the states and beyond every integer that is cut.
#[test]
fn every_first_state() {
    let mut tally = Tally::new("first states in writing");
    let far = [
        1 << 16,
        (1 << 16) + 1,
        1 << 31,
        1 << 32,
        (1 << 32) + 1,
        1 << 63,
        usize::MAX - 255,
        usize::MAX,
    ];
    for states in [1, 2, 9, 10, 11, 63, 64] {
        for first in (0..=600).chain(far) {
            let number = number_of(&write_both(&[states], first, 40));
            assert_eq!(
                number,
                if first < states as usize { 0 } else { 20 },
                "{first} of {states}"
            );
            tally.note(number);
        }
    }
    tally.saw_exactly(&[0, 20]);
}

/// Tables of every length up to 1,700 bytes, and some far longer.
#[test]
fn tables_of_every_length() {
    let mut tally = Tally::new("tables of every length in writing");
    let rows = (0..64u8).flat_map(|from| (0..8).flat_map(move |to| [from, 0, to]));
    let full: Vec<u8> = [64].into_iter().chain(rows).collect();
    for length in (0..=1_700).chain([4_096, 65_536, 65_537, 65_539, 131_074, 1 << 20]) {
        let mut table = full.clone();
        table.resize(length, 0);
        let number = number_of(&write_both(&table, 0, ENOUGH));
        let fits = length % 3 == 1 && length <= 1_537;
        assert_eq!(number, if fits { 0 } else { 3 }, "{length} bytes");
        tally.note(number);
    }
    assert_eq!(tally.of(0), 513);
    tally.saw_exactly(&[0, 3]);
}

/// Every value of every byte of small tables, with a first state that is sound as long as there are two states.
#[test]
fn every_change_of_one_byte() {
    let mut tally = Tally::new("every one-byte change of tables in writing");
    let mut random = Random::new(352);
    let full: Vec<u8> = (0..8).flat_map(|to| [0, 0, to]).collect();
    let full = [&[8][..], &full].concat();
    // A row from state 1 may become the ninth from state 0; a machine of one state has no state 1 to begin in.
    let ninth = [&full[..], &[1, 9, 0, 1, 9, 7]].concat();
    let case_a = vec![2, 0, 1, 1, 0, 3, 1];
    let mut tables = vec![case_a, full, ninth, vec![2, 0, 0, 0, 0, 7, 0]];
    tables.extend((0..6).map(|_| machine_with_rows(&mut random, 3).0.to_bytes()));
    for mut table in tables {
        for at in 0..table.len() {
            let kept = table[at];
            for value in 0..=255 {
                table[at] = value;
                tally.note(number_of(&write_both(&table, 1, 500)));
            }
            table[at] = kept;
        }
    }
    tally.saw_exactly(&[0, 5, 6, 7, 20]);
}

/// Ways to damage a table so that it gets a number of its own, and the first state so that it gets 20.
const NUMBERS: [u8; 5] = [3, 5, 6, 7, 20];

/// A table with one fault, and a first state of it or, for 20, none of it.
fn faulty(number: u8, random: &mut Random) -> (Vec<u8>, usize) {
    let states = random.byte(2, 40);
    let (table, first) = machine_with_rows(random, states);
    let mut bytes = table.to_bytes();
    let mut first = first as usize;
    let at = 1 + 3 * random.below(table.rows.len());
    match number {
        3 => match random.below(3) {
            0 => bytes.truncate(at + random.from_to(1, 2)),
            1 => bytes.clear(),
            _ => bytes = [&[64], &[0, 0, 0].repeat(random.from_to(513, 700))[..]].concat(),
        },
        5 => match random.below(4) {
            0 => bytes[0] = *random.pick(&[0, 65, 66, 128, 255]),
            1 => bytes[at] = random.byte(states, 255),
            2 => bytes[at + 1] = random.byte(31, 255),
            _ => bytes[at + 2] = random.byte(states, 255),
        },
        6 => {
            let (row, place) = (bytes[at..at + 3].to_vec(), at + 3 * random.below(2));
            bytes.splice(place..place, row);
        }
        7 => {
            let from = random.byte(0, states - 1);
            let missing = 9 - table.rows_from(from).len() + random.below(2);
            let mut rows = fresh_rows(random, &table, from, missing);
            rows.extend(&table.rows);
            rows.sort();
            bytes = Table::new(states, rows).to_bytes();
        }
        _ => {
            let beyond = [
                0,
                1,
                256 - states as usize,
                256,
                65_536,
                1 << 32,
                usize::MAX - 64,
            ];
            first = states as usize + random.pick(&beyond);
        }
    }
    (bytes, first)
}

/// Each number alone and, with a first state beyond the states, before 20; 18 after all of them, and nothing written.
#[test]
fn each_fault_alone_and_before_20_and_18() {
    let mut tally = Tally::new("faulty tables in writing");
    let mut random = Random::new(353);
    for number in NUMBERS {
        for _ in 0..900 {
            let (table, first) = faulty(number, &mut random);
            let beyond = *random.pick(&[64, 65, 255, 256, 65_536, usize::MAX]);
            for (first, room) in [
                (first, ENOUGH),
                (first, random.below(30)),
                (beyond, ENOUGH),
                (beyond, 0),
            ] {
                let outcome = number_of(&write_both(&table, first, room));
                assert_eq!(outcome, number, "first {first}, room {room}");
                tally.note(outcome);
            }
        }
    }
    tally.saw_exactly(&NUMBERS);
}

/// Two faulty rows at once: the earlier row gives the number, and in one row 5 comes before 6 and 6 before 7.
#[test]
fn two_faulty_rows() {
    let mut tally = Tally::new("two faulty rows in writing");
    let full: Vec<u8> = (0..8).flat_map(|to| [0, 0, to]).collect();
    let head = [&[9][..], &full].concat();
    // Behind eight rows from state 0: rows that are out of range, not above the last one, a ninth.
    let faults: [(u8, [u8; 3]); 6] = [
        (5, [9, 0, 0]),
        (5, [0, 31, 0]),
        (5, [0, 0, 9]),
        (6, [0, 0, 7]),
        (6, [0, 0, 0]),
        (7, [0, 0, 8]),
    ];
    for (number, row) in faults {
        for (_, other) in faults {
            for between in [vec![], vec![1, 1, 1], vec![1, 1, 1, 2, 0, 0]] {
                let table = [&head[..], &row, &between, &other].concat();
                let outcome = number_of(&write_both(&table, 0, 300));
                assert_eq!(outcome, number, "{row:?} before {other:?}");
                tally.note(outcome);
            }
        }
    }
    tally.saw_exactly(&[5, 6, 7]);
}

/// Random bytes as tables, and sound tables with several random bytes.
#[test]
fn random_tables() {
    let mut tally = Tally::new("random tables in writing");
    let mut random = Random::new(354);
    for seed in 0..30_000 {
        let (count, most) = (random.from_to(0, 20), *random.pick(&[2, 9, 64, 255]));
        let bytes: Vec<u8> = (0..count).map(|_| random.byte(0, most)).collect();
        let (first, room) = (random.below(4), random.from_to(0, 120));
        tally.note(number_of(&write_both(&bytes, first, room)));
        let (table, first) = machine(4 * (seed % 400) + seed % 3);
        let mut bytes = table.to_bytes();
        for _ in 0..random.from_to(0, 2) {
            let at = random.below(bytes.len());
            bytes[at] = random.byte(0, 70);
        }
        let room = *random.pick(&[10, 100, ENOUGH]);
        tally.note(number_of(&write_both(&bytes, first.into(), room)));
    }
    tally.saw_exactly(&[0, 3, 5, 6, 18, 20]);
}
