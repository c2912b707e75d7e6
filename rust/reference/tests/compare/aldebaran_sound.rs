//! Sound Aldebaran texts of all sizes, their rows in any order, into outputs of all sizes, and round trips.

use crate::aldebaran_both::{read_both, rooms, write_both, LONGEST_TABLE};
use crate::aldebaran_texts::{machine, machine_with_rows, Draft};
use crate::both::{number_of, Tally};
use reference::aldebaran::Machine;
use reference::random::Random;
use reference::table::{read_table, Table};
use yenuslap::bare;

/// A machine as it is read.
fn read_machine(table: &Table, first: u8) -> Result<Machine, u8> {
    let table = table.to_bytes();
    Ok(Machine { table, first })
}

/// Rows in any order give the machine, and 18 exactly when the output is too short for its table.
#[test]
fn rows_in_any_order() {
    let mut tally = Tally::new("sound Aldebaran texts read");
    let mut random = Random::new(331);
    for seed in 0..1_600 {
        let (table, first) = machine(seed);
        let text = Draft::of(&table, first).shuffled(&mut random).to_bytes();
        let exact = table.to_bytes().len();
        for room in rooms(exact) {
            let outcome = read_both(&text, room);
            let expected = match room < exact {
                true => Err(18),
                false => read_machine(&table, first),
            };
            assert_eq!(outcome, expected, "seed {seed}, room {room}");
            tally.note(number_of(&outcome));
        }
    }
    assert_eq!(tally.of(0), tally.of(18));
    tally.saw_exactly(&[0, 18]);
}

/// Every order of five rows, and the rising and the falling one of large tables.
#[test]
fn every_order() {
    let mut tally = Tally::new("Aldebaran texts in every order of rows");
    let table = read_table(&[2, 0, 0, 1, 0, 29, 0, 0, 29, 1, 1, 0, 0, 1, 2, 1], 15).unwrap();
    let sorted = Draft::of(&table, 1);
    let mut orders = vec![Vec::new()];
    for at in 0..sorted.lines.len() {
        let longer = |order: &Vec<usize>| {
            let order = order.clone();
            (0..=order.len()).map(move |place| [&order[..place], &[at], &order[place..]].concat())
        };
        orders = orders.iter().flat_map(longer).collect();
    }
    assert_eq!(orders.len(), 120);
    for order in orders {
        let lines = order.iter().map(|at| sorted.lines[*at].clone()).collect();
        let text = Draft::with(1, 2, lines).to_bytes();
        let outcome = read_both(&text, 16);
        assert_eq!(outcome, read_machine(&table, 1), "{order:?}");
        tally.note(number_of(&outcome));
    }
    for seed in (7..807).step_by(8) {
        let (table, first) = machine(seed);
        let mut draft = Draft::of(&table, first);
        for _ in 0..2 {
            let outcome = read_both(&draft.to_bytes(), LONGEST_TABLE);
            assert_eq!(outcome, read_machine(&table, first));
            tally.note(number_of(&outcome));
            draft.lines.reverse();
        }
    }
    tally.saw_exactly(&[0]);
}

/// Every room for a text of some rows.
#[test]
fn every_room() {
    let mut tally = Tally::new("an Aldebaran text read into every room");
    let (table, first) = machine_with_rows(&mut Random::new(332), 9);
    let text = Draft::of(&table, first).to_bytes();
    let exact = table.to_bytes().len();
    for room in (0..=exact + 40).chain([1_536, 1_537, 1_538, 4_096, 65_536, 1 << 20]) {
        let number = number_of(&read_both(&text, room));
        assert_eq!(number, if room < exact { 18 } else { 0 }, "room {room}");
        tally.note(number);
    }
    tally.saw_exactly(&[0, 18]);
}

/// The engine's own answers: what it writes it reads again as the same table and first state.
#[test]
fn what_is_written_is_read() {
    let mut count = 0;
    for seed in 4_000..5_200 {
        let (table, first) = machine(seed);
        let bytes = table.to_bytes();
        let (mut text, mut again) = (vec![0xa5; 20_000], vec![0x5a; LONGEST_TABLE]);
        let length = bare::aldebaran_write(&bytes, first.into(), &mut text) as usize;
        let answer = bare::aldebaran_read(&text[..length], &mut again);
        assert_eq!(
            answer,
            u64::from(first) << 16 | bytes.len() as u64,
            "seed {seed}"
        );
        assert_eq!(again[..bytes.len()], bytes, "seed {seed}");
        count += 1;
    }
    println!("compared written Aldebaran texts read again by the engine: {count}");
    assert_eq!(count, 1_200);
}

/// The engine's own answers: what it reads in any order it writes in row order.
#[test]
fn what_is_read_is_written_in_order() {
    let mut random = Random::new(333);
    let mut moved = 0;
    for seed in 6_000..7_200 {
        let (table, first) = machine(seed);
        let sorted = Draft::of(&table, first);
        let shuffled = sorted.clone().shuffled(&mut random);
        let (mut bytes, mut text) = (vec![0xa5; LONGEST_TABLE], vec![0x5a; 20_000]);
        let answer = bare::aldebaran_read(&shuffled.to_bytes(), &mut bytes) as usize;
        let (read_first, length) = (answer >> 16, answer % 65_536);
        let written = bare::aldebaran_write(&bytes[..length], read_first, &mut text) as usize;
        assert_eq!(text[..written], sorted.to_bytes(), "seed {seed}");
        moved += usize::from(shuffled != sorted);
    }
    println!("compared Aldebaran texts that were read and written in order: 1200, {moved} of them shuffled");
    assert!(moved > 700);
}

/// Every number of states with every first state, written and read again.
#[test]
fn every_first_state_there_and_back() {
    let mut tally = Tally::new("first states written and read");
    for states in 1..=64 {
        let (table, _) = machine_with_rows(&mut Random::new(334 + u64::from(states)), states);
        for first in 0..states {
            let text = write_both(&table.to_bytes(), first.into(), 20_000).unwrap();
            assert_eq!(text, Draft::of(&table, first).to_bytes());
            let outcome = read_both(&text, LONGEST_TABLE);
            assert_eq!(outcome, read_machine(&table, first));
            tally.note(number_of(&outcome));
        }
    }
    tally.saw_exactly(&[0]);
}
