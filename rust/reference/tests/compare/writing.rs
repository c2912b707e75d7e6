//! Writing: sound and damaged parts, outputs of all sizes, and every lent byte before and after.

use crate::book::{random_book, unfit_body};
use crate::both::{read_both, write_both, Tally};
use crate::faults::{faulty_book, Fault};
use crate::handmade::case_a;
use crate::sound::parts_number;
use reference::casebook::{self, Parts};
use reference::random::Random;

/// Case A's parts.
fn case_a_parts() -> Parts {
    let bytes = case_a();
    casebook::read(&bytes).unwrap().parts(&bytes)
}

/// Outputs that are empty, far too short, one byte short, exact, one byte longer and much longer.
fn rooms(exact: usize) -> [usize; 6] {
    [0, exact / 2, exact - 1, exact, exact + 1, exact + 300]
}

/// Case A into every output from empty to 40 bytes more than it needs.
#[test]
fn every_room_for_case_a() {
    let mut tally = Tally::new("case A written into every room");
    let parts = case_a_parts();
    for room in 0..=84 {
        let number = write_both(&parts, room);
        assert_eq!(number, if room < 44 { 18 } else { 0 }, "room {room}");
        tally.note(number);
    }
    tally.saw_exactly(&[0, 18]);
}

/// Sound parts of all sizes: 18 exactly when the output is too short.
#[test]
fn sound_parts_are_written() {
    let mut tally = Tally::new("sound parts written");
    for seed in 20_000..20_960 {
        let parts = parts_number(seed);
        let exact = parts.to_bytes().len();
        for room in rooms(exact) {
            let number = write_both(&parts, room);
            assert_eq!(number, if room < exact { 18 } else { 0 }, "seed {seed}");
            tally.note(number);
        }
    }
    assert_eq!(tally.of(0), tally.of(18));
    tally.saw_exactly(&[0, 18]);
}

/// The faults that parts can have; length stands for a part of unfit length.
const PART_FAULTS: [Fault; 10] = [
    Fault::Pairs,
    Fault::Length,
    Fault::States,
    Fault::RowRange,
    Fault::RowOrder,
    Fault::NinthRow,
    Fault::Start,
    Fault::Step,
    Fault::Tree,
    Fault::Nesting,
];

/// Every fault in every part where it can stand; k has no length.
fn placed_faults() -> Vec<(Fault, usize)> {
    let mut placed = Vec::new();
    for fault in PART_FAULTS {
        for record in fault.records() {
            if (fault, *record) != (Fault::Length, 0) {
                placed.push((fault, *record));
            }
        }
    }
    placed
}

/// The number that this fault gets in the parts' call: a formula of unfit length is 9.
fn number((fault, record): (Fault, usize)) -> u8 {
    match (fault, record) {
        (Fault::Length, 4) => 9,
        _ => fault.number(),
    }
}

/// Parts with one fault.
fn faulty_parts((fault, record): (Fault, usize), random: &mut Random) -> Parts {
    if fault != Fault::Length {
        return faulty_book(fault, record, random).parts();
    }
    let mut book = random_book(random);
    let body = unfit_body(&book, record, random);
    book.set_body(record, body);
    book.parts()
}

/// Each fault alone gets its number, whatever the output; nothing is written.
#[test]
fn each_faulty_part_alone() {
    let mut tally = Tally::new("one faulty part, written into every kind of room");
    let mut random = Random::new(21);
    for placed in placed_faults() {
        for _ in 0..60 {
            let parts = faulty_parts(placed, &mut random);
            for room in rooms(parts.to_bytes().len()) {
                let outcome = write_both(&parts, room);
                assert_eq!(outcome, number(placed), "{placed:?} room {room}");
                tally.note(outcome);
            }
        }
    }
    tally.saw_exactly(&[3, 4, 5, 6, 7, 8, 9, 10]);
}

/// Puts the other's part into these parts.
fn take_part(parts: &mut Parts, other: &Parts, record: usize) {
    match record {
        0 => parts.k = other.k,
        1 => parts.left = other.left.clone(),
        2 => parts.right = other.right.clone(),
        3 => parts.run = other.run.clone(),
        _ => parts.question = other.question.clone(),
    }
}

/// Two faulty parts at once: the earlier part gives the number, and 18 never comes before it.
#[test]
fn two_faulty_parts_at_once() {
    let mut tally = Tally::new("two faulty parts at once");
    let mut random = Random::new(22);
    let placed = placed_faults();
    for first in &placed {
        for second in placed.iter().filter(|second| second.1 > first.1) {
            for _ in 0..6 {
                let mut parts = faulty_parts(*first, &mut random);
                let other = faulty_parts(*second, &mut random);
                take_part(&mut parts, &other, second.1);
                let exact = parts.to_bytes().len();
                let room = *random.pick(&rooms(exact));
                let outcome = write_both(&parts, room);
                assert_eq!(outcome, number(*first), "{first:?} {second:?}");
                tally.note(outcome);
            }
        }
    }
    tally.saw_exactly(&[3, 4, 5, 6, 7, 8]);
}

/// Parts of different casebooks and random bytes as parts, with any k.
#[test]
fn mixed_and_random_parts() {
    let mut tally = Tally::new("mixed and random parts");
    let mut random = Random::new(23);
    for seed in 0..12_000 {
        let mut parts = parts_number(16 * random.below(400) as u64 + 8 + seed % 8);
        let other = parts_number(16 * random.below(400) as u64 + 8);
        let record = random.below(5);
        take_part(&mut parts, &other, record);
        if random.once_in(2) {
            let (count, most) = (random.from_to(0, 20), *random.pick(&[1, 3, 255]));
            let bytes = (0..count).map(|_| random.byte(0, most)).collect();
            match random.below(4) {
                0 => parts.left = bytes,
                1 => parts.right = bytes,
                2 => parts.run = bytes,
                _ => parts.question = bytes,
            }
        }
        let room = *random.pick(&rooms(parts.to_bytes().len()));
        tally.note(write_both(&parts, room));
    }
    tally.saw_exactly(&[0, 3, 5, 6, 8, 9, 18]);
}

/// Every k: 4 over 15, and below it the labels that it gives.
#[test]
fn every_k() {
    let mut tally = Tally::new("every k in case A's parts");
    let mut parts = case_a_parts();
    for k in 0..=255 {
        parts.k = k;
        let outcome = write_both(&parts, 64);
        let expected = match k {
            0 | 1 => 5,
            2..=15 => 0,
            _ => 4,
        };
        assert_eq!(outcome, expected, "k {k}");
        tally.note(outcome);
    }
    tally.saw_exactly(&[0, 4, 5]);
}

/// Parts of every length up to 1,700 bytes, and some far longer.
#[test]
fn parts_of_every_length() {
    let mut tally = Tally::new("parts of every length");
    for size in (0..=1700).chain([4096, 65_533, 65_534, 65_538, 131_074, 1 << 20]) {
        let mut tables = case_a_parts();
        let rows = (0..64u8).flat_map(|from| (0..8).flat_map(move |to| [from, 0, to]));
        tables.left = [64].into_iter().chain(rows).collect();
        tables.left.resize(size, 0);
        tables.run = vec![0, 0];
        let mut run = case_a_parts();
        run.run = [0, 0].into_iter().chain([255, 0, 0].repeat(size)).collect();
        run.run.truncate(size);
        let mut question = case_a_parts();
        question.question = [2, 0].repeat(size / 2 + 1);
        question.question.truncate(size);
        if size >= 2 {
            question.question[size - size % 2 - 2] = 0;
        }
        let right = Parts {
            left: tables.right.clone(),
            right: tables.left.clone(),
            ..tables.clone()
        };
        for parts in [tables, right, run, question] {
            tally.note(write_both(&parts, 2000));
        }
    }
    // 0 to 512 rows, twice; 0 to 200 steps; 1 to 64 nodes.
    assert_eq!(tally.of(0), 513 + 513 + 201 + 64);
    tally.saw_exactly(&[0, 3, 9]);
}

/// What the engine writes, the engine and the reference both read.
#[test]
fn what_is_written_is_read() {
    let mut count = 0;
    for seed in 30_000..30_400 {
        let parts = parts_number(seed);
        let mut out = vec![0xa5; 4000];
        let length = yenuslap::write_casebook(
            parts.k,
            &parts.left,
            &parts.right,
            &parts.run,
            &parts.question,
            &mut out,
        );
        assert_eq!(read_both(&out[..length.unwrap()]), 0);
        count += 1;
    }
    println!("compared written casebooks read by both: {count}");
    assert_eq!(count, 400);
}
