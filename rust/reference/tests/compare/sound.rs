//! Sound casebooks of all sizes: all accepted, and round trips both ways.

use crate::both::{number_of, parts_of, read_both, write_both, Tally};
use crate::handmade::case_a;
use reference::casebook::{self, Parts, LONGEST};
use reference::formula::{read_formula, QUESTION_NODES};
use reference::generate::{sound_parts, Shape};
use reference::random::Random;
use reference::run::{read_run, ways, Way};
use reference::table::read_table;

/// Small, arbitrary and maximal parts, by number.
pub fn parts_number(seed: u64) -> Parts {
    let mut random = Random::new(seed);
    let shape = match seed % 16 {
        0 => Shape::maximal((seed / 16 % 16) as u8),
        1..=7 => Shape::any(&mut random),
        _ => Shape::small(&mut random),
    };
    sound_parts(&mut random, shape)
}

/// Every sound casebook is accepted with its parts, and followed by more bytes it is 11.
#[test]
fn sound_casebooks_are_read() {
    let mut tally = Tally::new("sound casebooks");
    let mut longer = Tally::new("sound casebooks with bytes after them");
    for seed in 0..2400 {
        let parts = parts_number(seed);
        // At any address, and between bytes that belong to somebody else.
        let before = (seed % 17) as usize;
        let bytes = parts.to_bytes();
        let buffer = [&vec![0xff; before], &bytes[..], &[seed as u8]].concat();
        let (start, end) = (before, before + bytes.len());
        assert_eq!(read_both(&buffer[start..end]), 0, "seed {seed}");
        assert_eq!(number_of(&casebook::write(&parts, LONGEST)), 0);
        tally.note(0);
        longer.note(read_both(&buffer[start..end + 1]));
    }
    tally.saw_exactly(&[0]);
    longer.saw_exactly(&[11]);
}

/// Writing the parts of a casebook that was read gives its bytes; reading what was written gives its parts.
#[test]
fn round_trips() {
    let mut count = 0;
    for seed in 10_000..11_200 {
        let parts = parts_number(seed);
        let bytes = parts.to_bytes();
        let book = yenuslap::read_casebook(&bytes).expect("sound");
        let mut out = vec![0x5a; LONGEST];
        let length = yenuslap::write_casebook(
            book.k,
            book.left,
            book.right,
            book.run,
            book.question,
            &mut out,
        );
        let length = length.expect("sound parts and room enough");
        assert_eq!(out[..length], bytes, "seed {seed}");
        let again = yenuslap::read_casebook(&out[..length]).expect("written by the engine");
        assert_eq!(parts_of(again), parts, "seed {seed}");
        count += 1;
    }
    println!("compared round trips, both ways: {count}");
    assert_eq!(count, 1200);
}

/// What the generator has made: the sets of sizes and ways that were seen.
#[derive(Default)]
struct Seen {
    k: [u64; 16],
    ways: [u64; 4],
    many_ways: u64,
    loops: u64,
    nesting: [u64; 5],
    states: [u64; 2],
    steps: [u64; 2],
    nodes: [u64; 2],
    largest: u64,
}

impl Seen {
    /// Counts one casebook's sizes: the smallest and the largest of each.
    fn note(&mut self, parts: &Parts) {
        self.k[parts.k as usize] += 1;
        let ends = |value: usize, low, high| [(value == low) as u64, (value == high) as u64];
        let add = |sums: &mut [u64; 2], more: [u64; 2]| {
            sums[0] += more[0];
            sums[1] += more[1];
        };
        add(&mut self.states, ends(parts.left[0] as usize, 1, 64));
        add(&mut self.steps, ends(parts.run.len(), 2, 602));
        add(&mut self.nodes, ends(parts.question.len(), 2, 128));
        let question = read_formula(&parts.question, parts.k, QUESTION_NODES).unwrap();
        self.nesting[question.nesting()] += 1;
        self.largest += (parts.to_bytes().len() == LONGEST) as u64;
        self.note_run(parts);
    }

    /// Counts the ways of each step of the run.
    fn note_run(&mut self, parts: &Parts) {
        let left = read_table(&parts.left, parts.k).unwrap();
        let right = read_table(&parts.right, parts.k).unwrap();
        let run = read_run(&parts.run, &left, &right).unwrap();
        let (mut p, mut q) = (run.left, run.right);
        for step in run.steps {
            let found = ways(&left, &right, p, q, step);
            for way in &found {
                let kind = match way {
                    Way::LeftAlone => 0,
                    Way::RightAlone => 1,
                    Way::Handshake(_) => 2,
                    Way::JointIdle => 3,
                };
                self.ways[kind] += 1;
            }
            self.many_ways += (found.len() > 1) as u64;
            self.loops += (step.label != 255 && (p, q) == (step.left, step.right)) as u64;
            (p, q) = (step.left, step.right);
        }
    }
}

/// The sound inputs reach every k, every way, both ends of each size and the largest casebook.
#[test]
fn generator_reaches_all_sizes() {
    let mut seen = Seen::default();
    for seed in 0..2400 {
        seen.note(&parts_number(seed));
    }
    assert!(seen.k.iter().all(|count| *count > 10), "{:?}", seen.k);
    assert!(
        seen.ways.iter().all(|count| *count > 1000),
        "{:?}",
        seen.ways
    );
    assert!(
        seen.nesting.iter().all(|count| *count > 10),
        "{:?}",
        seen.nesting
    );
    assert!(seen.many_ways > 500 && seen.loops > 500);
    for ends in [seen.states, seen.steps, seen.nodes] {
        assert!(ends.iter().all(|count| *count > 5), "{ends:?}");
    }
    assert!(seen.largest >= 16, "{}", seen.largest);
}

/// The wrapper's and the plain implementation's longest casebook is the engine's: it reads and writes casebooks of that
/// length, and refuses a byte more, and an output with a byte less.
#[test]
fn longest_casebook() {
    assert_eq!(yenuslap::MOST_CASEBOOK, LONGEST);
    for k in 0..16 {
        let parts = parts_number(16 * k);
        let mut bytes = parts.to_bytes();
        assert_eq!(bytes.len(), LONGEST);
        assert_eq!(read_both(&bytes), 0);
        assert_eq!(write_both(&parts, LONGEST), 0);
        assert_eq!(write_both(&parts, LONGEST - 1), 18);
        bytes.push(0);
        assert_eq!(read_both(&bytes), 11);
    }
}

/// No part of the longest casebook can be longer: a row, a step or a node more is refused.
#[test]
fn longest_parts() {
    let parts = parts_number(16 * 15);
    let mut table = parts.clone();
    table.left.extend([63, 30, 63]);
    assert_eq!(write_both(&table, LONGEST + 3), 3);
    let mut run = parts.clone();
    run.run.extend([255, 0, 0]);
    assert_eq!(write_both(&run, LONGEST + 3), 3);
    let mut question = parts;
    question.question.splice(0..0, [2, 0]);
    assert_eq!(write_both(&question, LONGEST + 2), 9);
}

/// Every proper beginning of a sound casebook is 1, although the right bytes lie behind it.
#[test]
fn every_truncation_is_1() {
    let mut tally = Tally::new("truncations");
    let mut books = vec![case_a(), parts_number(16 * 15).to_bytes()];
    books.extend((0..80).map(|seed| parts_number(seed * 16 + 9).to_bytes()));
    books.extend((0..6).map(|seed| parts_number(seed * 16 + 3).to_bytes()));
    assert_eq!(books[1].len(), LONGEST);
    for book in &books {
        for length in 0..book.len() {
            tally.note(read_both(&book[..length]));
        }
        assert_eq!(read_both(book), 0);
    }
    tally.saw_exactly(&[1]);
}
