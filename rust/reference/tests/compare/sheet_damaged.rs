//! Lines of the sheets of refused casebooks and counts: one line with the number.

use crate::both::Tally;
use crate::faults::{faulty_book, ALL};
use crate::sheet_both::{Block, Sheet};
use crate::sheet_inputs::{loops, TRUE};
use reference::casebook::{Parts, LONGEST};
use reference::generate::{sound_parts, Shape};
use reference::random::Random;

/// The number of the sheet's only line, 0 if its lines are a sound casebook's.
fn number_in(sheet: &Sheet) -> u8 {
    let text = String::from_utf8_lossy(&sheet.lines[0]);
    let number = text
        .strip_prefix("R ")
        .and_then(|n| n.trim_end().parse().ok());
    number.unwrap_or(0)
}

/// Every first line, number of lines and output that make a difference to a sheet of one short line.
fn every_block(sheet: &Sheet) {
    for first in [0, 1, 2, usize::MAX] {
        for most in [0, 1, 2, usize::MAX] {
            for room in 0..8 {
                sheet.compare(Block { first, most, room });
            }
        }
    }
}

/// Each fault in each record where it can stand.
#[test]
fn lines_for_each_fault() {
    let mut tally = Tally::new("lines for one fault in a casebook");
    let mut random = Random::new(441);
    for fault in ALL {
        for record in fault.records() {
            for _ in 0..6 {
                let sheet = Sheet::of(faulty_book(fault, *record, &mut random).bytes());
                assert_eq!(number_in(&sheet), fault.number(), "{fault:?}");
                every_block(&sheet);
                tally.note(fault.number());
            }
        }
    }
    tally.saw_exactly(&[1, 2, 3, 4, 5, 6, 7, 8, 9, 10, 11]);
}

/// Every beginning of a casebook, and bytes of all values.
#[test]
fn lines_for_cut_and_random_bytes() {
    let mut tally = Tally::new("lines for cut and random bytes");
    let mut random = Random::new(442);
    let shape = Shape::small(&mut random);
    let casebook = sound_parts(&mut random, shape).to_bytes();
    for length in 0..casebook.len() {
        let sheet = Sheet::of(casebook[..length].to_vec());
        every_block(&sheet);
        tally.note(number_in(&sheet));
    }
    for length in [1, 4, 5, 60, LONGEST, LONGEST + 1, 70_000] {
        let sheet = Sheet::of(random.bytes(length));
        every_block(&sheet);
        tally.note(number_in(&sheet));
    }
    tally.saw_exactly(&[1, 2]);
}

/// Changed, lost and added bytes; some casebooks stay sound.
#[test]
fn lines_for_changed_bytes() {
    let mut tally = Tally::new("lines for changed bytes");
    let mut random = Random::new(443);
    for seed in 0..400 {
        let shape = Shape::small(&mut random);
        let mut casebook = sound_parts(&mut random, shape).to_bytes();
        let at = random.below(casebook.len());
        match seed % 4 {
            0 => {
                casebook.remove(at);
            }
            1 => casebook.insert(at, random.byte(0, 9)),
            2 => casebook[at] = random.byte(0, 255),
            _ => casebook[at] = casebook[at].wrapping_add(*random.pick(&[1, 2, 255])),
        }
        let sheet = Sheet::of(casebook);
        for most in [1, 2, usize::MAX] {
            for room in [3, 4, 5, 13, 40, 200] {
                let first = random.from_to(0, sheet.lines.len());
                sheet.compare(Block { first, most, room });
            }
        }
        tally.note(number_in(&sheet));
    }
    tally.at_least(5, &[0, 1, 2, 3, 5, 8, 9]);
}

/// Steps with two to nine ways, so many that the count is refused.
#[test]
fn lines_for_refused_counts() {
    let mut tally = Tally::new("lines for refused counts");
    for handshakes in 0..8usize {
        let ways = handshakes + 2;
        let over = (1..).find(|steps| ways.pow(*steps) > 65_535).unwrap() as usize;
        for steps in [over, over + 1, 200] {
            let parts = Parts {
                k: 15,
                left: loops(&[0, 1, 3, 5, 7, 9, 11, 13][..=handshakes]),
                right: loops(&[0, 2, 4, 6, 8, 10, 12, 14][..=handshakes]),
                run: [vec![0, 0], [0, 0, 0].repeat(steps)].concat(),
                question: TRUE.to_vec(),
            };
            let sheet = Sheet::of(parts.to_bytes());
            every_block(&sheet);
            tally.note(number_in(&sheet));
        }
    }
    tally.saw_exactly(&[13]);
}
