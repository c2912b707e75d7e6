//! Casebooks that are refused, each as one line with its number.

use crate::book::{random_book, Book};
use crate::faults::{faulty_book, ALL};
use crate::program::{agree, refusal, Seen};
use reference::casebook::LONGEST;
use reference::generate::{many_ways_parts, sound_parts, Shape};
use reference::random::Random;

/// A small sound casebook.
fn small(random: &mut Random) -> Vec<u8> {
    let shape = Shape::small(random);
    sound_parts(random, shape).to_bytes()
}

/// Each fault in each record where it can stand gets its number.
#[test]
fn each_fault_alone() {
    let mut seen = Seen::new("one fault in a sound casebook");
    let mut random = Random::new(411);
    for fault in ALL {
        for record in fault.records() {
            for _ in 0..20 {
                let casebook = faulty_book(fault, *record, &mut random).bytes();
                let sheet = agree(&casebook);
                assert_eq!(refusal(&sheet), Some(fault.number().into()), "{fault:?}");
                seen.note(&sheet);
            }
        }
    }
    seen.refused_at_least(20, &[1, 2, 3, 4, 5, 6, 7, 8, 9, 10, 11]);
}

/// Two faults, or more where one makes others: the first number of document 01's order.
#[test]
fn several_faults() {
    let mut seen = Seen::new("two faults in a casebook");
    let mut random = Random::new(412);
    for _ in 0..700 {
        let mut book = random_book(&mut random);
        for _ in 0..2 {
            let fault = *random.pick(&ALL);
            let record = *random.pick(fault.records());
            if whole(&book) {
                fault.make(&mut book, record, &mut random);
            }
        }
        seen.compare(&book.bytes());
    }
    seen.refused_at_least(10, &[1, 2, 3, 4, 5, 6, 8, 9, 10]);
}

/// Whether all records are there with a body, so that a fault has its place.
fn whole(book: &Book) -> bool {
    let filled = |record: &crate::book::Record| record.body.len() >= 2 || record.kind == 1;
    book.records.len() == 5 && book.records.iter().all(filled)
}

/// Every beginning of some small casebooks, the empty one among them, is 1, or a number of what is there.
#[test]
fn cut_short() {
    let mut seen = Seen::new("casebooks cut short");
    let mut random = Random::new(413);
    for _ in 0..8 {
        let casebook = small(&mut random);
        for length in 0..casebook.len() {
            let sheet = agree(&casebook[..length]);
            assert_eq!(refusal(&sheet), Some(1));
            seen.note(&sheet);
        }
    }
    seen.refused_at_least(200, &[1]);
}

/// Changed, lost and added bytes.
#[test]
fn changed_bytes() {
    let mut seen = Seen::new("casebooks with changed bytes");
    let mut random = Random::new(414);
    for seed in 0..1500 {
        let mut casebook = small(&mut random);
        let at = random.below(casebook.len());
        match seed % 5 {
            0 => {
                casebook.remove(at);
            }
            1 => casebook.insert(at, random.byte(0, 9)),
            2 => casebook[at] = random.byte(0, 255),
            _ => casebook[at] = casebook[at].wrapping_add(*random.pick(&[1, 2, 255])),
        }
        seen.compare(&casebook);
    }
    seen.refused_at_least(5, &[1, 2, 3, 4, 5, 6, 8, 9]);
    assert!(seen.lines > 100);
}

/// Every kind near the one that is due, and lengths at the edges of what is allowed.
#[test]
fn kinds_and_lengths() {
    let mut seen = Seen::new("kinds and lengths");
    let mut random = Random::new(415);
    let sound = Book::of(&many_ways_parts(&mut random, Shape::maximal(1), 2));
    for record in 0..5 {
        for kind in [
            0, 1, 2, 3, 4, 5, 6, 255, 256, 257, 258, 259, 260, 261, 1280, 65535,
        ] {
            let mut book = sound.clone();
            book.records[record].kind = kind;
            seen.compare(&book.bytes());
        }
        let edges = [
            0, 1, 2, 3, 4, 5, 6, 7, 128, 129, 130, 131, 132, 601, 604, 605, 607,
        ];
        for length in edges
            .into_iter()
            .chain([1536, 1538, 1539, 1540, 1542, 32768, 65535])
        {
            let mut book = sound.clone();
            book.records[record].length = length;
            seen.compare(&book.bytes());
        }
    }
    seen.refused_at_least(60, &[2, 3]);
}

/// Bytes after the question record, one to a megabyte of them; the largest casebook is not too long.
#[test]
fn bytes_after() {
    let mut seen = Seen::new("casebooks with bytes after them");
    let mut random = Random::new(416);
    let wild = random.bytes(1 << 20);
    for seed in 0..24 {
        let shape = match seed % 2 {
            0 => Shape::maximal(seed % 16),
            _ => Shape::small(&mut random),
        };
        let sound = many_ways_parts(&mut random, shape, 2).to_bytes();
        assert!(seed % 2 == 1 || sound.len() == LONGEST);
        assert_eq!(refusal(&agree(&sound)), None);
        let mut afters = vec![1, 2, 3, 4, 60, 4096, 65_536 - sound.len(), 65_536];
        // Up to the length at which any casebook is too long, and around it.
        afters.extend((LONGEST - 1..LONGEST + 3).filter_map(|l| l.checked_sub(sound.len())));
        afters.retain(|after| *after > 0);
        if seed < 2 {
            afters.push(1 << 20);
        }
        for after in afters {
            let sheet = agree(&[&sound[..], &wild[..after]].concat());
            assert_eq!(refusal(&sheet), Some(11), "{after} bytes after");
            seen.note(&sheet);
        }
    }
    seen.refused_at_least(200, &[11]);
}

/// A record that claims more than is there, at every place in a long input, and inputs of nothing but one byte.
#[test]
fn long_inputs_without_a_casebook() {
    let mut seen = Seen::new("long inputs without a casebook");
    let mut random = Random::new(417);
    for length in [
        0,
        1,
        3,
        4,
        5,
        LONGEST - 1,
        LONGEST,
        LONGEST + 1,
        LONGEST + 2,
        8192,
        65_535,
        65_536,
        65_537,
        200_000,
    ] {
        for byte in [0, 1, 255] {
            seen.compare(&vec![byte; length]);
        }
        seen.compare(&random.bytes(length));
        // A sound beginning.
        let mut casebook = small(&mut random);
        casebook.truncate(5 + random.below(casebook.len() - 5));
        casebook.extend(random.bytes(length));
        seen.compare(&casebook);
    }
    seen.refused_at_least(10, &[1, 2]);
}
