//! Numbers in each of the five places of an Aldebaran text: all small ones, those around every limit and cut, and what
//! looks like a number.

use crate::aldebaran_both::{number_both, read_both, LONGEST_TABLE};
use crate::aldebaran_texts::{line, Draft};
use crate::both::{number_of, Tally};

/// The places of numbers.
const PLACES: [Place; 5] = [
    Place::First,
    Place::Count,
    Place::States,
    Place::From,
    Place::To,
];

/// A place of a number.
#[derive(Clone, Copy, PartialEq, Eq, Debug)]
enum Place {
    First,
    Count,
    States,
    From,
    To,
}

/// A text of three rows on 40 states with these characters in one place.
fn text(place: Place, number: &str) -> Vec<u8> {
    let mut numbers = ["7", "3", "40", "5", "9"].map(str::to_string);
    numbers[place as usize] = number.to_string();
    let [first, count, states, from, to] = numbers;
    let lines = vec![line(5, "a2?", 30), line(from, "i", to), line(6, "a4!", 9)];
    let draft = Draft {
        count,
        ..Draft::with(first, states, lines)
    };
    draft.to_bytes()
}

/// The number that a text gets with a number of the form in one place: the other rows reach state 30.
fn judged(place: Place, number: usize) -> u8 {
    match place {
        Place::First if number >= 40 => 20,
        Place::Count if number != 3 => 20,
        Place::States if number <= 7 => 20,
        Place::States if number <= 30 || number > 64 => 5,
        Place::From | Place::To if number >= 40 => 5,
        _ => 0,
    }
}

/// All numbers up to 1,100, and ten on each side of larger limits, up to the largest that has five digits.
fn numbers() -> Vec<usize> {
    let around = |limit: usize| limit - 10..=limit + 10;
    let limits = [
        4_096, 9_999, 10_000, 16_384, 32_768, 65_536, 65_576, 65_792, 99_989,
    ];
    (0..=1_100)
        .chain(limits.into_iter().flat_map(around))
        .collect()
}

/// Every number of the form in every place gets the number it must, and is not cut to eight or sixteen bits.
#[test]
fn every_number_in_every_place() {
    let mut tally = Tally::new("numbers in Aldebaran texts");
    for place in PLACES {
        for number in numbers() {
            let outcome = read_both(&text(place, &number.to_string()), LONGEST_TABLE);
            let refused = number_of(&outcome);
            assert_eq!(refused, judged(place, number), "{number} as {place:?}");
            if let (Place::First, Ok(machine)) = (place, &outcome) {
                assert_eq!(machine.first as usize, number);
            }
            tally.note(refused);
        }
    }
    tally.saw_exactly(&[0, 5, 20]);
}

/// Leading zeros and numbers of more than five digits are not of the form, in any place.
#[test]
fn zeros_and_long_numbers() {
    let mut tally = Tally::new("zeros and long numbers in Aldebaran texts");
    for place in PLACES {
        for number in numbers() {
            for zeros in 1..=6 {
                let number = format!("{}{number}", "0".repeat(zeros));
                tally.note(number_both(&text(place, &number)));
            }
        }
        let powers = [
            (1 << 31) + 3,
            (1 << 32) + 3,
            (1 << 32) + 40,
            (1 << 63) + 3,
            u64::MAX,
        ];
        for number in (100_000..100_100)
            .chain([131_075, 262_147, 999_999, 1_000_003])
            .chain(powers)
        {
            tally.note(number_both(&text(place, &number.to_string())));
        }
        for digits in 6..60 {
            tally.note(number_both(&text(place, &"9".repeat(digits))));
            tally.note(number_both(&text(place, &"0".repeat(digits - 4))));
        }
        // Powers of 2^64 and more, to which the right number is added.
        for number in [
            "18446744073709551619",
            "340282366920938463463374607431768211459",
        ] {
            tally.note(number_both(&text(place, number)));
        }
    }
    tally.saw_exactly(&[19]);
}

/// What is no number of digits alone.
#[test]
fn what_looks_like_a_number() {
    let mut tally = Tally::new("what looks like a number in Aldebaran texts");
    let alike = [
        "", " ", "-", "+", "+3", "-3", "-0", " 3", "3 ", "\t3", "3\r", "3.", "3.0", "3e0", "0x3",
        "3_", "1_0", "\"3\"", "'3'", "3,", ",3", "(3)", "3)", "(3", "3,3", "３", "٣", "3\0", "\0",
        "x", "three", "3/", "3:", "/", ":",
    ];
    for place in PLACES {
        for number in alike {
            assert_eq!(
                number_both(&text(place, number)),
                19,
                "{number} as {place:?}"
            );
            tally.note(19);
        }
    }
    tally.saw_exactly(&[19]);
}

/// Every byte in place of a digit, before it and behind it.
#[test]
fn every_byte_beside_a_digit() {
    let mut tally = Tally::new("every byte beside a digit in Aldebaran texts");
    for place in PLACES {
        // No other text has this number, so its place is found by it.
        let marked = text(place, "12345");
        let at = marked
            .windows(5)
            .position(|bytes| bytes == b"12345")
            .unwrap();
        let (before, behind) = (&marked[..at], &marked[at + 5..]);
        for value in 0..=255 {
            for number in [vec![value], vec![value, b'3'], vec![b'3', value]] {
                tally.note(number_both(&[before, &number, behind].concat()));
            }
        }
    }
    tally.saw_exactly(&[0, 5, 19, 20]);
}

/// Every first state of every number of states.
#[test]
fn every_first_state() {
    let mut tally = Tally::new("first states of Aldebaran texts");
    for states in 0..=66 {
        for first in (0..=70).chain([255, 256, 257, 320, 65_535, 65_536, 65_537, 99_999]) {
            let outcome = read_both(&Draft::with(first, states, Vec::new()).to_bytes(), 1);
            let expected = match (first, states) {
                _ if first >= states => 20,
                _ if states > 64 => 5,
                _ => 0,
            };
            assert_eq!(number_of(&outcome), expected, "{first} of {states}");
            if let Ok(machine) = outcome {
                assert_eq!(
                    (machine.first as usize, &machine.table[..]),
                    (first, &[states as u8][..])
                );
            }
            tally.note(expected);
        }
    }
    tally.saw_exactly(&[0, 5, 20]);
}
