//! Which number comes first: each fault alone, each pair of faults in both orders, every set of faults.

use crate::aldebaran_both::{read_both, LONGEST_TABLE};
use crate::aldebaran_faults::{ways, Damaged, Place, SEARCHED, WAYS};
use crate::both::{number_of, Tally};
use reference::random::Random;

/// The number of a damaged text, whatever the output.
fn number(text: &Damaged, random: &mut Random) -> u8 {
    let room = *random.pick(&[0, 1, 7, 40, LONGEST_TABLE]);
    number_of(&read_both(&text.to_bytes(), room))
}

/// Where a number stands in the search.
fn rank(number: u8) -> usize {
    SEARCHED
        .iter()
        .position(|searched| *searched == number)
        .unwrap()
}

/// A sound text without any fault is read, or refused as 18 and under no other number.
#[test]
fn without_a_fault() {
    let mut tally = Tally::new("Aldebaran texts before they are damaged");
    let mut random = Random::new(301);
    for _ in 0..2_000 {
        let text = Damaged::new(&mut random);
        tally.note(number(&text, &mut random));
    }
    tally.saw_exactly(&[0, 18]);
}

/// Each way to each number alone, at the front, at the end and anywhere, whatever the output.
#[test]
fn each_fault_alone() {
    let mut tally = Tally::new("Aldebaran texts with one fault");
    let mut random = Random::new(302);
    for (expected, way) in WAYS {
        for place in [Place::Early, Place::Late, Place::Anywhere] {
            for _ in 0..250 {
                let mut text = Damaged::new(&mut random);
                way(&mut text, place, &mut random);
                let outcome = number(&text, &mut random);
                assert_eq!(outcome, expected, "{place:?}");
                tally.note(outcome);
            }
        }
    }
    tally.saw_exactly(&SEARCHED);
}

/// Every pair of ways to different numbers, in both orders: the number that is sought first comes, wherever it stands.
#[test]
fn each_pair_of_faults() {
    let mut tally = Tally::new("Aldebaran texts with two faults, in both orders");
    let mut random = Random::new(303);
    for (sooner, way) in WAYS {
        for (later, other) in WAYS.iter().filter(|other| rank(other.0) > rank(sooner)) {
            for place in [Place::Early, Place::Late] {
                let other_place = match place {
                    Place::Early => Place::Late,
                    _ => Place::Early,
                };
                for _ in 0..24 {
                    let mut text = Damaged::new(&mut random);
                    other(&mut text, other_place, &mut random);
                    way(&mut text, place, &mut random);
                    let outcome = number(&text, &mut random);
                    assert_eq!(outcome, sooner, "beside {later}, {place:?}");
                    tally.note(outcome);
                }
            }
        }
    }
    tally.saw_exactly(&SEARCHED[..5]);
}

/// Every set of numbers, each in one of its ways anywhere.
#[test]
fn each_set_of_faults() {
    let mut tally = Tally::new("Aldebaran texts with sets of faults");
    let mut random = Random::new(304);
    for set in 1..64 {
        let chosen = (0..6).filter(|at| set >> at & 1 == 1);
        let numbers: Vec<u8> = chosen.map(|at| SEARCHED[at]).collect();
        for _ in 0..150 {
            let mut text = Damaged::new(&mut random);
            // The last first, since 20 and 19 spoil the header that the others change.
            for number in numbers.iter().rev() {
                let way = *random.pick(&ways(*number));
                way(&mut text, Place::Anywhere, &mut random);
            }
            let outcome = number(&text, &mut random);
            assert_eq!(outcome, numbers[0], "{numbers:?}");
            tally.note(outcome);
        }
    }
    tally.saw_exactly(&SEARCHED);
}

/// Every way twice over in one text, and with it any other way to the same number.
#[test]
fn one_fault_several_times() {
    let mut tally = Tally::new("Aldebaran texts with several faults of one number");
    let mut random = Random::new(305);
    for (expected, way) in WAYS.iter().filter(|way| ![19, 20, 7].contains(&way.0)) {
        for _ in 0..200 {
            let mut text = Damaged::new(&mut random);
            for _ in 0..random.from_to(1, 4) {
                way(&mut text, Place::Anywhere, &mut random);
            }
            random.pick(&ways(*expected))(&mut text, Place::Anywhere, &mut random);
            let outcome = number(&text, &mut random);
            assert_eq!(outcome, *expected);
            tally.note(outcome);
        }
    }
    tally.saw_exactly(&[5, 6, 21]);
}
