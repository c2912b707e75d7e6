//! Counts that are made to measure: powers, products on both sides of 65,535, and products far beyond every integer.

use crate::both::{number_of, Tally};
use crate::splitting_both::{count_both, every_splitting, joins_back, split_exactly, Log};
use crate::splitting_logs::{handshake_log, looping_log, random_halves};
use reference::random::Random;
use reference::splitting::MOST_SPLITTINGS;

/// Demands this count of both, its last splitting, and none behind it; if it is too large, 13 by count and number.
fn counts(log: &Log, product: Option<usize>, tally: &mut Tally) {
    let expected = match product {
        Some(count) if count <= MOST_SPLITTINGS => Ok(count),
        _ => Err(13),
    };
    assert_eq!(count_both(log), expected, "{log:?}");
    tally.note(number_of(&expected));
    match expected {
        Ok(count) => {
            for number in [0, count / 2, count - 1] {
                joins_back(log, &split_exactly(log, number).unwrap());
            }
            for number in [count, count + 1, 65_536, usize::MAX] {
                assert_eq!(split_exactly(log, number), Err(14), "{number} of {count}");
            }
        }
        Err(_) => {
            for number in [0, 65_535, usize::MAX] {
                assert_eq!(split_exactly(log, number), Err(13), "{number}");
            }
        }
    }
}

/// Every power of 1 to 9 up to 9^200: over 65,535 always 13, though 2^16, 2^32, 4^32 and 8^64 leave nothing of
/// themselves in 16, 32 or 64 bits.
#[test]
fn every_power() {
    let mut tally = Tally::new("counts of every power of 1 to 9");
    let mut random = Random::new(121);
    for ways in 1..=9usize {
        for times in 0..=200 {
            let power = ways.checked_pow(times as u32);
            // Beside the shortest log now and then one of 200 steps, the others idles.
            let longest = if times < 20 || times % 10 == 0 {
                200
            } else {
                times
            };
            for steps in [times, longest] {
                let log = looping_log(&mut random, &[(ways, times)], steps);
                assert_eq!(log.steps(), steps);
                counts(&log, power, &mut tally);
            }
        }
    }
    tally.saw_exactly(&[0, 13]);
}

/// The same by handshakes of machines that move on at each step.
#[test]
fn powers_of_handshakes() {
    let mut tally = Tally::new("counts of powers made of moving handshakes");
    let mut random = Random::new(122);
    for ways in 1..=8usize {
        for times in 0..=63 {
            let log = handshake_log(&mut random, &vec![ways; times]);
            counts(&log, ways.checked_pow(times as u32), &mut tally);
        }
    }
    tally.saw_exactly(&[0, 13]);
}

/// The factors of a number, each 2 to 9, or nothing if it has others.
fn factors(mut number: usize) -> Option<Vec<usize>> {
    let mut found = Vec::new();
    for factor in [7, 5, 3, 2] {
        while number.is_multiple_of(factor) {
            found.push(factor);
            number /= factor;
        }
    }
    (number == 1).then_some(found)
}

/// Now and then two factors as one, where the product is at most 8; then in random order.
fn regrouped(random: &mut Random, mut factors: Vec<usize>) -> Vec<usize> {
    for _ in 0..random.from_to(0, 6) {
        let (a, b) = (random.below(factors.len()), random.below(factors.len()));
        if a != b && factors[a] * factors[b] <= 8 {
            factors[a] *= factors[b];
            factors.remove(b);
        }
    }
    for at in 0..factors.len() {
        let other = random.below(factors.len());
        factors.swap(at, other);
    }
    factors
}

/// Every count from 50,000 to 80,000 that steps can have: exactly up to 65,535, then 13.
#[test]
fn every_product_near_the_limit() {
    let mut tally = Tally::new("counts from 50,000 to 80,000");
    let mut random = Random::new(123);
    let made: Vec<usize> = (50_000..=80_000)
        .filter(|n| factors(*n).is_some())
        .collect();
    // Steps have up to nine ways, so counts are made of 2, 3, 5 and 7: 3^3 * 7^4 is the last one accepted.
    let below = made.iter().filter(|product| **product <= MOST_SPLITTINGS);
    assert_eq!(below.max(), Some(&NEAREST_BELOW));
    let above = made.iter().filter(|product| **product > MOST_SPLITTINGS);
    assert_eq!(above.min(), Some(&65_536));
    for product in made {
        for round in 0..12 {
            let parts = regrouped(&mut random, factors(product).unwrap());
            let log = match round % 3 {
                0 => handshake_log(&mut random, &parts),
                _ => {
                    let loops: Vec<(usize, usize)> = parts.iter().map(|w| (*w, 1)).collect();
                    let steps = if round % 3 == 1 { 0 } else { 200 };
                    looping_log(&mut random, &loops, steps)
                }
            };
            counts(&log, Some(product), &mut tally);
        }
    }
    tally.at_least(300, &[0, 13]);
}

/// The largest count up to 65,535 that is made of 2, 3, 5 and 7 alone.
const NEAREST_BELOW: usize = 64_827;

/// One-way steps before, between and after the steps with several ways change no count.
#[test]
fn one_way_steps_count_once() {
    let mut tally = Tally::new("counts of logs with one-way steps at the end");
    let mut random = Random::new(124);
    for times in 0..=24 {
        for after in [0, 1, 50, 150] {
            let loops = [(2, times), (1, after)];
            let log = looping_log(&mut random, &loops, 0);
            counts(&log, Some(1 << times), &mut tally);
            let loops = [(1, after), (2, times)];
            let log = looping_log(&mut random, &loops, 0);
            counts(&log, Some(1 << times), &mut tally);
        }
    }
    tally.saw_exactly(&[0, 13]);
}

/// Products of random ways.
#[test]
fn random_products() {
    let mut tally = Tally::new("counts of random products");
    let mut random = Random::new(125);
    for _ in 0..3000 {
        let states = random.from_to(1, 12);
        let mut loops = Vec::new();
        for _ in 0..states {
            loops.push((random.from_to(1, 8), random.from_to(0, 3)));
        }
        loops.push((9, random.from_to(0, 2)));
        let each = loops.iter().map(|(ways, times)| ways.pow(*times as u32));
        let product = each.fold(1usize, usize::saturating_mul);
        let steps = random.from_to(0, 80);
        counts(
            &looping_log(&mut random, &loops, steps),
            Some(product),
            &mut tally,
        );
    }
    tally.at_least(500, &[0, 13]);
}

/// Every splitting of the largest count there is.
#[test]
fn every_number_of_the_largest_count() {
    let mut random = Random::new(126);
    let loops: Vec<(usize, usize)> = factors(NEAREST_BELOW)
        .unwrap()
        .into_iter()
        .map(|ways| (ways, 1))
        .collect();
    let log = looping_log(&mut random, &loops, 0);
    assert_eq!(every_splitting(&log).len(), NEAREST_BELOW);
    println!("compared splittings of the largest count, every number: {NEAREST_BELOW}");
}

/// Halves of logs with up to 9^200 splittings join to them: a call given halves never gives 13.
#[test]
fn joining_never_counts() {
    let mut random = Random::new(127);
    for ways in 2..=9 {
        for _ in 0..40 {
            let log = looping_log(&mut random, &[(ways, 200)], 200);
            assert_eq!(count_both(&log), Err(13));
            joins_back(&log, &random_halves(&mut random, &log));
        }
    }
}
