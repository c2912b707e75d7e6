//! The cut: both sides and unnamed, all points and beyond, halves of every length.

use crate::both::{cut_both, knows_left, Tally};
use reference::random::Random;

/// Bytes for left, right and unnamed; every byte but 1 and 2 names no side.
const SIDES: [u8; 6] = [0, 1, 2, 3, 128, 255];

/// Points at which twice the point, plus one, leaves 32 or 64 bits.
const FAR_POINTS: [usize; 8] = [
    1 << 31,
    (1 << 31) + 1,
    1 << 32,
    (1 << 32) + 2,
    usize::MAX / 2,
    usize::MAX / 2 + 1,
    usize::MAX - 1,
    usize::MAX,
];

/// Every pair of short halves, every side and every point, inside and beyond.
#[test]
fn every_cut_of_short_halves() {
    let mut tally = Tally::new("cuts of halves of 0 to 24 bytes");
    let mut random = Random::new(31);
    let bytes = random.bytes(64);
    for left in 0..=24 {
        for right in 0..=24 {
            for side in SIDES {
                for point in (0..=14).chain(FAR_POINTS) {
                    let halves = (&bytes[..left], &bytes[32..32 + right]);
                    tally.note(cut_both(halves.0, halves.1, side, point));
                }
            }
        }
    }
    // Odd lengths 1 to 23 have 1 to 12 points: 78, for each of 25 other halves and each side.
    assert_eq!(tally.of(0), 78 * 25 * 6);
    tally.saw_exactly(&[0, 12]);
}

/// Halves of even length, empty ones too, have no points.
#[test]
fn even_halves_have_no_points() {
    let mut tally = Tally::new("cuts of halves of even length");
    let bytes = Random::new(32).bytes(1200);
    for length in (0..=1200).step_by(2) {
        for point in [0, 1, length / 2, length, usize::MAX] {
            tally.note(cut_both(&bytes[..length], &bytes[..7], 1, point));
            tally.note(cut_both(&bytes[..7], &bytes[..length], 2, point));
            tally.note(cut_both(&bytes[..length], &bytes[..7], 0, point));
        }
    }
    tally.saw_exactly(&[12]);
}

/// Halves of up to 200 steps and of more: a cut looks at no bound but the point.
#[test]
fn every_point_of_long_halves() {
    let mut tally = Tally::new("cuts of long halves");
    let bytes = Random::new(33).bytes(140_000);
    for steps in [199, 200, 201, 204, 1000, 32_767, 32_768, 65_600] {
        let half = &bytes[..1 + 2 * steps];
        let near = (0..=steps.min(210)).chain(steps - 2..=steps + 2);
        for point in near.chain(FAR_POINTS) {
            for side in SIDES {
                let number = match knows_left(side) {
                    true => cut_both(half, &bytes[..2], side, point),
                    false => cut_both(&bytes[..2], half, side, point),
                };
                assert_eq!(number == 0, point <= steps, "{steps} {point}");
                tally.note(number);
            }
        }
    }
    tally.saw_exactly(&[0, 12]);
}

/// One half lent as both: every side cuts it alike.
#[test]
fn one_half_lent_as_both() {
    let mut tally = Tally::new("cuts of one half lent as both");
    let half = Random::new(34).bytes(401);
    for point in 0..=202 {
        for side in SIDES {
            tally.note(cut_both(&half, &half, side, point));
        }
    }
    assert_eq!(tally.of(0), 201 * 6);
    tally.saw_exactly(&[0, 12]);
}

/// The part is the known half's beginning and no copy, also when both halves hold the same bytes; where no side is
/// named it is the left half's.
#[test]
fn the_part_is_the_very_prefix() {
    let (left, right) = ([7, 1, 2, 255, 2], [7, 1, 2, 255, 2]);
    let mut count = 0;
    for point in 0..=2 {
        for (side, half) in [
            (yenuslap::Side::Left, &left),
            (yenuslap::Side::Right, &right),
            (yenuslap::Side::Unnamed, &left),
        ] {
            let part = yenuslap::cut(&left, &right, side, point).unwrap();
            assert_eq!(part, &half[..1 + 2 * point]);
            assert_eq!(part.as_ptr(), half.as_ptr());
            count += 1;
        }
    }
    assert_eq!(count, 9);
}
