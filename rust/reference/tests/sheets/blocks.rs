//! Sheets of many megabytes, and sheets that end at the ends of blocks.

use std::ops::Range;

use crate::inputs::{back_along, looping, loops, times, AHEAD, NOT, TRUE};
use crate::program::{agree, Seen};
use reference::casebook::Parts;
use reference::label::IDLE;

/// A log of loops: steps with three ways, steps with two ways and joint idles. The question is so many nested forward by
/// 0 over so many times "not" over true, so that the quotient is the same on each line.
#[derive(Clone, Copy, Debug)]
struct Equal {
    three_way: usize,
    two_way: usize,
    idles: usize,
    ahead: usize,
    nots: usize,
}

impl Equal {
    /// Label 0 loops alone on each side and by a handshake, label 3 alone on each side.
    fn casebook(self) -> Vec<u8> {
        let three_way = [0, 0, 0].repeat(self.three_way);
        let two_way = [3, 0, 0].repeat(self.two_way);
        let idles = [IDLE, 0, 0].repeat(self.idles);
        let parts = Parts {
            k: 2,
            left: loops(&[0, 1, 3]),
            right: loops(&[0, 2, 3]),
            run: [vec![0, 0], three_way, idles, two_way].concat(),
            question: times(self.ahead, AHEAD, &times(self.nots, NOT, &TRUE)),
        };
        parts.to_bytes()
    }

    /// How many points and how many splittings the log has.
    fn points(self) -> usize {
        self.three_way + self.two_way + self.idles + 1
    }

    fn splittings(self) -> usize {
        3usize.pow(self.three_way as u32) << self.two_way
    }

    /// How many nodes the quotient has: four disjuncts for each look ahead, and three times "or".
    fn nodes(self) -> usize {
        (0..self.ahead).fold(self.nots + 1, |nodes, _| 4 * (1 + nodes) + 3)
    }

    /// The length of the sheet: point, number, text and the rest of each line.
    fn length(self) -> usize {
        let (points, splittings) = (self.points(), self.splittings());
        let rest = 4 * self.nodes() + "  T  T\n".len();
        let lines = points * splittings;
        digits_below(points) * splittings + digits_below(splittings) * points + rest * lines
    }

    /// Whether the casebook is sound, and its sheet not over 12 megabytes.
    fn fits(self) -> bool {
        let sound = self.points() <= 201 && self.splittings() <= 65_535;
        sound && self.nodes() <= 4096 && self.length() < 12_000_000
    }

    /// The first whose sheet is so much longer than a multiple of a block.
    fn found(block: usize, rest: Range<usize>) -> Option<Equal> {
        for at in 0..4 * 9 * 16 * 180 {
            for nots in 0..60 {
                let equal = Equal {
                    ahead: at / (9 * 16 * 180),
                    three_way: at / (16 * 180) % 9,
                    two_way: at / 180 % 16,
                    idles: at % 180,
                    nots,
                };
                let length = equal.length();
                if length >= block && rest.contains(&(length % block)) && equal.fits() {
                    return Some(equal);
                }
            }
        }
        None
    }
}

/// How many digits the numbers below a limit have in all.
fn digits_below(limit: usize) -> usize {
    // One for each number, and one more for each at or above 10, 100 and so on.
    let powers = [10, 100, 1000, 10_000].iter();
    powers.fold(limit, |sum, power| sum + limit.saturating_sub(*power))
}

/// Sheets of over 8 MiB with lines of many lengths.
#[test]
fn over_eight_megabytes() {
    let mut seen = Seen::new("sheets of over 8 MiB");
    for nots in [0, 1, 2, 3, 4, 5, 6, 13, 40] {
        let equal = Equal {
            three_way: 0,
            two_way: 15,
            idles: nots % 4,
            ahead: 0,
            nots,
        };
        let sheet = agree(&equal.casebook());
        assert_eq!(sheet.len(), equal.length());
        assert!(sheet.len() > 8 << 20);
        seen.note(&sheet);
    }
    seen.show();
    assert!(seen.lines > 4_000_000 && seen.holding > 1_000_000);
}

/// The same with lines that differ from each other: nested backs.
#[test]
fn over_eight_megabytes_of_different_lines() {
    let mut seen = Seen::new("sheets of over 8 MiB, lines that differ");
    for (backs, one_way) in [(1, 0), (2, 3), (3, 0), (7, 1), (14, 0), (15, 2), (16, 6)] {
        // One-way steps between the two-way ones.
        let mut labels = vec![1; 15];
        for at in 0..one_way {
            labels.insert(2 * at + 1, [2, 3, IDLE][at % 3]);
        }
        let question = back_along(&labels, backs, &TRUE);
        let sheet = agree(&looping(&labels, question).to_bytes());
        assert!(sheet.len() > 8 << 20);
        seen.note(&sheet);
    }
    seen.show();
    assert!(seen.lines > 3_000_000 && seen.holding > 200_000);
}

/// Over 8 MiB of the longest lines, some of them 17.
#[test]
fn over_eight_megabytes_of_the_longest_lines() {
    let mut seen = Seen::new("sheets of over 8 MiB, longest lines");
    for nots in [0, 1, 2, 3] {
        let parts = Parts {
            k: 4,
            left: loops(&[1]),
            right: loops(&[1, 2, 3, 4, 5, 6, 7, 8]),
            run: [vec![0, 0], [1, 0, 0].repeat(7)].concat(),
            question: times(3, AHEAD, &times(nots, NOT, &TRUE)),
        };
        seen.note(&agree(&parts.to_bytes()));
    }
    seen.show();
    assert!(seen.lines == 4096 && seen.too_large == 1024);
}

/// Sheets whose length is a multiple of a block's, a few bytes more, or a few bytes less.
#[test]
fn sheets_that_end_with_a_block() {
    let mut seen = Seen::new("sheets that end at the end of a block");
    for block in (9..=20).map(|power| 1 << power) {
        for rest in [0..1, 1..5, block - 4..block] {
            let equal = Equal::found(block, rest.clone());
            let equal = equal.unwrap_or_else(|| panic!("no sheet for {block} and {rest:?}"));
            let sheet = agree(&equal.casebook());
            assert!(rest.contains(&(sheet.len() % block)), "{equal:?}");
            seen.note(&sheet);
        }
    }
    seen.show();
    assert_eq!(seen.sheets, 36);
}
