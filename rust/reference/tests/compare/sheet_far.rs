//! Lines far down in sheets that are too long to be made whole: each is made by itself.

use crate::both::Tally;
use crate::sheet_both::{lines_both, Block};
use crate::sheet_inputs::{back_along, looping, loops, made_to_measure, TRUE};
use reference::casebook::Parts;
use reference::label::IDLE;
use reference::sheet::line;

/// A casebook with its parts, and how many splittings its log has.
struct Long {
    parts: Parts,
    casebook: Vec<u8>,
    splittings: usize,
}

impl Long {
    fn of(parts: Parts, splittings: usize) -> Long {
        Long {
            casebook: parts.to_bytes(),
            parts,
            splittings,
        }
    }

    /// How many lines the sheet has.
    fn total(&self) -> usize {
        (self.parts.steps() + 1) * self.splittings
    }

    /// The lines from one on, at most so many.
    fn lines(&self, first: usize, most: usize) -> Vec<Vec<u8>> {
        let end = first.saturating_add(most).min(self.total());
        let made = |at| line(&self.parts, at / self.splittings, at % self.splittings);
        (first..end)
            .map(|at| made(at).unwrap().into_bytes())
            .collect()
    }

    /// Compares blocks from this line on: outputs that end with a line, and one byte before and behind.
    fn compare(&self, first: usize, most: usize, tally: &mut Tally) {
        let due = self.lines(first, most);
        for lines in [1, due.len()] {
            let end: usize = due.iter().take(lines).map(Vec::len).sum();
            for room in [end.saturating_sub(1), end, end + 1] {
                let block = Block { first, most, room };
                tally.note(lines_both(&self.casebook, &due, block).0);
            }
        }
    }

    /// Lines where numbers get a digit more, where a point ends, at the end and behind it.
    fn places(&self) -> Vec<usize> {
        let digits = [0, 9, 99, 999, 9999];
        let at_points = [0, 1, 9, 10, 99, 100, self.parts.steps()];
        let mut places = vec![65_534, 65_536, self.total() - 1, self.total(), usize::MAX];
        for point in at_points {
            places.extend(digits.map(|number| point * self.splittings + number));
            places.push((point + 1) * self.splittings - 2);
        }
        places
    }
}

/// 15 two-way steps among 185 idles, a question that looks back along the last two-way steps.
#[test]
fn lines_of_six_million() {
    let mut tally = Tally::new("lines far down");
    let labels: Vec<u8> = (0..200)
        .map(|at| if at % 13 == 5 { 1 } else { IDLE })
        .collect();
    for question in [TRUE.to_vec(), back_along(&labels[..100], 5, &TRUE)] {
        let long = Long::of(looping(&labels, question), 1 << 15);
        assert_eq!(long.total(), 201 << 15);
        for first in long.places() {
            long.compare(first, 4, &mut tally);
        }
    }
    tally.saw_exactly(&[0, 18]);
}

/// Five steps of nine ways: 59,049 splittings.
#[test]
fn lines_of_nine_ways() {
    let mut tally = Tally::new("lines far down, nine ways");
    let parts = Parts {
        k: 15,
        left: loops(&[0, 1, 3, 5, 7, 9, 11, 13]),
        right: loops(&[0, 2, 4, 6, 8, 10, 12, 14]),
        run: [vec![0, 0], [0, 0, 0].repeat(5)].concat(),
        question: vec![6, 0, 6, 0, 0, 0],
    };
    let long = Long::of(parts, 9usize.pow(5));
    for first in long.places() {
        long.compare(first, 30, &mut tally);
    }
    tally.saw_exactly(&[0, 18]);
}

/// The longest line there is: three digits of the point, five of the number, 4,096 nodes.
#[test]
fn the_longest_line() {
    let mut tally = Tally::new("the longest lines");
    let run = [vec![0, 0], [1, 0, 0].repeat(15), [IDLE, 0, 0].repeat(185)];
    let parts = Parts {
        k: 4,
        left: loops(&[1, 2]),
        right: loops(&[1, 2, 3, 4, 5, 6, 7, 8]),
        run: run.concat(),
        question: made_to_measure(4096),
    };
    let long = Long::of(parts, 1 << 15);
    let last = long.total() - 1;
    assert_eq!(long.lines(last, 1)[0].len(), yenuslap::MOST_LINE);
    for first in [last, last - 1, last - 3] {
        long.compare(first, 3, &mut tally);
    }
    tally.saw_exactly(&[0, 18]);
}
