//! One fault and two faults at once, with the number that the order of document 01 gives.

use crate::book::{random_book, Book};
use crate::both::{read_both, Tally};
use crate::faults::{faulty_book, Fault, ALL};
use reference::random::Random;

/// Each fault alone, in each record where it can stand, gets its number.
#[test]
fn each_fault_alone() {
    let mut tally = Tally::new("one fault in a sound casebook");
    let mut random = Random::new(11);
    for fault in ALL {
        for record in fault.records() {
            for _ in 0..400 {
                let book = faulty_book(fault, *record, &mut random);
                let number = read_both(&book.bytes());
                assert_eq!(number, fault.number(), "{fault:?} in {record}");
                tally.note(number);
            }
        }
    }
    tally.saw_exactly(&[1, 2, 3, 4, 5, 6, 7, 8, 9, 10, 11]);
}

/// A fault and the record in which it stands.
type Placed = (Fault, usize);

/// Every fault in every record where it can stand.
fn all_placed() -> Vec<Placed> {
    let places = |fault: Fault| fault.records().iter().map(move |record| (fault, *record));
    ALL.into_iter().flat_map(places).collect()
}

/// Contents first, then what follows, the headers and the loss from behind, so that no fault undoes another.
fn order_of_making((fault, record): &Placed) -> (u8, usize) {
    let turn = match fault.stage() {
        3 => 0,
        4 => 1,
        0 => 2,
        1 => 3,
        _ => 4,
    };
    (turn, 5 - record)
}

/// A book with both faults, tried on sound books until one has a place for both.
fn doubly_faulty(mut two: [Placed; 2], random: &mut Random) -> Book {
    two.sort_by_key(order_of_making);
    loop {
        let mut book = random_book(random);
        if two
            .iter()
            .all(|(fault, record)| fault.make(&mut book, *record, random))
        {
            return book;
        }
    }
}

/// Two faults at once: the one that document 01 comes to first gives the number.
#[test]
fn two_faults_at_once() {
    let mut tally = Tally::new("two faults at once");
    let mut random = Random::new(12);
    let placed = all_placed();
    for (place, first) in placed.iter().enumerate() {
        for second in &placed[place + 1..] {
            let rank = |(fault, record): &Placed| (*record, fault.stage());
            for _ in 0..12 {
                let book = doubly_faulty([*first, *second], &mut random);
                let number = read_both(&book.bytes());
                let either = [first.0.number(), second.0.number()];
                assert!(either.contains(&number), "{first:?} {second:?} {number}");
                if rank(first) != rank(second) {
                    let earlier = std::cmp::min_by_key(first, second, |placed| rank(placed));
                    assert_eq!(number, earlier.0.number(), "{first:?} {second:?}");
                }
                tally.note(number);
            }
        }
    }
    // 11 comes last of all, so it never hides another fault.
    tally.saw_exactly(&[1, 2, 3, 4, 5, 6, 7, 8, 9, 10]);
}
