//! All values of every header field.

use crate::book::Book;
use crate::both::{read_both, Tally};
use crate::handmade::case_a;
use reference::casebook;

/// Case A as a book whose headers can be changed.
fn case_a_book() -> Book {
    let bytes = case_a();
    Book::of(&casebook::read(&bytes).unwrap().parts(&bytes))
}

/// Every length of every record of case A, the bodies left as they are.
#[test]
fn every_length() {
    let mut tally = Tally::new("every length field in case A");
    for record in 0..5 {
        let mut book = case_a_book();
        for length in 0..=65535 {
            book.records[record].length = length;
            tally.note(read_both(&book.bytes()));
        }
    }
    assert_eq!(tally.of(0), 5);
    tally.saw_exactly(&[0, 1, 2, 3, 5, 8, 9]);
}

/// Every kind of every record of case A: only the one due is accepted, all others are 2.
#[test]
fn every_kind() {
    let mut tally = Tally::new("every kind field in case A");
    for record in 0..5 {
        let mut book = case_a_book();
        for kind in 0..=65535 {
            book.records[record].kind = kind;
            tally.note(read_both(&book.bytes()));
        }
    }
    assert_eq!(tally.of(0), 5);
    tally.saw_exactly(&[0, 2]);
}

/// Contents that stay sound at every length a record of this kind may have.
fn contents(record: usize, size: usize) -> Vec<u8> {
    let mut body = match record {
        0 => vec![2],
        1 | 2 => vec![64],
        3 => vec![0, 0],
        _ => Vec::new(),
    };
    // Eight rows from each state, to states 0 to 7, by the silent step.
    let rows = (0..=255u8).flat_map(|from| (0..8).flat_map(move |to| [from, 0, to]));
    match record {
        0 => body.resize(size.max(1), 0),
        1 | 2 => body.extend(rows),
        3 => body.extend([255, 0, 0].repeat(size)),
        _ => body.extend([2, 0].repeat(size / 2 + 1)),
    }
    body.truncate(size);
    if record == 4 && size >= 2 {
        body[size - size % 2 - 2] = 0;
    }
    body
}

/// Every length with a body of just that length, sound but for the length: the table of records, or 3.
#[test]
fn every_length_with_its_body() {
    let mut tally = Tally::new("every length up to 1,700 with its body");
    let mut fit = [0; 5];
    for (record, fit) in fit.iter_mut().enumerate() {
        for size in 0..=1700 {
            let mut book = case_a_book();
            if record == 1 || record == 2 {
                book.set_body(3, vec![0, 0]);
            }
            book.set_body(record, contents(record, size));
            let number = read_both(&book.bytes());
            assert!(number == 0 || number == 3, "record {record}, size {size}");
            *fit += (number == 0) as usize;
            tally.note(number);
        }
    }
    // One length; 0 to 512 rows; 0 to 512 rows; 0 to 200 steps; 1 to 64 nodes.
    assert_eq!(fit, [1, 513, 513, 201, 64]);
    tally.saw_exactly(&[0, 3]);
}
