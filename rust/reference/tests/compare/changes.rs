//! Changed bytes and random bytes.

use crate::both::{read_both, Tally};
use crate::handmade::case_a;
use crate::sound::parts_number;
use reference::casebook::Parts;
use reference::random::Random;

/// Eight rows from one state before a row from the next, and four nested forward modalities.
fn at_the_limits() -> Vec<u8> {
    let mut left = vec![8];
    left.extend((0..8).flat_map(|to| [0, 0, to]));
    left.extend([1, 1, 0]);
    let parts = Parts {
        k: 1,
        left,
        right: vec![2, 0, 1, 1, 0, 2, 1],
        run: vec![0, 0, 0, 7, 0, 1, 7, 1],
        question: vec![5, 0, 7, 0, 5, 1, 7, 0, 2, 0, 0, 0],
    };
    parts.to_bytes()
}

/// Every other value of every byte of some small casebooks.
#[test]
fn every_change_of_one_byte_of_small_ones() {
    let mut tally = Tally::new("every one-byte change of small casebooks");
    let mut books = vec![case_a(), at_the_limits()];
    books.extend((0..14).map(|seed| parts_number(seed * 16 + 11).to_bytes()));
    for book in &mut books {
        for at in 0..book.len() {
            let kept = book[at];
            for value in (0..=255).filter(|value| *value != kept) {
                book[at] = value;
                tally.note(read_both(book));
            }
            book[at] = kept;
        }
    }
    // 11 needs a second change: no tree begins another, so a shorter question is 9.
    tally.saw_exactly(&[0, 1, 2, 3, 4, 5, 6, 7, 8, 9, 10]);
}

/// Puts `count` random changes into a copy, near ones and far ones.
fn changed(random: &mut Random, book: &[u8], count: usize) -> Vec<u8> {
    let mut bytes = book.to_vec();
    for _ in 0..count {
        let at = random.below(bytes.len());
        bytes[at] = match random.below(4) {
            0 => bytes[at].wrapping_add(1),
            1 => bytes[at].wrapping_sub(1),
            2 => random.byte(0, 8),
            _ => random.byte(0, 255),
        };
    }
    bytes
}

/// Random one-byte changes of large casebooks.
#[test]
fn some_changes_of_one_byte_of_large_ones() {
    let mut tally = Tally::new("one-byte changes of large casebooks");
    let mut random = Random::new(77);
    for seed in 0..96 {
        let book = parts_number(seed * 8).to_bytes();
        for _ in 0..60 {
            let bytes = changed(&mut random, &book, 1);
            tally.note(read_both(&bytes));
        }
    }
    tally.at_least(1, &[0, 1, 2, 3, 4, 5, 6, 8, 9, 10]);
}

/// Two, three and four bytes changed at once, in small and large casebooks.
#[test]
fn several_changes_at_once() {
    let mut tally = Tally::new("two to four changes at once");
    let mut random = Random::new(78);
    for seed in 0..640 {
        let book = parts_number(seed).to_bytes();
        let times = if book.len() < 200 { 120 } else { 6 };
        for _ in 0..times {
            let count = random.from_to(2, 4);
            let bytes = changed(&mut random, &book, count);
            tally.note(read_both(&bytes));
        }
    }
    tally.at_least(100, &[0, 1, 2, 3, 4, 5, 6, 8, 9]);
}

/// Bytes taken out and put in, so that all that follows lies elsewhere.
#[test]
fn bytes_taken_out_and_put_in() {
    let mut tally = Tally::new("bytes taken out or put in");
    let mut random = Random::new(79);
    for seed in 0..320 {
        let book = parts_number(seed * 2 + 1).to_bytes();
        for _ in 0..24 {
            let mut bytes = book.clone();
            let at = random.below(bytes.len());
            if random.once_in(2) {
                bytes.remove(at);
            } else {
                let value = random.byte(0, 9);
                bytes.insert(at, value);
            }
            tally.note(read_both(&bytes));
        }
    }
    assert_eq!(tally.of(0), 0, "every length has changed");
    tally.at_least(10, &[1, 2, 5, 6, 8, 9, 11]);
}

/// Inputs of a megabyte and more: what was decided early stays decided.
#[test]
fn very_long_inputs() {
    let mut tally = Tally::new("very long inputs");
    let wild = Random::new(81).bytes(1 << 20);
    for seed in 0..16 {
        let book = parts_number(seed).to_bytes();
        let number = read_both(&[&book[..], &wild].concat());
        assert_eq!(number, 11, "seed {seed}");
        tally.note(number);
    }
    tally.note(read_both(&wild));
    tally.note(read_both(&vec![0; 5 << 20]));
    tally.saw_exactly(&[2, 11]);
}

/// Random bytes of lengths 0 to 300, alone and behind the beginning of a sound casebook.
#[test]
fn random_bytes() {
    let mut wild = Tally::new("random bytes");
    let mut behind = Tally::new("random bytes behind a sound beginning");
    let mut random = Random::new(80);
    for length in 0..=300 {
        for seed in 0..40 {
            let most = *random.pick(&[2, 9, 64, 255]);
            let tail: Vec<u8> = (0..length).map(|_| random.byte(0, most)).collect();
            wild.note(read_both(&tail));
            let book = parts_number(seed * 16 + 8 + seed % 8).to_bytes();
            let keep = random.from_to(0, book.len());
            let bytes = [&book[..keep], &tail].concat();
            behind.note(read_both(&bytes));
        }
    }
    wild.at_least(160, &[1, 2]);
    behind.at_least(20, &[1, 2, 3, 4, 5, 6, 8, 9, 11]);
}
