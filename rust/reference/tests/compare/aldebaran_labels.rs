//! Labels of all kinds of bytes: the 31 that are spelled so, and 21 for all others, or 19 where a double quote or a
//! line feed breaks the line.

use crate::aldebaran_both::read_both;
use crate::aldebaran_texts::{line, SPELLINGS};
use crate::both::{number_of, Tally};
use reference::random::Random;

/// Reads a text with this label in the middle of three lines and demands the label that it spells, or the number that
/// it must get.
fn judge(label: &[u8], tally: &mut Tally) {
    let lines = [
        b"des (0,3,2)".to_vec(),
        line(1, "a3?", 1),
        line(1, label, 0),
        line(0, "i", 1),
    ];
    let text = [&lines.join(&b'\n')[..], b"\n"].concat();
    let outcome = read_both(&text, 10);
    let spelled = SPELLINGS
        .iter()
        .position(|spelled| spelled.as_bytes() == label);
    let breaks = label.iter().any(|byte| [b'"', b'\n'].contains(byte));
    match spelled {
        Some(spelled) => {
            let mut rows = [[0, 0, 1], [1, spelled as u8, 0], [1, 6, 1]];
            rows.sort();
            let table = [&[2], &rows.concat()[..]].concat();
            assert_eq!(outcome.as_ref().map(|machine| &machine.table), Ok(&table));
        }
        None => {
            let expected = if breaks { 19 } else { 21 };
            assert_eq!(number_of(&outcome), expected, "{}", label.escape_ascii());
        }
    }
    tally.note(number_of(&outcome));
}

/// Calls this with every word over an alphabet, of each length up to `most`.
fn words(alphabet: &[u8], most: usize, judge: &mut dyn FnMut(&[u8])) {
    let mut shorter = vec![Vec::new()];
    judge(b"");
    for _ in 0..most {
        let longer = |word: &Vec<u8>| {
            let word = word.clone();
            alphabet
                .iter()
                .map(move |byte| [&word[..], &[*byte]].concat())
        };
        shorter = shorter.iter().flat_map(longer).collect();
        for word in &shorter {
            judge(word);
        }
    }
}

/// Every label of one byte and of two bytes.
#[test]
fn labels_of_one_and_two_bytes() {
    let mut tally = Tally::new("Aldebaran labels of at most two bytes");
    let all: Vec<u8> = (0..=255).collect();
    words(&all, 2, &mut |label| judge(label, &mut tally));
    assert_eq!(tally.of(0), 1);
    tally.saw_exactly(&[0, 19, 21]);
}

/// Every word of the characters that labels are spelled with, up to five.
#[test]
fn words_of_label_characters() {
    let mut tally = Tally::new("words of the characters of Aldebaran labels");
    words(b"a01569!?i", 5, &mut |label| judge(label, &mut tally));
    // i, and both marks behind 1, 5, 6, 9, 10, 11 and 15.
    assert_eq!(tally.of(0), 15);
    tally.saw_exactly(&[0, 21]);
}

/// a, every number up to 1,100 and some far beyond, and marks of all sorts.
#[test]
fn labels_of_every_pair() {
    let mut tally = Tally::new("Aldebaran labels of every pair");
    let far = [
        65_535,
        65_536,
        65_537,
        99_999,
        100_001,
        (1 << 32) + 1,
        u64::MAX,
    ];
    for pair in (0..=1100).chain(far) {
        for mark in ["!", "?", "", "!!", "?!", ".", "\0", " "] {
            judge(format!("a{pair}{mark}").as_bytes(), &mut tally);
            judge(format!("a0{pair}{mark}").as_bytes(), &mut tally);
        }
    }
    assert_eq!(tally.of(0), 30);
    tally.saw_exactly(&[0, 21]);
}

/// Every other value of every byte of each label, every byte added anywhere, every byte lost.
#[test]
fn changes_of_every_label() {
    let mut tally = Tally::new("changes of Aldebaran labels");
    for label in SPELLINGS.map(str::as_bytes) {
        for at in 0..=label.len() {
            let (before, behind) = label.split_at(at);
            for value in 0..=255 {
                judge(&[before, &[value], behind].concat(), &mut tally);
                if let Some((_, rest)) = behind.split_first() {
                    judge(&[before, &[value], rest].concat(), &mut tally);
                }
            }
            if let Some((_, rest)) = behind.split_first() {
                judge(&[before, rest].concat(), &mut tally);
            }
        }
    }
    tally.saw_exactly(&[0, 19, 21]);
}

/// Long labels of any bytes, and labels made of pieces of lines.
#[test]
fn long_labels() {
    let mut tally = Tally::new("long Aldebaran labels");
    let mut random = Random::new(311);
    let pieces: [&[u8]; 14] = [
        b"(",
        b")",
        b",",
        b" ",
        b"\r",
        b"\0",
        b"i",
        b"a1!",
        b"a15?",
        b"des (0,3,2)",
        b"0",
        b"\xff",
        b"\\",
        b"'",
    ];
    for _ in 0..6_000 {
        let count = random.from_to(0, 12);
        let label: Vec<&[u8]> = (0..count).map(|_| *random.pick(&pieces)).collect();
        judge(&label.concat(), &mut tally);
        let count = random.from_to(0, 300);
        let mut label = random.bytes(count);
        label.retain(|byte| ![b'"', b'\n'].contains(byte));
        judge(&label, &mut tally);
        // A double quote anywhere in it breaks the line; only a whole line behind it could mend it.
        label.insert(random.from_to(0, label.len()), b'"');
        judge(&label, &mut tally);
    }
    judge(&vec![b'a'; 1 << 20], &mut tally);
    judge(&[&b"a1!"[..], &vec![b' '; 1 << 16]].concat(), &mut tally);
    tally.saw_exactly(&[0, 19, 21]);
}
