//! Damaged Aldebaran texts: every truncation, every change of one byte, bytes lost and added, exchanged lines, little
//! texts in great numbers, random bytes.

use crate::aldebaran_both::{number_both, read_both};
use crate::aldebaran_document::{CASE_A, THREE_ROWS};
use crate::aldebaran_texts::{line, machine, Draft};
use crate::both::{number_of, Tally};
use reference::random::Random;
use reference::table::MOST_ROWS;

/// An output that is long enough for a small table.
const ROOM: usize = 100;

/// Texts of few lines, among them each limit: a full state, a ninth row, a double, 64 and 65 states.
fn small_texts() -> Vec<Vec<u8>> {
    let from_one = |count: u8| (0..count).map(|to| line(0, "i", to)).collect();
    let mut drafts = vec![
        Draft::with(0, 8, from_one(8)),
        Draft::with(8, 9, from_one(9)),
        Draft::with(63, 64, vec![line(63, "a15!", 63), line(63, "a14!", 63)]),
        Draft::with(1, 65, vec![line(10, "a1?", 11)]),
        Draft::with(
            1,
            2,
            vec![line(1, "a9!", 1), line(0, "i", 0), line(1, "a9!", 1)],
        ),
        Draft::with(0, 1, vec![line(0, "a10?", 0), line(0, "", 0)]),
    ];
    let mut random = Random::new(321);
    for seed in 0..4 {
        let (table, first) = machine(seed);
        let draft = Draft::of(&table, first).shuffled(&mut random);
        drafts.push(draft);
    }
    let made_by_hand = [CASE_A, THREE_ROWS, "des (0,0,1)\n"];
    let by_hand = made_by_hand.map(|text| text.as_bytes().to_vec());
    by_hand
        .into_iter()
        .chain(drafts.iter().map(Draft::to_bytes))
        .collect()
}

/// The number of a small text.
fn number(text: &[u8]) -> u8 {
    number_of(&read_both(text, ROOM))
}

/// Every truncation, with the rest of the text behind the lent part: 19 but for ends of lines, and there 20.
#[test]
fn every_truncation() {
    let mut tally = Tally::new("truncated Aldebaran texts");
    let (full, first) = machine(7);
    assert_eq!(full.rows.len(), 64 * MOST_ROWS);
    let mut texts = small_texts();
    texts.push(Draft::of(&full, first).to_bytes());
    for text in texts {
        for end in 0..text.len() {
            let outcome = number_both(&text[..end]);
            let whole_lines = end > 0 && text[end - 1] == b'\n';
            assert_eq!(outcome, if whole_lines { 20 } else { 19 }, "{end}");
            tally.note(outcome);
        }
        tally.note(number_both(&text));
        // A text that begins later than at its header has none.
        for begin in 1..text.len().min(300) {
            assert_eq!(number_both(&text[begin..]), 19);
            tally.note(19);
        }
    }
    tally.saw_exactly(&[0, 5, 6, 7, 19, 20, 21]);
}

/// Every value of every byte.
#[test]
fn every_change_of_one_byte() {
    let mut tally = Tally::new("every one-byte change of Aldebaran texts");
    for mut text in small_texts() {
        for at in 0..text.len() {
            let kept = text[at];
            for value in 0..=255 {
                text[at] = value;
                tally.note(number(&text));
            }
            text[at] = kept;
        }
    }
    tally.saw_exactly(&[0, 5, 6, 7, 19, 20, 21]);
}

/// Every byte added at every place, every byte lost, every two neighbours exchanged.
#[test]
fn bytes_added_lost_and_exchanged() {
    let mut tally = Tally::new("bytes added to Aldebaran texts, lost, exchanged");
    for text in small_texts() {
        for at in 0..=text.len() {
            let (before, behind) = text.split_at(at);
            for value in 0..=255 {
                tally.note(number(&[before, &[value], behind].concat()));
            }
            if let Some((first, rest)) = behind.split_first() {
                tally.note(number(&[before, rest].concat()));
                if let Some((second, rest)) = rest.split_first() {
                    tally.note(number(&[before, &[*second, *first], rest].concat()));
                }
            }
        }
    }
    tally.saw_exactly(&[0, 5, 6, 7, 19, 20, 21]);
}

/// A line lost, said twice, moved to the front or put in another's place, with the count as it was and made right.
#[test]
fn lines_lost_and_moved() {
    let mut tally = Tally::new("lines of Aldebaran texts lost, doubled, moved");
    let mut random = Random::new(322);
    for seed in 0..400 {
        let (table, first) = machine(8 * seed + seed % 8);
        let draft = Draft::of(&table, first).shuffled(&mut random);
        if draft.lines.is_empty() {
            continue;
        }
        let [at, other] = [0; 2].map(|_| random.below(draft.lines.len()));
        for change in 0..5 {
            let mut changed = draft.clone();
            let line = changed.lines[at].clone();
            match change {
                0 => drop(changed.lines.remove(at)),
                1 => changed.lines.push(line),
                2 => changed.lines.insert(0, line),
                3 => changed.lines[other] = line,
                _ => changed.lines.insert(at, changed.header()),
            }
            tally.note(number_both(&changed.to_bytes()));
            changed.count = changed.lines.len().to_string();
            tally.note(number_both(&changed.to_bytes()));
        }
    }
    tally.saw_exactly(&[0, 6, 19, 20]);
}

/// All texts of at most two rows over three states, three labels and small headers.
#[test]
fn all_little_texts() {
    let mut tally = Tally::new("little Aldebaran texts");
    let mut lines = Vec::new();
    for (from, to) in (0..3).flat_map(|from| (0..3).map(move |to| (from, to))) {
        lines.extend(["i", "a1!", "a16?"].map(|label| line(from, label, to)));
    }
    let mut bodies = vec![Vec::new()];
    bodies.extend(lines.iter().map(|line| vec![line.clone()]));
    for first in &lines {
        bodies.extend(
            lines
                .iter()
                .map(|second| vec![first.clone(), second.clone()]),
        );
    }
    for body in bodies {
        for (first, states) in (0..3).flat_map(|first| (0..4).map(move |states| (first, states))) {
            let mut draft = Draft::with(first, states, body.clone());
            for count in 0..3 {
                draft.count = count.to_string();
                tally.note(number(&draft.to_bytes()));
            }
        }
    }
    tally.saw_exactly(&[0, 5, 6, 20, 21]);
}

/// Random bytes, random words of the form's own pieces, and sound texts with several random bytes.
#[test]
fn random_texts() {
    let mut tally = Tally::new("random Aldebaran texts");
    let mut random = Random::new(323);
    let pieces: [&[u8]; 18] = [
        b"des (",
        b"0",
        b"1",
        b"2",
        b",",
        b")",
        b"(",
        b"\"",
        b"i",
        b"a1!",
        b"\n",
        b" ",
        b"\r",
        b"des (0,1,2)\n",
        b"des (0,2,2)\n",
        b"(0,\"i\",1)\n",
        b"(1,\"a2?\",0)\n",
        b"(0,\"\",3)\n",
    ];
    for seed in 0..30_000 {
        let count = random.from_to(0, 60);
        tally.note(number(&random.bytes(count)));
        let words = (0..random.from_to(1, 8)).map(|_| *random.pick(&pieces));
        tally.note(number(&words.collect::<Vec<_>>().concat()));
        let header = *random.pick(&pieces[13..15]);
        let lines = (0..random.from_to(0, 3)).map(|_| *random.pick(&pieces[15..]));
        let lines = lines.collect::<Vec<_>>().concat();
        tally.note(number(&[header, &lines].concat()));
        let (table, first) = machine(seed % 4);
        let mut text = Draft::of(&table, first).to_bytes();
        for _ in 0..random.from_to(1, 3) {
            let at = random.below(text.len());
            text[at] = *random.pick(b"0123456789ia!?,\"()\n ");
        }
        tally.note(number(&text));
    }
    tally.saw_exactly(&[0, 5, 6, 19, 20, 21]);
}
