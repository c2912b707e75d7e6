//! Whatever the command is lent, it ends with a status of its own and does not panic.

use reference::random::Random;

use crate::books::{seeded, CASE_A};
use crate::plain_places::plain_place;
use crate::program::{run, run_with, Ran};
use crate::unnamed::note;

/// Demands a status of the command's own, which is 0 exactly if standard error has nothing, or nothing but the note of a
/// call that names no side, on one of the files that are lent here.
fn ended(ran: &Ran, what: &str) {
    assert!(matches!(ran.status, Some(0..=2)), "{what}: {ran:?}");
    assert!(!ran.err.contains("panicked"), "{what}: {}", ran.err);
    let notes = ["standard input", "cases/a.casebook"].map(note);
    let fine = ran.err.is_empty() || notes.contains(&ran.err);
    assert_eq!(ran.status == Some(0), fine, "{what}: {ran:?}");
}

/// Random bytes, changed casebooks and cut ones: number and place are those of the plain implementation.
#[test]
fn random_casebooks() {
    let mut random = Random::new(91);
    let books = seeded(24);
    let mut numbers = [0; 12];
    for _ in 0..1_500 {
        let bytes = damaged(&mut random, &books);
        let ran = run_with(&["check", "-"], &bytes);
        let expected = reference::casebook::read(&bytes).err();
        let status = if expected.is_some() { 1 } else { 0 };
        assert_eq!(
            (ran.status, ran.err.as_str()),
            (Some(status), ""),
            "{bytes:?}"
        );
        let begin = match expected {
            Some(number) => format!("standard input: refused {number}: "),
            None => "standard input: sound: ".to_string(),
        };
        assert!(ran.text().starts_with(&begin), "{bytes:?}: {}", ran.text());
        let placed = ran.text().contains("byte");
        assert_eq!(placed, expected.is_some(), "{bytes:?}: {}", ran.text());
        let place = expected.and_then(|number| plain_place(&bytes, number));
        let place = place.unwrap_or_default();
        assert!(
            ran.text().contains(&place),
            "{bytes:?}: {} {place}",
            ran.text()
        );
        numbers[usize::from(expected.unwrap_or(0))] += 1;
    }
    // A ninth row and a fifth forward are too rare to be met at random; `places.rs` has them.
    let rare = [7, 10];
    let met = |number: &usize| numbers[*number] > 0 || rare.contains(number);
    assert!((0..=11).all(|number| met(&number)), "{numbers:?}");
}

/// Random bytes, or a casebook with some bytes changed, lost or added.
fn damaged(random: &mut Random, books: &[Vec<u8>]) -> Vec<u8> {
    if random.once_in(10) {
        let length = random.from_to(0, 60);
        return random.bytes(length);
    }
    let mut bytes = match random.once_in(2) {
        true => CASE_A.to_vec(),
        false => random.pick(books).clone(),
    };
    for _ in 0..random.from_to(1, 2) {
        let at = random.below(bytes.len());
        match random.below(8) {
            0 => bytes.truncate(at.max(1)),
            1 => bytes.push(random.byte(0, 9)),
            2 => bytes[at] = random.byte(0, 255),
            _ => bytes[at] = random.byte(0, 9),
        }
    }
    bytes
}

/// Case A as it is and damaged casebooks to every other subcommand.
#[test]
fn random_casebooks_to_all() {
    let mut random = Random::new(92);
    let books = seeded(8);
    let commands: [&[&str]; 9] = [
        &["show", "-"],
        &["show", "--text", "-"],
        &["show", "--dot", "-"],
        &["sheet", "-"],
        &["split", "--number", "0", "-"],
        &["join", "--left", "0,1:1", "--right", "0,2:1", "-"],
        &["verdict", "-"],
        &["quotient", "--splitting", "0", "-"],
        &["write", "-"],
    ];
    for arguments in commands {
        ended(&run_with(arguments, &CASE_A), &format!("{arguments:?}"));
    }
    for round in 0..450 {
        let bytes = damaged(&mut random, &books);
        let arguments = commands[round % commands.len()];
        ended(
            &run_with(arguments, &bytes),
            &format!("{arguments:?} {bytes:?}"),
        );
    }
}

/// The pieces of which random texts are made.
const PIECES: [&str; 32] = [
    "pairs",
    "left",
    "right",
    "log",
    "question",
    "0",
    "1",
    "2",
    "3",
    "15",
    "16",
    "64",
    "255",
    "256",
    "idle",
    "true",
    "false",
    "not",
    "and",
    "or",
    "<",
    ">",
    "-",
    "(",
    ")",
    "#",
    "\n",
    "\n",
    "\u{e9}",
    "\0",
    "\r\n",
    "99999999999",
];

/// Random texts, and texts with pieces changed, lost or added.
#[test]
fn random_texts() {
    let mut random = Random::new(93);
    let text = "pairs 2 \n left 2 \n 0 1 1 \n 0 3 1 \n right 2 \n 0 2 1 \n log 0 0 \n 1 1 0 \n question ( < - 1 > true and not < 2 > false ) or true";
    let mut statuses = [0; 3];
    for _ in 0..1_500 {
        let text = match random.once_in(4) {
            true => {
                let count = random.from_to(0, 30);
                let pieces: Vec<&str> = (0..count).map(|_| *random.pick(&PIECES)).collect();
                pieces.join(" ")
            }
            false => changed(&mut random, text),
        };
        let ran = run_with(&["write", "-"], text.as_bytes());
        ended(&ran, &text);
        statuses[ran.status.unwrap_or(0) as usize] += 1;
    }
    assert!(statuses.iter().all(|met| *met > 50), "{statuses:?}");
}

/// A text with a few of its pieces changed, lost or added.
fn changed(random: &mut Random, text: &str) -> String {
    let mut pieces: Vec<&str> = text.split(' ').collect();
    for _ in 0..random.from_to(1, 2) {
        let at = random.below(pieces.len());
        let is_number = pieces[at].parse::<u8>().is_ok();
        match random.below(8) {
            0 => drop(pieces.remove(at)),
            1 => pieces.insert(at, *random.pick(&PIECES)),
            2 => pieces[at] = *random.pick(&PIECES),
            _ if is_number => pieces[at] = *random.pick(&["0", "1", "2", "3", "9", "256"]),
            _ => {}
        }
    }
    pieces.join(" ")
}

/// Random statements and halves as options.
#[test]
fn random_options() {
    let mut random = Random::new(94);
    for _ in 0..300 {
        let count = random.from_to(0, 9);
        let pieces: Vec<&str> = (0..count).map(|_| *random.pick(&PIECES)).collect();
        let statement = pieces.join(" ").replace('\0', "");
        let arguments = ["verdict", "-", "--formula", &statement];
        ended(&run_with(&arguments, &CASE_A), &statement);
    }
    for _ in 0..300 {
        let half = |random: &mut Random| {
            let signs = ["0", "1", "2", ",", ",", ":", "idle", "7", "255", "x"];
            let count = random.from_to(0, 9);
            (0..count).map(|_| *random.pick(&signs)).collect::<String>()
        };
        let (left, right) = (half(&mut random), half(&mut random));
        let hex: &[&str] = if random.once_in(3) { &["--hex"] } else { &[] };
        let arguments = [&["join", "-", "--left", &left, "--right", &right], hex].concat();
        ended(&run_with(&arguments, &CASE_A), &format!("{left} {right}"));
    }
}

/// Random arguments.
#[test]
fn random_arguments() {
    let mut random = Random::new(95);
    let words = [
        "check",
        "show",
        "sheet",
        "split",
        "join",
        "verdict",
        "quotient",
        "write",
        "--help",
        "-h",
        "--version",
        "--",
        "-",
        "--all",
        "--hex",
        "--number",
        "--number=1",
        "--splitting=0",
        "--half",
        "left",
        "--known=right",
        "--point",
        "0",
        "cases/a.casebook",
        "--line-office",
        "--formula=true",
        "-o",
        "-x",
        "--=",
        "-=",
        "",
        "--output=-",
        "=",
    ];
    for _ in 0..600 {
        let count = random.from_to(0, 6);
        let mut arguments: Vec<&str> = (0..count).map(|_| *random.pick(&words)).collect();
        // No file is written here.
        arguments.retain(|word| *word != "-o");
        ended(&run(&arguments), &format!("{arguments:?}"));
    }
}
