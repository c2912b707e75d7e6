//! The places that `table` names in damaged Aldebaran texts: the engine, asked about beginnings of the text, must find
//! the fault where the command does.

use reference::random::Random;
use yenuslap::{read_aldebaran, MOST_TABLE};

use crate::program::run_with;

/// The engine's number for a text, 0 if it is read.
fn number(text: &[u8]) -> u32 {
    let mut out = [0; MOST_TABLE];
    read_aldebaran(text, &mut out).map_or_else(|refusal| refusal.number(), |_| 0)
}

/// A text of the form: few states and labels, so that faults of every number come about.
fn text(random: &mut Random) -> Vec<u8> {
    let states = random.from_to(1, 3);
    let labels = ["i", "a1!", "a1?", "a2!", "a2?", "a15?"];
    let doubles = random.once_in(4);
    let mut rows: Vec<String> = Vec::new();
    for _ in 0..random.below(24) {
        let (from, to) = (random.below(states), random.below(states));
        let row = format!("({from},\"{}\",{to})\n", random.pick(&labels));
        if doubles || !rows.contains(&row) {
            rows.push(row);
        }
    }
    let count = rows.len() + random.once_in(16) as usize;
    let header = format!("des ({},{count},{states})\n", random.below(states));
    (header + &rows.concat()).into_bytes()
}

/// Signs of the form and others.
const ANY: &[u8] = b"0123456789(),\"\n\r\t aides!?\xff\0";
/// Signs that `--tidy` takes out in many places.
const UNTIDY: &[u8] = b" \t0\r\n\"x";

/// Damages a text: signs put in, taken out or put over others.
fn damage(random: &mut Random, signs: &[u8], text: &mut Vec<u8>) {
    for _ in 0..random.below(3) {
        let at = random.below(text.len() + 1);
        match random.below(4) {
            0 if at < text.len() => {
                text.remove(at);
            }
            1 if at < text.len() => text[at] = *random.pick(signs),
            _ => text.insert(at, *random.pick(signs)),
        }
    }
}

/// The number and the line that the command names.
fn told(err: &str) -> (u32, usize) {
    let rest = err.strip_prefix("yenuslap: standard input: refused ");
    let (number, rest) = rest.and_then(|rest| rest.split_once(": line ")).expect(err);
    let (line, rest) = rest.split_once(", column ").expect(err);
    let column = rest.split(':').next().unwrap();
    assert!(column.parse::<usize>().unwrap() > 0);
    (number.parse().unwrap(), line.parse().unwrap())
}

/// The text up to a line, with a header that counts the rows that are left.
fn up_to(text: &[u8], line: usize) -> Vec<u8> {
    let lines: Vec<&[u8]> = text.split_inclusive(|byte| *byte == b'\n').collect();
    let header = String::from_utf8(lines[0].to_vec()).expect("a header of the form");
    let mut numbers = header.split(',');
    let (first, states) = (numbers.next().unwrap(), numbers.nth(1).unwrap());
    let header = format!("{first},{},{states}", line - 1).into_bytes();
    [header, lines[1..line].concat()].concat()
}

/// The line is the first whose beginning of the text is refused under the number; 20 and the number of states are the
/// header's.
fn is_first_place(text: &[u8], number_told: u32, line: usize) -> bool {
    match number_told {
        19 => {
            let lines: Vec<&[u8]> = text.split_inclusive(|byte| *byte == b'\n').collect();
            let before = lines[..line - 1].concat();
            let with = lines[..line.min(lines.len())].concat();
            (line == 1 || number(&before) != 19) && number(&with) == 19
        }
        20 => line == 1,
        _ if line == 1 => number_told == 5 && number(&up_to(text, 1)) == 5,
        _ => {
            number(&up_to(text, line - 1)) != number_told
                && number(&up_to(text, line)) == number_told
        }
    }
}

/// Damaged texts: the command's number is the engine's, and its line is where the engine finds the fault.
#[test]
fn damaged_texts() {
    let mut random = Random::new(112);
    let mut seen = [0; 22];
    for _ in 0..1_500 {
        let mut text = text(&mut random);
        damage(&mut random, ANY, &mut text);
        let ran = run_with(&["table", "-"], &text);
        let number = number(&text);
        seen[number as usize] += 1;
        let shown = String::from_utf8_lossy(&text).into_owned();
        if number == 0 {
            assert_eq!((ran.status, ran.err.as_str()), (Some(0), ""), "{shown}");
            continue;
        }
        assert_eq!((ran.status, ran.out.len()), (Some(1), 0), "{shown}");
        let (told, line) = told(&ran.err);
        assert_eq!(told, number, "{shown}");
        assert!(is_first_place(&text, told, line), "{shown}{}", ran.err);
    }
    for number in [0, 5, 6, 7, 19, 20, 21] {
        assert!(seen[number] >= 5, "{number}: {seen:?}");
    }
}

/// A hint that `--tidy` repairs a line is kept: with it the text is not refused there any more. Without a hint, what is
/// refused as 19 is so with `--tidy` too.
#[test]
fn kept_hints() {
    let mut random = Random::new(12);
    let (mut hinted, mut plain) = (0, 0);
    for _ in 0..1_000 {
        let mut text = text(&mut random);
        damage(&mut random, UNTIDY, &mut text);
        let ran = run_with(&["table", "-"], &text);
        if !ran
            .err
            .starts_with("yenuslap: standard input: refused 19: ")
        {
            continue;
        }
        let (_, line) = told(&ran.err);
        let tidied = run_with(&["table", "-", "--tidy"], &text);
        let last = tidied.err.lines().last().unwrap_or("");
        let begin = "yenuslap: standard input: refused 19: line ";
        let still = last.strip_prefix(begin).is_some_and(|rest| {
            let (at, _) = rest.split_once(',').unwrap();
            at.parse::<usize>().unwrap() <= line
        });
        let hint = ran.err.ends_with("; --tidy repairs this\n");
        assert_eq!(
            hint,
            !still,
            "{}{}{}",
            String::from_utf8_lossy(&text),
            ran.err,
            tidied.err
        );
        hinted += hint as usize;
        plain += !hint as usize;
    }
    assert!(
        hinted > 50 && plain > 50,
        "{hinted} with a hint, {plain} without"
    );
}
