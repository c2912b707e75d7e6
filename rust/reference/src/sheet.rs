//! The sheet of a casebook: a line for each point and each splitting, or one line with a refusal.

mod division;
mod judge;
mod lines;
mod quick;

pub use quick::write_sheet;

use crate::casebook::{self, Parts};
use crate::cut::Side;
use crate::formula::QUOTIENT_NODES;
use crate::quotient::{by_number, Asked, Known};
use crate::run::MOST_STEPS;
use crate::splitting::{count, split};
use crate::verdict::{half, joint};
use crate::Refusal;

/// The bytes of the longest half run, and of the largest quotient.
const HALF: usize = 1 + 2 * MOST_STEPS;
const QUOTIENT: usize = 2 * QUOTIENT_NODES;

/// The sheet, each line found by itself from the casebook's parts; `write_sheet` gives the same bytes sooner.
pub fn sheet(bytes: &[u8]) -> Vec<u8> {
    let text = match all_lines(bytes) {
        Ok(lines) => lines,
        Err(number) => format!("R {number}\n"),
    };
    text.into_bytes()
}

/// Every line: points from 0, and within a point the splittings of the whole run; 1 to 11, then 13.
fn all_lines(bytes: &[u8]) -> Result<String, Refusal> {
    let parts = casebook::read(bytes)?.parts(bytes);
    let splittings = count(parts.k, &parts.left, &parts.right, &parts.run)?;
    let mut lines = String::new();
    for point in 0..=parts.steps() {
        for number in 0..splittings {
            lines.push_str(&line(&parts, point, number)?);
        }
    }
    Ok(lines)
}

/// One line: point, number, joint verdict, quotient by the right half, left half's verdict. It is refused as the calls
/// for these are, 17 aside, which is in the line.
pub fn line(parts: &Parts, point: usize, number: usize) -> Result<String, Refusal> {
    let Parts { k, left, right, .. } = parts;
    let (run, question) = (&parts.run, &parts.question);
    let whole = letter(joint(*k, left, right, run, question, point)?);
    let (text, part) = match right_quotient(parts, point, number) {
        Err(17) => ("17".to_string(), '-'),
        Err(other) => return Err(other),
        Ok(quotient) => {
            let [left_half, _] = split(*k, left, right, run, number, [HALF; 2])?;
            let verdict = half(*k, left, &left_half, &quotient, point)?;
            (hexadecimal(&quotient), letter(verdict))
        }
    };
    Ok(format!("{point} {number} {whole} {text} {part}\n"))
}

/// The question's quotient by the right half of a splitting, stopped at a point.
fn right_quotient(parts: &Parts, point: usize, number: usize) -> Result<Vec<u8>, Refusal> {
    let asked = Asked {
        k: parts.k,
        left: &parts.left,
        right: &parts.right,
        question: &parts.question,
    };
    let side = Side::Right;
    by_number(asked, &parts.run, number, Known { side, point }, QUOTIENT)
}

/// A verdict as a letter.
fn letter(verdict: bool) -> char {
    match verdict {
        true => 'T',
        false => 'F',
    }
}

/// Bytes in lower-case hexadecimal.
fn hexadecimal(bytes: &[u8]) -> String {
    bytes.iter().map(|byte| format!("{byte:02x}")).collect()
}

#[cfg(test)]
mod tests {
    use super::*;
    use crate::generate::{many_ways_parts, sound_parts, Shape};
    use crate::random::Random;

    /// The sheet that both functions give.
    fn sheet_by_both(bytes: &[u8]) -> String {
        let expected = sheet(bytes);
        let mut quick = Vec::new();
        write_sheet(bytes, &mut quick).unwrap();
        assert!(quick == expected, "{}", hexadecimal(bytes));
        String::from_utf8(quick).unwrap()
    }

    /// Case A with a record (counted from 0) put in another's place.
    fn case_a(record: usize, body: &[u8]) -> Vec<u8> {
        let mut parts = Parts {
            k: 2,
            left: vec![2, 0, 1, 1, 0, 3, 1],
            right: vec![2, 0, 2, 1, 0, 4, 1],
            run: vec![0, 0, 0, 1, 1],
            question: vec![6, 0, 0, 0],
        };
        match record {
            0 => parts.k = body[0],
            1 => parts.left = body.to_vec(),
            2 => parts.right = body.to_vec(),
            3 => parts.run = body.to_vec(),
            _ => parts.question = body.to_vec(),
        }
        parts.to_bytes()
    }

    /// Case A's four lines, with 17, and refused.
    #[test]
    fn case_a_and_refusals() {
        let lines = "0 0 F 0100 F\n0 1 F 0100 F\n1 0 T 06010000 T\n1 1 T 06030000 T\n";
        assert_eq!(sheet_by_both(&case_a(0, &[2])), lines);
        assert_eq!(sheet_by_both(&case_a(0, &[16])), "R 4\n");
        assert_eq!(sheet_by_both(&case_a(3, &[0, 0, 0, 1, 0])), "R 8\n");
        assert_eq!(sheet_by_both(&[]), "R 1\n");
        let after = [case_a(0, &[2]), vec![0]].concat();
        assert_eq!(sheet_by_both(&after), "R 11\n");
    }

    /// One state each with a loop of label 1: 16 two-way steps are refused, and eight rows make four forwards too large.
    #[test]
    fn sizes() {
        let table = [1, 0, 1, 0];
        let mut parts = Parts {
            k: 4,
            left: table.to_vec(),
            right: table.to_vec(),
            run: [vec![0, 0], [1, 0, 0].repeat(16)].concat(),
            question: [[5, 0].repeat(4), vec![0, 0]].concat(),
        };
        assert_eq!(sheet_by_both(&parts.to_bytes()), "R 13\n");
        parts.run = vec![0, 0];
        let rows = (1..=8).flat_map(|label| [0, label, 0]);
        parts.right = [1].into_iter().chain(rows).collect();
        assert_eq!(sheet_by_both(&parts.to_bytes()), "0 0 T 17 -\n");
        parts.question = [[5, 0].repeat(3), vec![2, 0, 2, 0, 0, 0]].concat();
        let line = sheet_by_both(&parts.to_bytes());
        assert_eq!(line.len(), "0 0 T  T\n".len() + 4 * 3734);
    }

    /// Both functions agree on seeded casebooks of many kinds.
    #[test]
    fn quick_sheets_are_the_same() {
        let mut random = Random::new(300);
        let (mut refused, mut too_large, mut lines) = (0, 0, 0);
        for seed in 0..3000 {
            let mut shape = Shape::small(&mut random);
            if seed % 3 == 0 {
                shape.rows = 8;
                shape.k = random.byte(0, 15);
            }
            shape.nodes = random.from_to(1, if seed % 4 == 0 { 64 } else { 12 });
            let mut parts = match seed % 5 {
                0 => sound_parts(&mut random, shape),
                _ => many_ways_parts(&mut random, shape, 60),
            };
            if seed % 9 == 0 {
                let (ahead, nots) = (random.from_to(2, 4), random.from_to(0, 20));
                parts.question = [[5, 0].repeat(ahead), [2, 0].repeat(nots), vec![0, 0]].concat();
            }
            let text = sheet_by_both(&parts.to_bytes());
            refused += usize::from(text.starts_with('R'));
            too_large += text.matches(" 17 -").count();
            lines += text.lines().count();
        }
        let seen = [refused, too_large, lines];
        assert!(
            refused < 10 && too_large > 400 && lines > 20_000,
            "{seen:?}"
        );
    }
}
