//! Blocks of lines of sound casebooks: every first line, several numbers of lines, outputs around the ends of lines.

use std::fs;
use std::path::{Path, PathBuf};

use crate::both::Tally;
use crate::handmade::case_a;
use crate::sheet_both::{Block, Sheet};
use crate::sheet_inputs::{back_along, looping, loops, some_two_way, times, AHEAD, NOT, TRUE};
use reference::casebook::Parts;
use reference::generate::{many_ways_parts, Shape};
use reference::random::Random;

/// Every block of a sheet: from each line and from behind the end, any number of lines, into any output up to one that
/// is longer than the sheet.
fn every_block(sheet: &Sheet, tally: &mut Tally) {
    let lines = sheet.lines.len();
    let length: usize = sheet.lines.iter().map(Vec::len).sum();
    for first in (0..lines + 2).chain([usize::MAX]) {
        for most in (0..lines + 2).chain([usize::MAX]) {
            for room in 0..length + 3 {
                tally.note(sheet.compare(Block { first, most, room }).0);
            }
        }
    }
}

/// Every block of case A's sheet and of others as short.
#[test]
fn every_block_of_short_sheets() {
    let mut tally = Tally::new("every block of short sheets");
    every_block(&Sheet::of(case_a()), &mut tally);
    for (labels, question) in [
        (&[][..], vec![6, 1, 0, 0]),
        (&[1], vec![6, 1, 0, 0]),
        (&[2, 3], vec![8, 0, 0, 0]),
        (&[1, 255], vec![2, 0, 0, 0]),
    ] {
        let casebook = looping(labels, question).to_bytes();
        every_block(&Sheet::of(casebook), &mut tally);
    }
    tally.saw_exactly(&[0, 18]);
    assert!(tally.of(18) > 1000 && tally.of(0) > 5000);
}

/// The bytes of so many lines from one on.
fn length_of(sheet: &Sheet, first: usize, lines: usize) -> usize {
    sheet.due(first, lines).iter().map(Vec::len).sum()
}

/// Blocks from each line of a sheet on and from behind its end. The outputs end with a line, one byte before its end and
/// one byte behind it, or anywhere.
fn blocks_around_line_ends(sheet: &Sheet, random: &mut Random, tally: &mut Tally) {
    let lines = sheet.lines.len();
    for first in 0..lines + 2 {
        let rest = lines.saturating_sub(first);
        let some = random.from_to(0, rest + 1);
        for most in [0, 1, 2, some, *random.pick(&[rest, usize::MAX])] {
            let end = length_of(sheet, first, random.from_to(1, 4.min(rest + 1)));
            let anywhere = random.from_to(0, length_of(sheet, first, most).min(40_000) + 9);
            for room in [end.saturating_sub(1), end, end + 1, anywhere] {
                tally.note(sheet.compare(Block { first, most, room }).0);
            }
        }
    }
}

/// A short log on little machines, steps with one to nine ways, a question that looks along it.
fn little(random: &mut Random, seed: usize) -> Parts {
    let mut shape = Shape::small(random);
    shape.k = (seed % 16) as u8;
    shape.rows = random.from_to(0, 8);
    shape.nodes = random.from_to(1, 16);
    many_ways_parts(random, shape, 12)
}

/// Machines and questions of any size, and a log of some steps.
fn any_size(random: &mut Random, _: usize) -> Parts {
    let mut shape = Shape::any(random);
    shape.steps = random.from_to(0, 12);
    many_ways_parts(random, shape, 4)
}

/// Loops, idles and two-way steps, and a question of nested backs: lines that share their endings.
fn nested_backs(random: &mut Random, seed: usize) -> Parts {
    let (steps, two_way) = (random.from_to(0, 9), random.from_to(0, 4));
    let labels = some_two_way(random, steps, two_way);
    let point = random.from_to(steps / 2, steps);
    looping(&labels, back_along(&labels[..point], seed % 7, &TRUE))
}

/// Nested forwards on machines with eight loops: long lines, and 17 on all of them or where the last step was the
/// left's alone.
fn long_lines(random: &mut Random, seed: usize) -> Parts {
    let (ahead, nots) = (*random.pick(&[2, 3, 3]), random.from_to(0, 5));
    let always = times(ahead, AHEAD, &times(nots, NOT, &TRUE));
    let in_some = times(1, NOT, &times(1, [8, 0], &always));
    Parts {
        k: 4,
        left: loops(&[1]),
        right: loops(&[1, 2, 3, 4, 5, 6, 7, 8]),
        run: [vec![0, 0], [1, 0, 0].repeat(random.from_to(0, 2))].concat(),
        question: [always, in_some][seed % 2].clone(),
    }
}

/// Compares blocks of so many sheets of a kind, and gives the sheets.
fn blocks_of(
    name: &'static str,
    seed: u64,
    sheets: usize,
    make: fn(&mut Random, usize) -> Parts,
) -> Vec<Sheet> {
    let mut tally = Tally::new(name);
    let mut random = Random::new(seed);
    let mut compared = Vec::new();
    for turn in 0..sheets {
        let sheet = Sheet::of(make(&mut random, turn).to_bytes());
        blocks_around_line_ends(&sheet, &mut random, &mut tally);
        compared.push(sheet);
    }
    tally.saw_exactly(&[0, 18]);
    compared
}

/// How many lines of all these sheets have this ending.
fn ending_in(sheets: &[Sheet], ending: &str) -> usize {
    let lines = sheets.iter().flat_map(|sheet| &sheet.lines);
    lines
        .filter(|line| line.ends_with(ending.as_bytes()))
        .count()
}

/// Sound casebooks of all kinds.
#[test]
fn blocks_of_little_machines() {
    let sheets = blocks_of("blocks of lines, little machines", 431, 90, little);
    assert!(ending_in(&sheets, " T\n") > 100 && ending_in(&sheets, " F\n") > 100);
}

#[test]
fn blocks_of_any_size() {
    let sheets = blocks_of("blocks of lines, any size", 432, 60, any_size);
    assert!(ending_in(&sheets, " T\n") > 100 && ending_in(&sheets, " F\n") > 100);
}

#[test]
fn blocks_of_nested_backs() {
    let sheets = blocks_of("blocks of lines, nested backs", 433, 60, nested_backs);
    assert!(ending_in(&sheets, " T\n") > 30 && ending_in(&sheets, " F\n") > 100);
}

#[test]
fn blocks_of_long_lines() {
    let sheets = blocks_of("blocks of lines, long lines", 434, 60, long_lines);
    assert!(ending_in(&sheets, " 17 -\n") > 30);
    let long = sheets.iter().flat_map(|sheet| &sheet.lines);
    assert!(long.filter(|line| line.len() > 10_000).count() > 10);
}

/// Reads a whole sheet block by block, as a program does, and gives how many blocks there were.
fn block_by_block(sheet: &Sheet, most: usize, room: usize) -> usize {
    let (mut first, mut blocks) = (0, 0);
    loop {
        let (number, lines) = sheet.compare(Block { first, most, room });
        assert_eq!(number, 0);
        if lines == 0 {
            assert_eq!(first, sheet.lines.len());
            return blocks;
        }
        first += lines;
        blocks += 1;
    }
}

/// The casebooks of `cases/` with their stored sheets.
fn shipped() -> Vec<Sheet> {
    let folder = Path::new(env!("CARGO_MANIFEST_DIR")).join("../../cases");
    let mut paths: Vec<_> = fs::read_dir(folder)
        .unwrap()
        .map(|e| e.unwrap().path())
        .collect();
    paths.retain(|path| path.extension().is_some_and(|e| e == "casebook"));
    paths.sort();
    let sheet = |path: &PathBuf| {
        let text = fs::read(path.with_extension("sheet")).unwrap();
        let lines = text.split_inclusive(|byte| *byte == b'\n');
        Sheet {
            casebook: fs::read(path).unwrap(),
            lines: lines.map(<[u8]>::to_vec).collect(),
        }
    };
    paths.iter().map(sheet).collect()
}

/// The stored sheets of `cases/`, whole, by blocks of a few lines, and into outputs that have room for little more than
/// the longest line.
#[test]
fn stored_sheets_block_by_block() {
    let (mut sheets, mut blocks) = (0, 0);
    for sheet in shipped() {
        let longest = sheet.lines.iter().map(Vec::len).max().unwrap();
        let lines = sheet.lines.len();
        let length = length_of(&sheet, 0, lines);
        assert_eq!(block_by_block(&sheet, usize::MAX, length), 1);
        for (most, room) in [(7, length), (usize::MAX, longest), (lines, 3 * longest + 1)] {
            blocks += block_by_block(&sheet, most, room);
        }
        sheets += 1;
    }
    println!("compared stored sheets block by block: {sheets} sheets, {blocks} blocks");
    assert!(sheets > 30 && blocks > 300);
}
