//! The casebooks that the tests put to the command.

use std::fs;
use std::path::PathBuf;

use reference::generate::{many_ways_parts, sound_parts, Shape};
use reference::random::Random;

use crate::program::root;

/// Case A, byte for byte as document 01 has it.
pub const CASE_A: [u8; 44] = [
    3, 0, 1, 0, 2, // 0: pairs
    9, 0, 2, 0, 2, 0, 1, 1, 0, 3, 1, // 5: left table, n at 9, rows at 10 and 13
    9, 0, 3, 0, 2, 0, 2, 1, 0, 4, 1, // 16: right table, n at 20, rows at 21 and 24
    7, 0, 4, 0, 0, 0, 0, 1, 1, // 27: log, start states at 31, step at 33
    6, 0, 5, 0, 6, 0, 0, 0, // 36: question, nodes at 40 and 42
];

/// Case A with some bytes put over others.
pub fn case_a_with(changes: &[(usize, u8)]) -> Vec<u8> {
    let mut bytes = CASE_A.to_vec();
    for (at, byte) in changes {
        bytes[*at] = *byte;
    }
    bytes
}

/// A record of a kind with this body.
pub fn record(kind: u8, body: &[u8]) -> Vec<u8> {
    let length = (body.len() as u16 + 2).to_le_bytes();
    [&length[..], &[kind, 0], body].concat()
}

/// Case A with the question's nodes in place of its own.
pub fn case_a_asking(nodes: &[u8]) -> Vec<u8> {
    [&CASE_A[..36], &record(5, nodes)].concat()
}

/// The shipped casebooks, each with its sheet.
pub fn shipped() -> Vec<(PathBuf, Vec<u8>)> {
    let files = fs::read_dir(root().join("cases")).expect("the folder cases");
    let mut paths: Vec<PathBuf> = files.map(|file| file.unwrap().path()).collect();
    paths.retain(|path| path.extension().is_some_and(|end| end == "casebook"));
    paths.sort();
    let sheet = |path: &PathBuf| fs::read(path.with_extension("sheet")).expect("a sheet");
    paths
        .iter()
        .map(|path| (path.clone(), sheet(path)))
        .collect()
}

/// Sound casebooks of all sizes, from seeds.
pub fn seeded(count: u64) -> Vec<Vec<u8>> {
    (0..count).map(seeded_book).collect()
}

/// The shipped casebooks, and behind them `count` from seeds.
pub fn shipped_and_seeded(count: u64) -> Vec<Vec<u8>> {
    let paths = shipped().into_iter().map(|(path, _)| path);
    let shipped = paths.map(|path| fs::read(path).expect("a casebook"));
    shipped.chain(seeded(count)).collect()
}

/// The sound casebook of a seed: small ones, any, with few splittings, and those that reach all bounds.
fn seeded_book(seed: u64) -> Vec<u8> {
    let mut random = Random::new(seed);
    let small = Shape::small(&mut random);
    let any = Shape::any(&mut random);
    let parts = match seed % 8 {
        0..=2 => sound_parts(&mut random, small),
        3..=4 => many_ways_parts(&mut random, small, 40),
        5..=6 => sound_parts(&mut random, any),
        _ => sound_parts(&mut random, Shape::maximal((seed % 16) as u8)),
    };
    parts.to_bytes()
}
