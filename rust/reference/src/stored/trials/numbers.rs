//! Trials of labels and of the side: functions of numbers alone.

use super::PAIRS;
use crate::cut::Side;
use crate::label::highest;
use crate::stored::trial::Trial;

/// All of them.
pub fn trials() -> Vec<Trial> {
    let sides = [Side::Unnamed, Side::Left, Side::Right].map(|side| Trial::Known { side });
    let partners = PAIRS.map(|k| Trial::Partners { k });
    [
        pairs(),
        labels(),
        partners.to_vec(),
        thens(),
        sides.to_vec(),
    ]
    .concat()
}

/// k on both sides of 15 and of the powers of two.
fn pairs() -> Vec<Trial> {
    let near = |power: u8| power - 1..=power + 1;
    let larger = [32, 64, 128].into_iter().flat_map(near);
    let all = (0..=20).chain(larger).chain([254, 255]);
    all.map(|k| Trial::Pairs { k }).collect()
}

/// The labels around the highest one, and at both ends of a byte.
fn labels() -> Vec<Trial> {
    let mut trials = Vec::new();
    for k in PAIRS {
        let high = highest(k) as usize;
        let mut near = [
            0,
            1,
            2,
            high.saturating_sub(1),
            high,
            high + 1,
            high + 2,
            253,
            254,
            255,
        ];
        near.sort();
        let mut labels: Vec<u8> = near.iter().filter_map(|n| u8::try_from(*n).ok()).collect();
        labels.dedup();
        trials.extend(labels.iter().map(|label| Trial::Label { k, label: *label }));
    }
    trials
}

/// One check after the other: each number behind none and before none, and pairs of numbers near and far apart.
fn thens() -> Vec<Trial> {
    let all = (0..=21).flat_map(|first| (0..=21).map(move |second| (first, second)));
    let tried = |(first, second): &(u8, u8)| {
        *first == 0 || *second == 0 || first.abs_diff(*second) < 2 || first.abs_diff(*second) > 15
    };
    let trial = |(first, second)| Trial::Then { first, second };
    all.filter(tried).map(trial).collect()
}
