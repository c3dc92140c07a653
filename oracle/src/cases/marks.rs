//! On each mark, one unit of S above and one below: what begins and what ends an event of each kind, with and without
//! hysteresis.
use super::recording::{alike, amid, even, four_squares, one_channel, woven, Recording};
use super::{list, Case, Section, HOUSE, SHARP, TEN, WIDE};
use crate::Settings;

pub fn section() -> Section {
    let mut cases = vec![];
    for (settings, words) in [(SHARP, "hysteresis 0"), (HOUSE, "hysteresis 2"), (WIDE, "hysteresis 5")] {
        let each = [sag(settings), interruption(settings), swell(settings)].concat();
        cases.extend(each.into_iter().map(|(recording, pins)| list(settings, recording, format!("{words}: {pins}"))));
    }
    cases.extend(between_whole_numbers());
    Section { name: "marks", about: "on each mark, one unit of S above it and one below", cases }
}

type Pinned = (Recording, &'static str);

/// Four samples at a percentage of R 1,000, their sum of squares moved by so many units.
fn mark(percent: u64, beside: i32) -> [i32; 4] {
    let level = 10 * percent as i32;
    match beside {
        0 => [level; 4],
        _ => four_squares(4 * level * level + beside),
    }
}

/// Blocks in which one channel stands at a mark, each moved by so many units, the other two at a level.
fn beside(channel: usize, percent: u64, moved: &[i32], others: i32) -> Recording {
    let block = |recording: Recording, &units: &i32| recording + one_channel(channel, mark(percent, units), others);
    moved.iter().fold(Recording::none(), block)
}

fn sag(s: Settings) -> Vec<Pinned> {
    let begin = |moved: &[i32]| amid(beside(0, s.sag, moved, 1000));
    let end =
        |moved: &[i32]| even(2, 1000) + one_channel(1, [500; 4], 1000) + beside(1, s.sag + s.hysteresis, moved, 1000);
    vec![
        (begin(&[-1, 0]), "channel a one unit below the sag threshold is a sag"),
        (begin(&[0, 0, 1, 0]), "on the sag threshold, and one unit above, it is none"),
        (end(&[0, -1, 0, 0]), "b one unit below sag threshold plus hysteresis keeps the sag, on it ends it"),
        (end(&[1, 0, 0]), "one unit above ends it too"),
    ]
}

fn interruption(s: Settings) -> Vec<Pinned> {
    let begin = |moved: &[i32]| amid(beside(1, s.interruption, moved, 0));
    let end =
        |moved: &[i32]| even(2, 1000) + even(1, 0) + beside(2, s.interruption + s.hysteresis, moved, 0) + even(1, 1000);
    vec![
        (begin(&[-1, 0]), "channel b one unit below the interruption threshold, the others at 0, is an interruption"),
        (begin(&[0, 0, 1, 0]), "on the interruption threshold, and one unit above, it is none"),
        (end(&[0, -1, 0, 0]), "c one unit below interruption threshold plus hysteresis keeps it, on it ends it"),
        (end(&[1, 0, 0]), "one unit above ends it too"),
    ]
}

fn swell(s: Settings) -> Vec<Pinned> {
    let begin = |moved: &[i32]| amid(beside(2, s.swell, moved, 1000));
    let end = |moved: &[i32]| {
        even(2, 1000) + one_channel(0, [1500; 4], 1000) + beside(0, s.swell - s.hysteresis, moved, 1000)
    };
    vec![
        (begin(&[1, 0]), "channel c one unit above the swell threshold is a swell"),
        (begin(&[0, 0, -1, 0]), "on the swell threshold, and one unit below, it is none"),
        (end(&[0, 1, 0, 0]), "a one unit above swell threshold minus hysteresis keeps the swell, on it ends it"),
        (end(&[-1, 0, 0]), "one unit below ends it too"),
    ]
}

/// N 10 and R 1,001: the mark lies between two whole numbers, and nothing is rounded.
fn between_whole_numbers() -> Vec<Case> {
    let ten = |level: i32| alike(10, level, level, level);
    // Channel b's ten samples of one half-cycle have this sum of squares.
    let exactly = |sum: i32| {
        let [p, q, r, s] = four_squares(sum - 5 * 851 * 851 - 851 * 851);
        let calm = [1001; 5];
        woven([&calm, &[p, q, r, s, 851], &calm]) + woven([&calm, &[851; 5], &calm])
    };
    let between = |sum: i32| ten(1001) + exactly(sum) + ten(1001);
    vec![
        list(
            TEN,
            between(7_239_457),
            "N 10, R 1001: 85 percent is an S of 7239457.225, and the whole number below it a sag",
        ),
        list(TEN, between(7_239_458), "and the one above it none"),
    ]
}
