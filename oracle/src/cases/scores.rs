//! One event's score: curve, columns and rows on both sides of every border, energies rounded down, and what is not an
//! event.
use super::{score, with, Case, Section, HIGH, HOUSE, TEN, WIDE};
use crate::score::retained;
use crate::{Event, Settings};

/// A sag of so many half-cycles with both ends seen, on channel a.
pub fn sag(s: &Settings, half_cycles: u64, extreme: u64, shortfall: u64) -> Event {
    [1, 7, 7 + half_cycles, 3, extreme, retained(s, extreme), shortfall, 4, shortfall, 0, 0]
}

pub fn durations() -> Section {
    let fifty = [
        (1, "below 2, column 0"),
        (2, "column 1; the curve is 0"),
        (3, "the curve is 500"),
        (9, "5h below f, column 1"),
        (10, "5h = f, column 2"),
        (20, "5h = 2f, the curve is 500"),
        (21, "the curve is 700"),
        (49, "below f, column 2"),
        (50, "h = f, column 3; the curve is 700"),
        (51, "the curve is 800"),
        (99, "below 2f, column 3"),
        (100, "h = 2f, column 4"),
        (299, "below 6f, column 4"),
        (300, "h = 6f, column 5"),
        (1_000, "h = 20f, the curve is 800"),
        (1_001, "the curve is 900"),
        (1_999, "below 40f, column 5"),
        (2_000, "h = 40f, column 6"),
        (5_999, "below 120f, column 6"),
        (6_000, "h = 120f, column 7"),
    ];
    let sixty = [1, 2, 3, 11, 12, 24, 25, 59, 60, 61, 119, 120, 359, 360, 1_200, 1_201, 2_399, 2_400, 7_199, 7_200];
    let case = |s: Settings, h: u64, words: &str| {
        score(s, sag(&s, h, 320_000, 12_000_000), format!("f {}, h {h}: {words}", s.f))
    };
    let at_fifty = fifty.iter().map(|&(h, words)| case(HOUSE, h, words));
    let at_sixty = sixty.iter().zip(&fifty).map(|(&h, &(_, words))| case(WIDE, h, words));
    Section {
        name: "durations",
        about: "curve and columns on both sides of every border; the curve shows in the severity",
        cases: at_fifty.chain(at_sixty).collect(),
    }
}

pub fn depths() -> Section {
    let rows = [
        (0, "nothing left: row 0"),
        (80_000, "exactly 10 percent: row 0"),
        (80_001, "one unit above: row 1"),
        (1_280_000, "exactly 40 percent: row 1"),
        (1_280_001, "one unit above: row 2"),
        (3_920_000, "exactly 70 percent: row 2"),
        (3_920_001, "one unit above: row 3"),
        (5_780_000, "exactly 85 percent: row 3"),
        (5_780_001, "one unit above: row 4"),
        (6_479_999, "one unit below the sag threshold: row 4"),
    ];
    let between = [
        (100_200, "10 percent is an S of 100200.1, and the whole number below it in row 0"),
        (100_201, "the one above it in row 1"),
        (4_909_804, "70 percent is an S of 4909804.9, and the whole number below it in row 2"),
        (4_909_805, "the one above it in row 3"),
    ];
    let case = |s: Settings, &(extreme, words): &(u64, &str)| score(s, sag(&s, 2, extreme, 1), words);
    Section {
        name: "depths",
        about: "rows on both sides of every border",
        cases: rows.iter().map(|row| case(HOUSE, row)).chain(between.iter().map(|row| case(TEN, row))).collect(),
    }
}

pub fn energies() -> Section {
    let case = |s: Settings, shortfall: u64, words: &str| score(s, sag(&s, 3, 2_000_000, shortfall), words);
    Section {
        name: "energies",
        about: "energies: whole milliseconds, rounded down",
        cases: vec![
            case(HOUSE, 0, "no shortfall"),
            case(HOUSE, 799_999, "one unit short of a millisecond: 0"),
            case(HOUSE, 800_000, "a millisecond"),
            case(HOUSE, 1_599_999, "one unit short of two: 1"),
            case(HOUSE, 72_000_000, "the most that three half-cycles can lack"),
            case(WIDE, 959_999, "f 60: one unit short of a millisecond"),
            case(WIDE, 960_000, "f 60: a millisecond"),
            case(TEN, 8_416_808, "N 10, R 1001, f 60: 7 milliseconds are 8416808.4, the whole number below is 6"),
            case(TEN, 8_416_809, "the one above is 7"),
            score(HOUSE, deepest(), "the longest and deepest sag of all: 3000 s"),
        ],
    }
}

/// A sag from end to end of the longest recording, with nothing left on any channel.
fn deepest() -> Event {
    let channel = 800_000_000_000;
    [1, 0, 100_000, 3, 0, 0, 3 * channel, 0, channel, channel, channel]
}

/// Where each of the eleven numbers stands.
pub mod of {
    pub const KIND: usize = 0;
    pub const START: usize = 1;
    pub const END: usize = 2;
    pub const SEEN: usize = 3;
    pub const EXTREME: usize = 4;
    pub const RETAINED: usize = 5;
    pub const SHORTFALL: usize = 6;
    pub const TYPE: usize = 7;
    pub const A: usize = 8;
    pub const B: usize = 9;
    pub const C: usize = 10;
}

/// An event of each kind under the settings of the known answers, as it must be in every number.
pub const SAG: Event = [1, 30, 32, 3, 2_000_000, 500, 12_000_000, 4, 7_000_000, 4_000_000, 1_000_000];
pub const INTERRUPTION: Event = [2, 7, 9, 3, 20_000, 50, 0, 0, 0, 0, 0];
pub const SWELL: Event = [3, 7, 9, 3, 9_680_001, 1100, 0, 0, 0, 0, 0];

/// An event with some numbers changed, under the settings of the known answers.
pub fn changed(event: Event, changes: &[(usize, u64)], words: &str) -> Case {
    score(HOUSE, with(event, changes), words)
}

/// An event with another shortfall and the parts that make it up, so that these are no reason of their own.
fn short(event: Event, parts: [u64; 3]) -> Event {
    let [a, b, c] = parts;
    with(event, &[(of::SHORTFALL, a + b + c), (of::A, a), (of::B, b), (of::C, c)])
}

pub fn not_events() -> Section {
    let bad = Settings { n: 9, ..HOUSE };
    let mut cases = bounds();
    cases.extend([
        score(HIGH, with(SWELL, &[(of::EXTREME, 80_000_000_000), (of::RETAINED, 2000)]), "extreme N x 10,000,000,000"),
        score(HIGH, with(SWELL, &[(of::EXTREME, 80_000_000_001), (of::RETAINED, 2000)]), "one more"),
        changed(SAG, &[(of::SEEN, 2)], "only the start unseen"),
        changed(SAG, &[(of::SEEN, 1)], "only the end unseen"),
        changed(SAG, &[(of::SEEN, 0)], "both unseen"),
        changed(SWELL, &[(of::SEEN, 0)], "a swell with both unseen: not a sag"),
        changed(INTERRUPTION, &[(of::SEEN, 1)], "an interruption with its end unseen: not a sag"),
        changed(SWELL, &[(of::TYPE, 1), (of::SEEN, 0)], "a swell with a type and both unseen: not an event"),
        changed(SAG, &[(of::TYPE, 7), (of::SEEN, 2)], "a sag of type 7, its start unseen: not an event"),
        score(bad, with(SAG, &[(of::KIND, 0)]), "N 9 and kind 0: settings bad"),
        score(bad, with(SWELL, &[(of::SEEN, 0)]), "N 9 and a swell: settings bad"),
        score(bad, with(SAG, &[(of::SEEN, 0)]), "N 9 and a sag with both unseen: settings bad"),
    ]);
    Section {
        name: "not_events",
        about: "what is not an event, each condition broken by one; the order of reasons",
        cases,
    }
}

/// Each number on the last good value and on the first bad one.
fn bounds() -> Vec<Case> {
    let none = |start: u64| with(short(SAG, [0; 3]), &[(of::START, start)]);
    vec![
        changed(INTERRUPTION, &[(of::KIND, 0)], "kind 0"),
        changed(SAG, &[], "kind 1, and all else as it must be"),
        changed(INTERRUPTION, &[], "kind 2: not a sag"),
        changed(SWELL, &[], "kind 3: not a sag"),
        changed(SWELL, &[(of::KIND, 4)], "kind 4"),
        changed(SAG, &[(of::START, 31)], "start one below end"),
        score(HOUSE, none(32), "start at end"),
        score(HOUSE, none(33), "start above end"),
        changed(INTERRUPTION, &[(of::START, 9)], "start at end, of an interruption"),
        changed(SAG, &[(of::START, 99_998), (of::END, 100_000)], "end 100,000"),
        changed(SAG, &[(of::START, 99_999), (of::END, 100_001)], "end 100,001"),
        changed(SAG, &[(of::SEEN, 4)], "seen 4"),
        changed(SAG, &[(of::RETAINED, 501)], "retained one more than that of the extreme"),
        changed(SAG, &[(of::RETAINED, 499)], "one less"),
        changed(SAG, &[(of::EXTREME, 1_996_002)], "the smallest S with retained 500"),
        changed(SAG, &[(of::EXTREME, 1_996_001)], "one unit of S less"),
        changed(SAG, &[(of::EXTREME, 2_004_001)], "the largest S with retained 500"),
        changed(SAG, &[(of::EXTREME, 2_004_002)], "one unit more"),
        changed(SAG, &[(of::EXTREME, 6_479_999), (of::RETAINED, 900)], "a sag's extreme one unit below the threshold"),
        changed(SAG, &[(of::EXTREME, 6_480_000), (of::RETAINED, 900)], "on it"),
        score(HOUSE, short(SAG, [16_000_000; 3]), "a sag's shortfall 3 x N x R x R x h"),
        score(HOUSE, short(SAG, [16_000_000, 16_000_000, 16_000_001]), "one more"),
        changed(SAG, &[(of::TYPE, 6)], "type 6"),
        changed(SAG, &[(of::TYPE, 7)], "type 7"),
        score(HOUSE, short(SWELL, [1, 0, 0]), "a swell with a shortfall, a's"),
        changed(SWELL, &[(of::TYPE, 1)], "a swell with a type"),
        score(HOUSE, short(INTERRUPTION, [0, 0, 1]), "an interruption with a shortfall, c's"),
        changed(INTERRUPTION, &[(of::TYPE, 1)], "an interruption with a type"),
    ]
}
