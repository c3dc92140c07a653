//! Site tables: sound ones and such as are unsound by one in each condition, and what a recording adds.
use super::recording::{alike, amid, even, sines, uneven, Recording};
use super::{add, add_first, with, Case, Section, HIGH, HOUSE, TEN, WIDE};
use crate::borders::SETS;
use crate::site::at;
use crate::{fresh, Settings, Table, TABLE};

/// Each number as large as it may be beside a total of 2.
pub fn brim(s: Settings) -> Table {
    let counts = [
        (at::TOTAL, 2),
        (at::HEALTHY, 1),
        (at::DISTURBED, 1),
        (at::CELLS + 17, 1),
        (at::UNPLACED, 1),
        (at::SAGS, 2),
        (at::INTERRUPTIONS, 2),
        (at::SWELLS, 2),
    ];
    short(with(fresh(&s, 0).1, &counts), [6 * s.n * s.r * s.r, 0, 0])
}

/// The table with the shortfalls of a, b and c, and the total that they make up.
pub fn short(table: Table, parts: [u64; 3]) -> Table {
    with_parts(with(table, &[(at::SHORTFALL, parts.iter().sum())]), parts)
}

/// The table with the shortfalls of a, b and c, whatever the total is.
pub fn with_parts(table: Table, [a, b, c]: [u64; 3]) -> Table {
    with(table, &[(at::PARTS, a), (at::PARTS + 1, b), (at::PARTS + 2, c)])
}

/// A table with so many half-cycles, all healthy, and nothing else.
pub fn healthy_only(total: u64) -> Table {
    with(fresh(&HOUSE, 0).1, &[(at::TOTAL, total), (at::HEALTHY, total)])
}

/// A change of the full table, and the words for it.
type Broken = (&'static [(usize, u64)], &'static str);

/// Each condition of a sound table, broken by one.
const BROKEN: [Broken; 13] = [
    (&[(2, 51)], "its settings bad: f 51"),
    (&[(at::HEALTHY, 0)], "a healthy half-cycle too few"),
    (&[(at::DISTURBED, 2)], "a disturbed half-cycle too many"),
    (&[(at::UNKNOWN, 1)], "an unknown half-cycle too many"),
    (&[(at::TOTAL, 3)], "a total one above its parts"),
    (&[(at::CELLS, 1)], "a sag too many in cell 0"),
    (&[(at::CELLS + 39, 1)], "a sag too many in cell 39"),
    (&[(at::UNPLACED, 0)], "an unplaced sag too few"),
    (&[(at::SAGS, 1)], "sags one below cells and unplaced"),
    (&[(at::SAGS, 3), (at::UNPLACED, 2)], "sags one above the total"),
    (&[(at::INTERRUPTIONS, 3)], "interruptions one above the total"),
    (&[(at::SWELLS, 3)], "swells one above the total"),
    (&[(at::SHORTFALL, 48_000_001), (at::PARTS + 1, 1)], "shortfall one above 3 x N x R x R x total"),
];

pub fn sound() -> Section {
    let calm = || even(2, 1000);
    let one_sag = [(at::SAGS, 1), (at::UNPLACED, 0)];
    let no_sag = [(at::SAGS, 0), (at::UNPLACED, 0), (at::CELLS + 17, 0)];
    let mut cases = vec![
        add(brim(HOUSE), calm(), "each number as large as it may be beside the total: sound"),
        add(with(brim(HOUSE), &one_sag), calm(), "two interruptions beside one sag: sound"),
        add(with(brim(HOUSE), &no_sag), calm(), "and beside none: sound, since no condition speaks of both"),
    ];
    cases.extend(BROKEN.map(|(changes, words)| add(with(brim(HOUSE), changes), calm(), words)));
    let ten = || alike(10, 1001, 1001, 1001);
    let above = short(brim(TEN), [20_040_020, 20_040_020, 20_040_021]);
    cases.extend([
        add(brim(TEN), ten(), "N 10, R 1001: shortfall on its bound"),
        add(above, ten(), "one above"),
        add(healthy_only(3_999_999), calm(), "room for one half-cycle more: filled to 4,000,000"),
        add(healthy_only(4_000_000), calm(), "a total of 4,000,000 is sound, and full"),
        add(healthy_only(4_000_001), calm(), "a total of 4,000,001 is unsound"),
        add([0; TABLE], calm(), "a table of zeros is unsound"),
    ]);
    Section { name: "sound", about: "sound and unsound tables, each condition broken by one", cases }
}

/// Each number its own, so that one in another's place would show.
pub fn various() -> Table {
    various_by(0)
}

/// The same for a set, with as many cells as it has.
pub fn various_by(set: u64) -> Table {
    let counts = [
        (at::TOTAL, 10_012),
        (at::HEALTHY, 5_003),
        (at::DISTURBED, 3_001),
        (at::UNKNOWN, 2_008),
        (at::UNPLACED, 57),
        (at::INTERRUPTIONS, 611),
        (at::SWELLS, 713),
    ];
    let mut table = short(with(fresh(&HOUSE, set).1, &counts), [123_456, 345_678, 765_433]);
    for (cell, count) in table[at::CELLS..][..SETS[set as usize].cells() as usize].iter_mut().zip(101..) {
        *cell = count;
    }
    table[at::SAGS] = table[at::CELLS..=at::UNPLACED].iter().sum();
    table
}

/// A full table with so large a shortfall that three sums below it can be 2^64 above it.
pub fn vast(parts: [u64; 3]) -> Table {
    let counts = [(at::TOTAL, 4_000_000), (at::DISTURBED, 4_000_000), (at::SHORTFALL, 15_000_000_000_000_000_000)];
    with_parts(with(fresh(&Settings { n: 512, ..HIGH }, 0).1, &counts), parts)
}

/// Ten half-cycles with something of everything: a sag begun before the recording, a sag with an interruption, a swell, a gap.
pub fn everything() -> Recording {
    let fall = even(1, 500) + even(2, 1000) + even(2, 0) + even(2, 1000);
    (fall + uneven(1, 1000, 1300, 1000) + even(3, 1000)).lose(12 * 9 + 2)
}

pub fn growing() -> Section {
    let two_cells = amid(uneven(2, 1000, 899, 1000) + even(1, 1000) + uneven(3, 1000, 1000, 100));
    let short = |s: Settings| alike(s.n as usize / 2, 300, 450, 600);
    let calm = |s: Settings, halves: usize| alike(halves * s.n as usize / 2, s.r as i32, s.r as i32, s.r as i32);
    let other = |s: Settings| calm(s, 2) + short(s) + calm(s, 2) + short(s) + calm(s, 1);
    let mut cases = vec![
        add(various(), everything(), "each number of the table its own, and something of everything added"),
        add(various(), even(4, 1000), "and a calm recording: only total and healthy grow"),
        add_first(HOUSE, two_cells, "two sags in two cells, of different rows and columns"),
        add_first(WIDE, other(WIDE), "f 60, hysteresis 5: a sag with its cell, and one whose end is unseen"),
        add_first(TEN, other(TEN), "N 10, R 1001"),
        add_first(HOUSE, sines(1000, 1000, 1000) + sines(500, 800, 1100) + sines(1000, 1000, 1000), "sines"),
    ];
    cases.extend(full());
    Section { name: "growing", about: "what a recording adds to a table, and when it is full", cases }
}

fn full() -> [Case; 2] {
    [
        add(healthy_only(3_999_990), everything(), "ten half-cycles fill the table exactly"),
        add(healthy_only(3_999_991), everything(), "there is room for nine, not for ten"),
    ]
}
