//! The other table: rows and columns of set 1 on both sides of every border, what has no score under it, sets that there are not,
//! and tables that are made for one set and keep it.
use super::nearest::all;
use super::recording::{amid, even, uneven, Recording};
use super::scores::{of, sag, INTERRUPTION, SAG, SWELL};
use super::tables::{brim, everything, healthy_only, various_by};
use super::{add, fresh_by, score_by, with, Case, Section, HOUSE, TEN, WIDE};
use crate::site::at;
use crate::{fresh, Settings, Table};

pub fn columns() -> Section {
    let fifty = [
        (1, "below 2, column 0"),
        (2, "column 1"),
        (10, "5h = f is no border here: column 1"),
        (19, "5h below 2f, column 1"),
        (20, "5h = 2f, column 2"),
        (49, "below f, column 2"),
        (50, "h = f, column 3"),
        (100, "h = 2f is no border here: column 3"),
        (499, "below 10f, column 3"),
        (500, "h = 10f, column 4"),
        (6_000, "h = 120f is no border here: column 4"),
    ];
    let sixty = [1, 2, 12, 23, 24, 59, 60, 120, 599, 600, 7_200];
    let case = |s: Settings, h: u64, words: &str| {
        score_by(1, s, sag(&s, h, 320_000, 12_000_000), format!("f {}, h {h}: {words}", s.f))
    };
    let at_fifty = fifty.iter().map(|&(h, words)| case(HOUSE, h, words));
    let at_sixty = sixty.iter().zip(&fifty).map(|(&h, &(_, words))| case(WIDE, h, words));
    Section {
        name: "other_columns",
        about: "set 1: columns on both sides of every border",
        cases: at_fifty.chain(at_sixty).collect(),
    }
}

pub fn rows() -> Section {
    let case = |set: u64, s: Settings, extreme: u64, words: &str| score_by(set, s, sag(&s, 2, extreme, 1), words);
    let house = |extreme: u64, words: &str| case(1, HOUSE, extreme, words);
    let ten = |extreme: u64, words: &str| case(1, TEN, extreme, words);
    Section {
        name: "other_rows",
        about: "set 1: rows on both sides of every border",
        cases: vec![
            house(0, "nothing left: row 0"),
            house(80_000, "exactly 10 percent: row 0"),
            house(80_001, "one unit above: row 1"),
            house(1_280_000, "exactly 40 percent: row 1"),
            house(1_280_001, "one unit above: row 2"),
            house(3_920_000, "exactly 70 percent: row 2"),
            house(3_920_001, "one unit above: row 3"),
            house(5_120_000, "exactly 80 percent: row 3"),
            house(5_120_001, "one unit above: row 4"),
            case(0, HOUSE, 5_120_000, "by set 0, exactly 80 percent: row 3"),
            case(0, HOUSE, 5_120_001, "one unit above: row 3 too"),
            house(5_780_000, "by set 1, exactly 85 percent: row 4"),
            house(5_780_001, "one unit above: row 4 too"),
            house(6_479_999, "one unit below the sag threshold: row 4"),
            ten(1_603_201, "40 percent is an S of 1603201.6, and the whole number below it in row 1"),
            ten(1_603_202, "the one above it in row 2"),
            ten(6_412_806, "80 percent is an S of 6412806.4, and the whole number below it in row 3"),
            ten(6_412_807, "the one above it in row 4"),
        ],
    }
}

pub fn known() -> Section {
    let case = |sag: [u64; 8], parts: [u64; 3], words: &str| {
        let ([kind, start, end, seen, extreme, retained, shortfall, class], [a, b, c]) = (sag, parts);
        score_by(1, HOUSE, [kind, start, end, seen, extreme, retained, shortfall, class, a, b, c], words)
    };
    Section {
        name: "other_known",
        about: "set 1: the sags of the known answers",
        cases: vec![
            case([1, 1, 4, 3, 2_000_000, 500, 36_000_000, 0], [12_000_000; 3], "K2: cell 11"),
            case([1, 2, 3, 3, 6_465_608, 899, 4_603_176, 0], [1_534_392; 3], "K4: cell 20"),
            case([1, 1, 5, 3, 6_465_608, 899, 4_603_176, 0], [1_534_392; 3], "K5: cell 21"),
            case([1, 1, 4, 3, 0, 0, 48_000_000, 0], [16_000_000; 3], "K6: cell 1"),
            case([1, 1, 4, 3, 80_804, 101, 47_515_176, 0], [15_838_392; 3], "K7: cell 6"),
            case([1, 1, 4, 3, 2_000_000, 500, 12_000_000, 4], [12_000_000, 0, 0], "K12: cell 11"),
        ],
    }
}

pub fn unscored() -> Section {
    let bad = Settings { n: 9, ..HOUSE };
    let cases = vec![
        score_by(1, HOUSE, SAG, "set 1, a sag with a score"),
        score_by(1, HOUSE, with(SAG, &[(of::SEEN, 2)]), "only the start unseen: 25, one above the last cell"),
        score_by(1, HOUSE, with(SAG, &[(of::SEEN, 1)]), "only the end unseen"),
        score_by(1, HOUSE, with(SAG, &[(of::SEEN, 0)]), "both unseen"),
        score_by(1, HOUSE, SWELL, "a swell"),
        score_by(1, HOUSE, INTERRUPTION, "an interruption"),
        score_by(1, HOUSE, with(SAG, &[(of::TYPE, 7)]), "type 7: not an event"),
        score_by(1, bad, SAG, "N 9: settings bad, and 25 since the set is known"),
        score_by(1, bad, with(SAG, &[(of::KIND, 0)]), "N 9 and kind 0"),
        score_by(2, HOUSE, SAG, "set 2: 6, and cell 40"),
        score_by(u64::MAX, HOUSE, SAG, "set 2^64 - 1"),
        score_by(2, bad, SAG, "set 2 and N 9"),
        score_by(2, HOUSE, with(SAG, &[(of::KIND, 0)]), "set 2 and kind 0: 6 before 5"),
        score_by(2, HOUSE, SWELL, "set 2 and a swell: 6 before 4"),
        score_by(2, HOUSE, with(SAG, &[(of::SEEN, 0)]), "set 2 and both ends unseen: 6 before 3"),
    ];
    Section { name: "other_unscored", about: "set 1 and unknown sets: what has no score", cases }
}

pub fn making() -> Section {
    let (frequency, hysteresis) = (Settings { f: 55, ..HOUSE }, Settings { hysteresis: 6, ..HOUSE });
    let cases = vec![
        fresh_by(0, HOUSE, "set 0"),
        fresh_by(1, HOUSE, "set 1: its number stands after the settings"),
        fresh_by(1, TEN, "set 1, other settings"),
        fresh_by(1, frequency, "set 1 and f 55: zeros, the set too"),
        fresh_by(2, HOUSE, "set 2: refusal 1, at 8"),
        fresh_by(u64::MAX, HOUSE, "set 2^64 - 1"),
        fresh_by(2, frequency, "set 2 and f 55: the setting is told"),
        fresh_by(2, hysteresis, "set 2 and hysteresis 6: the setting is told"),
    ];
    Section { name: "other_making", about: "fresh tables for a set; where it is unknown, zeros", cases }
}

/// The full table for a set, with its one placed sag in this cell.
fn brim_by(set: u64, cell: usize) -> Table {
    with(brim(HOUSE), &[(at::SET, set), (at::CELLS + 17, 0), (at::CELLS + cell, 1)])
}

pub fn unused() -> Section {
    let offered = |table: Table, words: &str| add(table, even(2, 1000), words);
    let cases = vec![
        offered(brim_by(1, 0), "set 1, a sag in cell 0: sound"),
        offered(brim_by(1, 24), "in cell 24, the last: sound"),
        offered(brim_by(1, 25), "in cell 25, which is unused: unsound, though all adds up"),
        offered(brim_by(1, 39), "in cell 39"),
        offered(brim_by(0, 25), "set 0, the same numbers, a sag in cell 25: sound"),
        offered(brim_by(0, 39), "in cell 39: sound"),
        offered(brim_by(2, 0), "set 2, and all else sound"),
        offered(brim_by(u64::MAX, 0), "set 2^64 - 1"),
        offered(with(fresh(&HOUSE, 0).1, &[(at::SET, 2)]), "set 2, and nothing in it"),
    ];
    Section { name: "other_unsound", about: "tables with a sag in an unused cell, and with an unknown set", cases }
}

pub fn placing() -> Section {
    let first = |recording: Recording, words: &str| add(fresh(&HOUSE, 1).1, recording, words);
    let dip = |level: i32| amid(even(2, level));
    let two_cells = amid(uneven(2, 1000, 899, 1000) + even(1, 1000) + uneven(3, 1000, 1000, 100));
    let full = |total: u64| with(healthy_only(total), &[(at::SET, 1)]);
    let cases: Vec<Case> = vec![
        first(dip(500), "K2: cell 11"),
        first(dip(899), "K4: cell 20"),
        first(amid(even(1, 100) + even(1, 101)), "K7: cell 6"),
        first(two_cells, "two sags in two cells, of different rows and columns"),
        first(amid(all(5_120_000)), "exactly 80 percent: row 3"),
        first(amid(all(5_120_001)), "one unit of S more: row 4"),
        first(amid(even(9, 500)), "ten half-cycles, 5h = f: column 1"),
        first(even(2, 500) + even(2, 1000), "K8: unplaced"),
        add(various_by(1), everything(), "each number of the table its own, and something of everything added"),
        add(various_by(1), Recording::none(), "a refused recording: the table stays, its set too"),
        add(full(3_999_996), dip(500), "five half-cycles where there is room for four"),
        add(full(3_999_995), dip(500), "where there is room for five"),
    ];
    Section { name: "other_growing", about: "what a recording adds to a table for set 1", cases }
}
