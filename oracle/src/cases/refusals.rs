//! What is turned away, with its number and place, and which is told where several apply.
use super::recording::{alike, amid, even, loose, Recording};
use super::tables::{healthy_only, various};
use super::{add, list, list_into, with, Case, Section, HIGH, HOUSE, TEN};
use crate::recording::MISSING;
use crate::site::at;
use crate::{Settings, Table, WORDS};

/// Too little room for an event, and room for one with a number to spare.
const LITTLE: usize = WORDS - 1;
const ENOUGH: usize = WORDS + 1;

/// So many samples of each channel at 1000.
fn calm(samples: usize) -> Recording {
    alike(samples, 1000, 1000, 1000)
}

/// Two calm blocks, two at a level, two calm ones: with 500 it is K2.
fn dip(level: i32) -> Recording {
    amid(even(2, level))
}

pub fn lengths() -> Section {
    let shapes = [
        (Recording::none(), "no samples: 3"),
        (loose(&[1000]), "one sample: 2 before 3"),
        (loose(&[1000, 1000]), "two samples: 2 before 3"),
        (calm(8) + loose(&[1000]), "8 samples per channel and one more: 2"),
        (calm(8) + loose(&[1000, 1000]), "and two more: 2"),
        (calm(4), "4 samples per channel, a multiple of N/2: 3"),
        (calm(7), "7: 3 before 4"),
        (calm(8), "8: one half-cycle"),
        (calm(9), "9: 4"),
        (calm(11), "11: 4"),
        (calm(12), "12: two half-cycles"),
    ];
    let mut cases: Vec<Case> =
        shapes.iter().map(|(recording, words)| list_into(ENOUGH, HOUSE, recording.clone(), *words)).collect();
    cases.extend(shapes.into_iter().map(|(recording, words)| add(various(), recording, format!("added, {words}"))));
    let ten = |samples: usize| alike(samples, 300, 1001, 1001);
    cases.extend([
        list_into(ENOUGH, TEN, ten(9), "N 10, 9 samples per channel: 3"),
        list_into(ENOUGH, TEN, ten(10), "10: one half-cycle"),
        list_into(ENOUGH, TEN, ten(14), "14: 4"),
        list_into(ENOUGH, TEN, ten(15), "15: two half-cycles"),
    ]);
    Section { name: "lengths", about: "refusals 2, 3 and 4", cases }
}

pub fn samples() -> Section {
    let one = |index: usize, sample: i32| even(2, 50_000).put(index, sample);
    let cases = vec![
        list(HIGH, even(2, 100_000), "all samples 100,000"),
        list(HIGH, -even(2, 100_000), "all samples -100,000"),
        list_into(ENOUGH, HIGH, one(0, 100_001), "100,001: 6, at its index"),
        list_into(ENOUGH, HIGH, one(4, -100_001), "-100,001"),
        list_into(ENOUGH, HIGH, one(8, i32::MAX), "2,147,483,647"),
        list_into(ENOUGH, HIGH, one(22, -i32::MAX), "-2,147,483,647"),
        list_into(ENOUGH, HIGH, one(23, MISSING), "-2,147,483,648 is missing, and no refusal"),
        list_into(ENOUGH, HIGH, one(20, 100_001).put(7, -100_001), "two of them: the first index"),
        list_into(ENOUGH, HIGH, one(7, MISSING).put(20, 100_001), "a missing sample before it is none"),
        add(various(), even(2, 1000).put(23, 100_001), "added: 6, at the last index"),
        add(various(), even(2, 1000).put(13, -100_001).put(14, 100_001), "added, two of them"),
        add(various(), even(2, 1000).put(0, 100_000), "added, a single sample of 100,000"),
    ];
    Section { name: "samples", about: "refusal 6, and samples on the ends of their range", cases }
}

pub fn room() -> Section {
    let cases = vec![
        list_into(10, HOUSE, dip(500), "room 10 for K2: 7, at the number of events"),
        list_into(11, HOUSE, dip(500), "room 11: accepted, and all of it written"),
        list_into(0, HOUSE, dip(500), "no room at all"),
        list_into(0, HOUSE, dip(1000), "no room and no event: accepted"),
        list_into(11, HOUSE, dip(0), "room for one event of two"),
        list_into(21, HOUSE, dip(0), "room 21 for two events"),
        list_into(22, HOUSE, dip(0), "room 22"),
        list_into(26, HOUSE, dip(0), "room 26: the last four numbers stay"),
    ];
    Section { name: "rooms", about: "refusal 7, and how far the lent run is written", cases }
}

pub fn order() -> Section {
    let bad = Settings { f: 55, hysteresis: 6, ..HOUSE };
    let wild = || loose(&[100_001, 1000, 1000, 1000, 1000]);
    let unsound = |table: Table| with(table, &[(at::UNKNOWN, table[at::UNKNOWN] + 1)]);
    let cases = vec![
        list_into(LITTLE, bad, wild(), "f 55, hysteresis 6, length 5, a sample out of range: 1, at f"),
        list_into(LITTLE, HOUSE, wild(), "length 5, a sample out of range: 2"),
        list_into(LITTLE, HOUSE, calm(7).put(0, 100_001), "7 samples per channel, one out of range: 3"),
        list_into(LITTLE, HOUSE, calm(9).put(0, 100_001), "9 samples per channel, one out of range: 4"),
        list_into(LITTLE, HOUSE, dip(500).put(71, 100_001), "a sample out of range and too little room: 6"),
        list_into(LITTLE, bad, dip(500), "f 55, hysteresis 6 and too little room: 1"),
        list_into(ENOUGH, Settings { hysteresis: 6, ..HOUSE }, dip(500), "hysteresis 6 alone: 1, at 7"),
        add(unsound(healthy_only(4_000_000)), wild(), "an unsound table, full, length 5, a sample out of range: 9"),
        add(unsound(various()), dip(500), "an unsound table: 9"),
        add(healthy_only(4_000_000), wild(), "a full table, length 5, a sample out of range: 2"),
        add(
            healthy_only(4_000_000),
            calm(7).put(0, 100_001),
            "a full table, 7 samples per channel, one out of range: 3",
        ),
        add(
            healthy_only(4_000_000),
            calm(9).put(0, 100_001),
            "a full table, 9 samples per channel, one out of range: 4",
        ),
        add(healthy_only(4_000_000), dip(500).put(71, 100_001), "a full table, a sample out of range: 6"),
        add(healthy_only(3_999_996), dip(500), "five half-cycles where there is room for four: 8, at 4"),
    ];
    Section { name: "order", about: "where several refusals apply, the first of the table is told", cases }
}
