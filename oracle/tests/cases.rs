//! The second table of cases, crates/answers/specs/Cases.antt: the file is what the second program writes, its linear and its
//! swift form and the proved library give the same answers, and the cases reach every corner that can be told from an answer, of
//! each set of borders.
use oracle::borders::SETS;
use oracle::cases::{sections, text, Answer, Asked, Program, FILE, SECOND};
use oracle::score::beside_the_steps;
use oracle::site::at;
use oracle::{fresh, plain, swift, Refused, Settings, Table, HALF, WORDS};
use std::collections::BTreeSet;

mod reach;

const LINEAR: Program = Program {
    list: plain::list,
    halves: plain::halves,
    add: plain::add,
    shortfalls: |s, samples| added(plain::add, s, samples),
    ..SECOND
};

const SWIFT: Program = Program {
    list: swift::list,
    halves: swift::halves,
    add: swift::add,
    shortfalls: |s, samples| added(swift::add, s, samples),
    ..SECOND
};

const PROVED: Program = Program {
    list: host::list,
    halves: host::halves,
    add: host::add,
    fresh: host::fresh,
    score: host::score,
    reason: host::reason,
    cell: host::cell,
    shortfalls: |s, samples| added(host::add, s, samples),
};

/// What a recording adds to a fresh table's shortfalls of a, b and c: the other programs have no straight sums, and these have to
/// equal them.
fn added(add: fn(&mut Table, &[i32]) -> Result<(), Refused>, s: &Settings, samples: &[i32]) -> [u64; 3] {
    let mut table = fresh(s, 0).1;
    add(&mut table, samples).expect("an accepted recording");
    [0, 1, 2].map(|channel| table[at::PARTS + channel])
}

#[test]
fn the_file_is_what_the_second_program_writes() {
    let file = std::fs::read_to_string(FILE).unwrap();
    let written = text(&SECOND);
    for (number, (found, expected)) in file.lines().zip(written.lines()).enumerate() {
        assert_eq!(found, expected, "line {} of Cases.antt", number + 1);
    }
    assert_eq!(file, written, "Cases.antt has another length");
}

/// Each case's name, as in the file, and its question.
fn all() -> Vec<(String, Asked)> {
    let cases = sections().into_iter().flat_map(|section| section.cases);
    cases.enumerate().map(|(i, case)| (format!("C{}: {}", i + 1, case.pins), case.asked)).collect()
}

#[test]
fn the_other_programs_give_the_same_answers() {
    for (name, asked) in all() {
        let expected = SECOND.answer(&asked).text();
        assert_eq!(LINEAR.answer(&asked).text(), expected, "the linear form, {name}");
        assert_eq!(SWIFT.answer(&asked).text(), expected, "the swift form, {name}");
        assert_eq!(PROVED.answer(&asked).text(), expected, "the proved library, {name}");
    }
}

/// No two cases ask the same.
#[test]
fn each_question_is_asked_once() {
    let mut asked_before = BTreeSet::new();
    for (name, asked) in all() {
        assert!(asked_before.insert(asked.text()), "{name} asks again: {}", asked.text());
    }
}

/// What the answers reach.
#[derive(Default)]
struct Reached {
    refusals_of_list: BTreeSet<u64>,
    refusals_of_halves: BTreeSet<u64>,
    /// The classes of half-cycles, each with the kinds beside it.
    classes: BTreeSet<(u64, u64)>,
    refusals_of_add: BTreeSet<u64>,
    bad_settings: BTreeSet<u64>,
    kinds_and_seen: BTreeSet<(u64, u64)>,
    types: BTreeSet<u64>,
    reasons: BTreeSet<u64>,
    /// The set with a row, and with f and a column.
    rows: BTreeSet<(u64, u64)>,
    columns: BTreeSet<(u64, u64, u64)>,
    /// f, and how many half-cycles a sag that has a score lasts.
    lasting: BTreeSet<(u64, u64)>,
    borders: reach::Reached,
    /// Of tables that took a recording, and of such as did not: the set, and where one more sag was counted.
    grown: BTreeSet<(u64, usize)>,
    kept: BTreeSet<u64>,
    /// Which of a, b and c lack something, in a sag of a list and straight from the samples.
    lacking: BTreeSet<[bool; 3]>,
    straight: BTreeSet<[bool; 3]>,
}

impl Reached {
    fn note(&mut self, asked: &Asked, answer: &Answer) {
        match (asked, answer) {
            (Asked::List { .. }, Answer::List { told: Ok(events), run }) => {
                for event in run.chunks_exact(WORDS).take(*events as usize) {
                    self.kinds_and_seen.insert((event[0], event[3]));
                    if event[0] == 1 {
                        self.types.insert(event[7]);
                        self.lacking.insert([event[8], event[9], event[10]].map(|part| part > 0));
                    }
                }
            }
            (Asked::List { .. }, Answer::List { told: Err(refused), .. }) => {
                self.refusals_of_list.insert(refused.number);
            }
            (Asked::Halves { .. }, Answer::Halves { told: Ok(halves), run }) => {
                let told = run.chunks_exact(HALF).take(*halves as usize);
                self.classes.extend(told.map(|half| (half[0], half[1])));
            }
            (Asked::Halves { .. }, Answer::Halves { told: Err(refused), .. }) => {
                self.refusals_of_halves.insert(refused.number);
            }
            (Asked::Add { table, .. }, Answer::Site { told: Ok(()), table: grown }) => {
                let counted = (at::CELLS..=at::UNPLACED).filter(|&place| grown[place] > table[place]);
                self.grown.extend(counted.map(|place| (grown[at::SET], place)));
            }
            (Asked::Add { table, .. }, Answer::Site { told: Err(refused), table: kept }) => {
                self.refusals_of_add.insert(refused.number);
                self.borders.note_table(table);
                self.kept.insert(kept[at::SET]);
            }
            (Asked::Fresh { .. }, Answer::Site { told: Err(refused), .. }) => {
                self.bad_settings.insert(refused.place);
            }
            (Asked::Score { settings, set, event }, Answer::Judged { reason, cell, .. }) => {
                self.borders.note_score(settings, *set, event, (*reason, *cell));
                self.reasons.insert(*reason);
                if *reason == 0 {
                    self.lasting.insert((settings.f, event[2] - event[1]));
                    self.note_cell(settings.f, *set, *cell);
                }
            }
            (Asked::Straight { .. }, Answer::Sums(sums)) => {
                self.straight.insert(sums.map(|sum| sum > 0));
            }
            _ => {}
        }
    }

    fn note_cell(&mut self, f: u64, set: u64, cell: u64) {
        let width = SETS[set as usize].width();
        self.rows.insert((set, cell / width));
        self.columns.insert((set, f, cell % width));
    }
}

#[test]
fn every_corner_is_reached() {
    let mut reached = Reached::default();
    for (_, asked) in all() {
        reached.note(&asked, &SECOND.answer(&asked));
    }
    let kinds_and_seen = (1..=3).flat_map(|kind| (0..=3).map(move |seen| (kind, seen)));
    let of_sets = [(0, 8), (1, 5)].into_iter().flat_map(|(set, width)| (0..width).map(move |column| (set, column)));
    let columns = of_sets.flat_map(|(set, column)| [(set, 50, column), (set, 60, column)]);
    // Refusal 5, more than 100,000 half-cycles, would take too long to compute there; a law has it.
    assert_eq!(reached.refusals_of_list, BTreeSet::from([1, 2, 3, 4, 6, 7]));
    assert_eq!(reached.refusals_of_halves, BTreeSet::from([1, 2, 3, 4, 6, 7]));
    assert_eq!(reached.classes, BTreeSet::from([(1, 0), (2, 1), (2, 3), (2, 4), (2, 5), (3, 0)]));
    assert_eq!(reached.refusals_of_add, BTreeSet::from([2, 3, 4, 6, 8, 9]));
    assert_eq!(reached.bad_settings, (1..=8).collect());
    assert_eq!(reached.kinds_and_seen, kinds_and_seen.collect());
    assert_eq!(reached.types, (0..=6).collect());
    assert_eq!(reached.reasons, (0..=6).collect());
    assert_eq!(reached.rows, [0, 1].into_iter().flat_map(|set| (0..=4).map(move |row| (set, row))).collect());
    assert_eq!(reached.columns, columns.collect());
    let each_alone = [[true, false, false], [false, true, false], [false, false, true]];
    assert_eq!(
        reached.lacking.len(),
        7,
        "a sag lacks something on one channel, on two or on all: {:?}",
        reached.lacking
    );
    assert!(each_alone.iter().all(|one| reached.straight.contains(one)), "{:?}", reached.straight);
    reached.borders.assert_scores();
    reached.borders.assert_unsound();
    let counted = |set: u64| reached.grown.iter().filter(|grown| grown.0 == set).count();
    assert!(counted(0) > 5 && counted(1) > 5 && reached.grown.contains(&(1, at::UNPLACED)), "{:?}", reached.grown);
    assert_eq!(reached.kept, BTreeSet::from([0, 1, 2, u64::MAX]));
    for lasts in [50, 60].into_iter().flat_map(|f| beside_the_steps(f).map(move |h| (f, h))) {
        assert!(reached.lasting.contains(&lasts), "{lasts:?}");
    }
}
