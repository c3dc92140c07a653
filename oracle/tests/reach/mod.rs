//! What the cases, chosen or drawn, have to reach of the sets of borders.
use oracle::borders::{self, SETS};
use oracle::settings::above;
use oracle::site::{at, sound};
use oracle::{Event, Settings, Table};
use std::collections::BTreeSet;

/// The one thing that keeps a table from being sound.
#[derive(Clone, Copy, Debug, PartialEq, Eq, PartialOrd, Ord)]
pub enum Alone {
    /// A sag in this cell, which its set does not use.
    Unused(usize),
    /// Its set, which there is not.
    Set(u64),
}

#[derive(Default)]
pub struct Reached {
    /// Sets, reasons, and the cells beside them.
    pub told: BTreeSet<(u64, u64, u64)>,
    /// Of sags that have a cell: the set, a percentage of its rows, and whether the extreme is the last sum at most so high or the
    /// first above.
    rows: BTreeSet<(u64, u64, bool)>,
    /// The set, f, and how many half-cycles the sag lasts.
    lasting: BTreeSet<(u64, u64, u64)>,
    alone: BTreeSet<Alone>,
}

impl Reached {
    pub fn note_score(&mut self, s: &Settings, set: u64, event: &Event, (reason, cell): (u64, u64)) {
        self.told.insert((set, reason, cell));
        if reason > 0 {
            return;
        }
        let [_, start, end, _, extreme, ..] = *event;
        self.lasting.insert((set, s.f, end - start));
        for &percent in SETS[set as usize].rows {
            match [extreme.saturating_sub(1), extreme, extreme + 1].map(|sum| above(s, sum, percent)) {
                [_, false, true] => drop(self.rows.insert((set, percent, false))),
                [false, true, _] => drop(self.rows.insert((set, percent, true))),
                _ => {}
            }
        }
    }

    pub fn note_table(&mut self, table: &Table) {
        self.alone.extend(alone(table));
    }

    /// Both sides of each border of each set; each reason with the cell that tells of none; unknown sets.
    pub fn assert_scores(&self) {
        for (set, borders) in (0..).zip(&SETS) {
            let frequencies = [50, 60].into_iter().flat_map(|f| borders.columns.iter().map(move |border| (f, border)));
            for (f, first) in frequencies.map(|(f, border)| (f, border.first(f))) {
                assert!(self.lasting.contains(&(set, f, first - 1)), "set {set}, f {f}, one less than {first}");
                assert!(self.lasting.contains(&(set, f, first)), "set {set}, f {f}, {first}");
            }
            for (percent, above) in borders.rows.iter().flat_map(|&percent| [(percent, false), (percent, true)]) {
                assert!(self.rows.contains(&(set, percent, above)), "set {set}, {percent} percent, above: {above}");
            }
            for reason in 1..=6 {
                assert!(self.told.contains(&(set, reason, borders.cells())), "set {set}, reason {reason}");
            }
        }
        for set in [2, u64::MAX] {
            assert!(self.told.contains(&(set, 6, 40)), "set {set}");
        }
        assert!(self.told.iter().all(|&(set, reason, cell)| set < 2 || (reason, cell) == (6, 40)));
    }

    /// A sag in the first and in the last of the unused cells, and unknown sets, each with nothing else wrong.
    pub fn assert_unsound(&self) {
        for one in [Alone::Unused(25), Alone::Unused(39), Alone::Set(2), Alone::Set(u64::MAX)] {
            assert!(self.alone.contains(&one), "{one:?} of {:?}", self.alone);
        }
    }
}

fn alone(table: &Table) -> Option<Alone> {
    let mut mended = *table;
    let Some(borders) = borders::of(table[at::SET]) else {
        mended[at::SET] = 0;
        return sound(&mended).then_some(Alone::Set(table[at::SET]));
    };
    let unused = at::CELLS + borders.cells() as usize..at::UNPLACED;
    let first = unused.clone().find(|&place| table[place] > 0)?;
    for place in unused {
        mended[at::UNPLACED] = mended[at::UNPLACED].checked_add(table[place])?;
        mended[place] = 0;
    }
    sound(&mended).then_some(Alone::Unused(first - at::CELLS))
}
