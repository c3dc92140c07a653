//! The sets of borders that a table may be made for, each with the grid of cells that it makes. What tells one set from another
//! stands here and nowhere else.

/// The grid of a set: rows from the deepest, columns from the shortest. A cell's number is columns x row + column.
pub struct Grid {
    /// The set's name on the command line and for programs.
    pub word: &'static str,
    /// Its name for people.
    pub title: &'static str,
    /// The borders between the rows, in percent of R; a voltage on a border belongs to the deeper row.
    pub percents: &'static [u64],
    /// The columns by name; a duration on a border belongs to the longer column.
    pub columns: &'static [&'static str],
}

/// The grid of each set, under the set's number.
pub static GRIDS: [Grid; 2] = [
    Grid {
        word: "unipede",
        title: "UNIPEDE",
        percents: &[10, 40, 70, 85],
        columns: &["< 1 cycle", "< 0.1 s", "0.1-0.5 s", "0.5-1 s", "1-3 s", "3-20 s", "20-60 s", "60 s up"],
    },
    Grid {
        word: "4-11",
        title: "IEC 61000-4-11",
        percents: &[10, 40, 70, 80],
        columns: &["< 1 cycle", "< 200 ms", "200-500 ms", "0.5-5 s", "5 s up"],
    },
];

/// The set where none is named, and the only one that there was before a table had a set.
pub const FIRST: u64 = 0;

/// The grid of a set that the library knows: it makes no table for another, and finds none with another sound.
pub fn of(set: u64) -> &'static Grid {
    &GRIDS[set as usize]
}

/// The set with this name; none where the word names none.
pub fn named(word: &str) -> Option<u64> {
    (0..).zip(&GRIDS).find(|(_, grid)| grid.word == word).map(|(set, _)| set)
}

impl Grid {
    /// A row by name.
    pub fn row(&self, at: usize) -> String {
        let border = |at: usize| self.percents.get(at);
        match (at.checked_sub(1).and_then(border), border(at)) {
            (None, Some(upper)) => format!("at most {upper} %"),
            (Some(lower), Some(upper)) => format!("{lower} to {upper} %"),
            (Some(lower), None) => format!("above {lower} %"),
            (None, None) => "no row".into(),
        }
    }

    /// How many rows there are: what lies above the last border is one more.
    pub fn rows(&self) -> usize {
        self.percents.len() + 1
    }

    pub fn cells(&self) -> usize {
        self.rows() * self.columns.len()
    }

    /// The row and the column of a cell.
    pub fn place(&self, cell: u64) -> (usize, usize) {
        (cell as usize / self.columns.len(), cell as usize % self.columns.len())
    }
}

#[cfg(test)]
mod tests {
    use super::{named, of, FIRST, GRIDS};
    use host::{Event, Refused, Settings};

    const S: Settings = Settings { n: 8, r: 1_000, f: 50, sag: 95, interruption: 10, swell: 110, hysteresis: 2 };

    /// The cell that the library gives a sag with this sum of squares that lasts so long. 1,000,000 S / (N x R x R) is S / 8, and
    /// none of these lies on a half.
    fn cell(set: u64, extreme: u64, halves: u64) -> u64 {
        let retained = (extreme as f64 / 8.0).sqrt().round() as u64;
        let sag: Event = [1, 1, 1 + halves, 3, extreme, retained, 0, 0, 0, 0, 0];
        assert_eq!(host::reason(&S, set, &sag), 0, "{extreme} {halves}");
        host::cell(&S, set, &sag)
    }

    /// The library makes tables for these sets and no others, and has as many cells for each.
    #[test]
    fn the_sets_are_the_librarys() {
        for set in 0..GRIDS.len() as u64 {
            assert_eq!(host::fresh(&S, set).0, Ok(()));
            assert_eq!(host::cell(&S, set, &[0; 11]), of(set).cells() as u64, "one above the last: no event");
            assert_eq!(named(of(set).word), Some(set));
        }
        assert_eq!(host::fresh(&S, GRIDS.len() as u64).0, Err(Refused { number: 1, place: 8 }));
        assert_eq!((FIRST, named("UNIPEDE"), named("")), (0, None, None));
    }

    /// A voltage on a row's border is in the row that is named for it, and one unit of S above it in the next.
    #[test]
    fn rows_are_named_for_their_borders() {
        for (set, grid) in (0..).zip(&GRIDS) {
            for (at, percent) in grid.percents.iter().enumerate() {
                let (on, row) = (800 * percent * percent, |extreme| grid.place(cell(set, extreme, 1)).0);
                assert_eq!((row(on), row(on + 1)), (at, at + 1), "{set}: {percent}");
                assert!(grid.row(at).ends_with(&format!(" {percent} %")), "{}", grid.row(at));
                assert!(grid.row(at + 1).contains(&format!("{percent} ")), "{}", grid.row(at + 1));
            }
            assert_eq!((grid.rows(), grid.row(grid.rows() - 1).starts_with("above ")), (grid.percents.len() + 1, true));
        }
    }

    /// Each column begins at the duration that its name says, in half-cycles at 50 Hz, and every column is reached.
    #[test]
    fn columns_are_named_for_their_borders() {
        let begin: [&[u64]; 2] = [&[1, 2, 10, 50, 100, 300, 2_000, 6_000], &[1, 2, 20, 50, 500]];
        for ((set, grid), begin) in (0..).zip(&GRIDS).zip(begin) {
            assert_eq!(grid.columns.len(), begin.len());
            for (at, first) in begin.iter().enumerate() {
                let column = |halves: u64| grid.place(cell(set, 0, halves)).1;
                assert_eq!(column(*first), at, "{set}: {first}");
                assert!(at == 0 || column(first - 1) == at - 1, "{set}: before {first}");
            }
            assert_eq!(grid.place(cell(set, 0, 99_999)).1, begin.len() - 1);
        }
    }
}
