//! The sets of borders: the rows and columns that a seen sag is sorted into. `SETS` alone says which lists a set has.
use crate::settings::above;
use crate::{Refused, Settings};

/// What a column ends before. A duration on it goes to the next column.
#[derive(Clone, Copy, Debug)]
pub enum Border {
    /// So many cycles, of two half-cycles each.
    Cycles(u64),
    /// So many tenths of a second. It has 2 f half-cycles, so that h of them are below t tenths exactly if 5 h < t f.
    Tenths(u64),
}

use Border::{Cycles, Tenths};

/// A set of borders, each list rising. A last row and a last column take the rest.
#[derive(Debug)]
pub struct Borders {
    /// Percentages of R.
    pub rows: &'static [u64],
    pub columns: &'static [Border],
}

/// Set 0 is source 001's Table 3, by UNIPEDE; set 1 its Table 4, by IEC 61000-4-11.
pub static SETS: [Borders; 2] = [
    Borders {
        rows: &[10, 40, 70, 85],
        columns: &[Cycles(1), Tenths(1), Tenths(5), Tenths(10), Tenths(30), Tenths(200), Tenths(600)],
    },
    Borders { rows: &[10, 40, 70, 80], columns: &[Cycles(1), Tenths(2), Tenths(5), Tenths(50)] },
];

/// The cells that a table has room for, as many as the largest set has. A sag under an unknown set is told to be in this one.
pub const MOST: u64 = 40;

/// The borders of a set; none where it is unknown.
pub fn of(set: u64) -> Option<&'static Borders> {
    usize::try_from(set).ok().and_then(|set| SETS.get(set))
}

/// The percentages that some set has a row's border at: where a comparison has to look.
pub fn all_rows() -> Vec<u64> {
    let mut rows: Vec<u64> = SETS.iter().flat_map(|borders| borders.rows).copied().collect();
    rows.sort();
    rows.dedup();
    rows
}

/// The durations that some set has a column's border at, in half-cycles: where a comparison has to look.
pub fn all_columns(f: u64) -> Vec<u64> {
    let mut columns: Vec<u64> = SETS.iter().flat_map(|borders| borders.columns).map(|border| border.first(f)).collect();
    columns.sort();
    columns.dedup();
    columns
}

/// Refusal 1 for an unknown set, which stands after the seven settings.
pub fn check(set: u64) -> Result<(), Refused> {
    match of(set) {
        Some(_) => Ok(()),
        None => Err(Refused { number: 1, place: 8 }),
    }
}

impl Border {
    /// The first h that is on the border or beyond it, at frequency f.
    pub fn first(self, f: u64) -> u64 {
        match self {
            Cycles(cycles) => 2 * cycles,
            Tenths(tenths) => (tenths * f).div_ceil(5),
        }
    }

    /// Whether h half-cycles stay below the border.
    fn is_above(self, f: u64, h: u64) -> bool {
        match self {
            Cycles(cycles) => h < 2 * cycles,
            Tenths(tenths) => 5 * h < tenths * f,
        }
    }
}

impl Borders {
    /// How many cells there are, which is also the cell told of an event that has none.
    pub fn cells(&self) -> u64 {
        (self.rows.len() as u64 + 1) * self.width()
    }

    /// How many columns there are.
    pub fn width(&self) -> u64 {
        self.columns.len() as u64 + 1
    }

    /// The cell of a sag of h half-cycles. The settings are good.
    pub fn cell(&self, s: &Settings, extreme: u64, h: u64) -> u64 {
        self.width() * self.row(s, extreme) + self.column(s, h)
    }

    /// The first row whose border the extreme does not exceed: a voltage on a border goes to the deeper row.
    fn row(&self, s: &Settings, extreme: u64) -> u64 {
        self.rows.iter().take_while(|&&percent| above(s, extreme, percent)).count() as u64
    }

    /// The first column whose border h stays below: a duration on a border goes to the longer column.
    fn column(&self, s: &Settings, h: u64) -> u64 {
        self.columns.iter().take_while(|border| !border.is_above(s.f, h)).count() as u64
    }
}
