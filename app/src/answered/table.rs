//! A site table's numbers by name.
use super::grid::{self, Grid};
use host::{Settings, Table};
use std::{ops::Range, slice::Chunks};

/// The names of the seven settings, in the order of the rules.
pub const SETTINGS: [&str; 7] = ["n", "r", "f", "sag", "interruption", "swell", "hysteresis"];

/// The name of the set of borders, whose number stands after the settings.
pub const BORDERS: &str = "borders";

/// Where the set stands, and the cells: as many as the largest grid has. Those that a table's own grid lacks are 0.
const SET: usize = SETTINGS.len();
const CELLS: Range<usize> = 12..52;

/// The names of the table's numbers, in order.
pub fn names() -> Vec<String> {
    let halves = ["total", "healthy", "disturbed", "unknown"].map(String::from);
    let cells = (0..CELLS.len()).map(|cell| format!("cell-{cell}"));
    let events = ["unplaced", "sags", "interruptions", "swells"].map(String::from);
    let shortfalls = ["shortfall", "shortfall-a", "shortfall-b", "shortfall-c"].map(String::from);
    let settings = SETTINGS.into_iter().chain([BORDERS]).map(String::from);
    settings.chain(halves).chain(cells).chain(events).chain(shortfalls).collect()
}

/// The table's numbers by name, but for its set and the cells that its grid lacks.
pub fn named(table: &Table) -> impl Iterator<Item = (String, u64)> {
    let lacks = CELLS.start + cells(table).len()..CELLS.end;
    let told = move |at: usize| at != SET && !lacks.contains(&at);
    names().into_iter().zip(*table).enumerate().filter(move |(at, _)| told(*at)).map(|(_, named)| named)
}

/// What a table counts besides its cells.
#[derive(Clone, Copy, Default)]
pub struct Counts {
    pub total: u64,
    pub healthy: u64,
    pub disturbed: u64,
    pub unknown: u64,
    pub unplaced: u64,
    pub sags: u64,
    pub interruptions: u64,
    pub swells: u64,
    pub shortfall: u64,
    /// The shortfalls of channels a, b and c, which make up the shortfall.
    pub by_channel: [u64; 3],
}

pub fn counts(table: &Table) -> Counts {
    let [total, healthy, disturbed, unknown] = [table[8], table[9], table[10], table[11]];
    let [unplaced, sags, interruptions, swells] = [table[52], table[53], table[54], table[55]];
    let (shortfall, by_channel) = (table[56], [table[57], table[58], table[59]]);
    Counts { total, healthy, disturbed, unknown, unplaced, sags, interruptions, swells, shortfall, by_channel }
}

/// The set of borders that a table is made for.
pub fn set(table: &Table) -> u64 {
    table[SET]
}

/// The grid of a table's own set.
pub fn grid(table: &Table) -> &'static Grid {
    grid::of(set(table))
}

/// The cells of a table's own grid, in order.
pub fn cells(table: &Table) -> &[u64] {
    &table[CELLS][..grid(table).cells()]
}

/// The same row by row.
pub fn rows(table: &Table) -> Chunks<'_, u64> {
    cells(table).chunks(grid(table).columns.len())
}

/// The settings that a table holds.
pub fn settings(table: &Table) -> Settings {
    let [n, r, f, sag, interruption, swell, hysteresis] =
        [table[0], table[1], table[2], table[3], table[4], table[5], table[6]];
    Settings { n, r, f, sag, interruption, swell, hysteresis }
}

/// What a table has grown by, as a table of its own.
pub fn growth(before: &Table, after: &Table) -> Table {
    let (mut own, first) = (*after, SET + 1);
    own[first..].iter_mut().zip(&before[first..]).for_each(|(count, before)| *count -= before);
    own
}
