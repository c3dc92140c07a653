//! Sets of borders for the comparison, such as there are and such as there are not, and where among their borders a sag may lie.
use crate::borders::{Border, SETS};
use crate::random::Random;
use crate::Settings;

/// A set that there is.
pub fn known(random: &mut Random) -> u64 {
    random.below(SETS.len() as u64)
}

/// One that there is not: the first beyond, one that a narrower number would take for another, or any.
pub fn unknown(random: &mut Random) -> u64 {
    let first = SETS.len() as u64;
    let anything = random.any_size().max(first);
    random.pick(&[first, first, 1 << 8, (1 << 16) + 1, 1 << 32, (1 << 32) + 1, 1 << 63, u64::MAX, anything])
}

/// Mostly one that there is.
pub fn any(random: &mut Random) -> u64 {
    if random.once_in(12) {
        unknown(random)
    } else {
        known(random)
    }
}

/// A level on the border of a row, one unit below it, or one above the border before: in halves of a thousandth, and the units.
pub fn in_a_row(random: &mut Random, rows: &[u64]) -> (u64, i64) {
    let row = random.below(rows.len() as u64 + 1) as usize;
    match rows.get(row) {
        Some(percent) if row == 0 || random.once_in(2) => (20 * percent, random.pick(&[-1, 0])),
        _ => (20 * rows[row - 1], 1),
    }
}

/// The last duration of a column, or the first.
pub fn in_a_column(random: &mut Random, s: &Settings, columns: &[Border]) -> u64 {
    let column = random.below(columns.len() as u64 + 1) as usize;
    match columns.get(column) {
        Some(border) if column == 0 || random.once_in(2) => border.first(s.f) - 1,
        _ => columns[column - 1].first(s.f),
    }
}
