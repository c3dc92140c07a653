//! The site table: where its numbers stand, when it is sound, a fresh one, and a recording added to it.
use crate::borders;
use crate::settings::{self, first_bad, reference};
use crate::{Refused, Settings, Table, TABLE};

/// The most half-cycles that a table may hold.
pub const FULLEST: u64 = 4_000_000;

/// Where each number stands in the table.
pub mod at {
    /// The set of borders.
    pub const SET: usize = 7;
    pub const TOTAL: usize = 8;
    pub const HEALTHY: usize = 9;
    pub const DISTURBED: usize = 10;
    pub const UNKNOWN: usize = 11;
    pub const CELLS: usize = 12;
    pub const UNPLACED: usize = 52;
    pub const SAGS: usize = 53;
    pub const INTERRUPTIONS: usize = 54;
    pub const SWELLS: usize = 55;
    pub const SHORTFALL: usize = 56;
    /// The shortfalls of a, b and c.
    pub const PARTS: usize = 57;
}

/// The settings that a table holds.
pub fn settings(t: &Table) -> Settings {
    let [n, r, f, sag, interruption, swell, hysteresis, ..] = *t;
    Settings { n, r, f, sag, interruption, swell, hysteresis }
}

/// A fresh table for the settings and the set of borders; where they are refused, a table of zeros.
pub fn fresh(s: &Settings, set: u64) -> (Result<(), Refused>, Table) {
    let mut table = [0; TABLE];
    let checked = settings::check(s).and_then(|()| borders::check(set));
    if checked.is_ok() {
        table[..at::TOTAL].copy_from_slice(&[s.n, s.r, s.f, s.sag, s.interruption, s.swell, s.hysteresis, set]);
    }
    (checked, table)
}

/// Refusal 9, where the table is unsound.
pub fn check(t: &Table) -> Result<(), Refused> {
    if sound(t) {
        Ok(())
    } else {
        Err(Refused { number: 9, place: 0 })
    }
}

/// Whether a table could be one that grew here. Offered numbers may be anything, so sums are taken in 128 bits.
pub fn sound(t: &Table) -> bool {
    let s = settings(t);
    let Some(borders) = borders::of(t[at::SET]) else { return false };
    let sum = |part: std::ops::RangeInclusive<usize>| t[part].iter().map(|&count| u128::from(count)).sum::<u128>();
    first_bad(&s).is_none()
        && t[at::TOTAL] <= FULLEST
        && sum(at::HEALTHY..=at::UNKNOWN) == u128::from(t[at::TOTAL])
        && sum(at::CELLS..=at::UNPLACED) == u128::from(t[at::SAGS])
        && t[at::CELLS..at::UNPLACED].iter().skip(borders.cells() as usize).all(|&unused| unused == 0)
        && t[at::SAGS..=at::SWELLS].iter().all(|&events| events <= t[at::TOTAL])
        && u128::from(t[at::SHORTFALL]) <= 3 * reference(&s) * u128::from(t[at::TOTAL])
        && sum(at::PARTS..=at::PARTS + 2) == u128::from(t[at::SHORTFALL])
}

/// Refusal 8, where the table has no room for so many half-cycles more. The table is sound.
pub fn check_room(t: &Table, half_cycles: u64) -> Result<(), Refused> {
    if t[at::TOTAL] + half_cycles > FULLEST {
        return Err(Refused { number: 8, place: FULLEST - t[at::TOTAL] });
    }
    Ok(())
}
