//! The seven settings: their ranges, and the sums that a percentage of the reference stands for.
use crate::{Refused, Settings};

/// The number, 1 to 7, of the first setting outside its range.
pub fn first_bad(s: &Settings) -> Option<u64> {
    let good = [
        s.n.is_multiple_of(2) && (8..=512).contains(&s.n),
        (1_000..=50_000).contains(&s.r),
        s.f == 50 || s.f == 60,
        (50..=95).contains(&s.sag),
        (1..=20).contains(&s.interruption),
        (105..=150).contains(&s.swell),
        s.hysteresis <= 5,
    ];
    good.iter().position(|good| !good).map(|i| i as u64 + 1)
}

/// Refusal 1, at the first setting outside its range.
pub fn check(s: &Settings) -> Result<(), Refused> {
    match first_bad(s) {
        Some(place) => Err(Refused { number: 1, place }),
        None => Ok(()),
    }
}

/// N x R x R: the sum of squares of a channel that stands exactly at the reference.
pub fn reference(s: &Settings) -> u128 {
    u128::from(s.n) * u128::from(s.r) * u128::from(s.r)
}

/// "V is below p percent", for a half-cycle's sum of squares.
pub fn below(s: &Settings, sum: u64, percent: u64) -> bool {
    10_000 * u128::from(sum) < u128::from(percent) * u128::from(percent) * reference(s)
}

/// "V is above p percent".
pub fn above(s: &Settings, sum: u64, percent: u64) -> bool {
    10_000 * u128::from(sum) > u128::from(percent) * u128::from(percent) * reference(s)
}
