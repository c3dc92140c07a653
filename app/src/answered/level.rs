//! How the rms value of a sum of squares lies to a percent of R: exactly, in whole numbers, without root or rounding.
use host::Settings;
use std::cmp::Ordering;

/// N x R x R.
pub fn reference(s: &Settings) -> u128 {
    u128::from(s.n) * u128::from(s.r) * u128::from(s.r)
}

pub fn against(s: &Settings, sum: u64, percent: u64) -> Ordering {
    (10_000 * u128::from(sum)).cmp(&(u128::from(percent).pow(2) * reference(s)))
}

/// The percents of R at which an event of this kind launches and lands.
pub fn borders(s: &Settings, kind: u64) -> [u64; 2] {
    match kind {
        1 => [s.sag, s.sag + s.hysteresis],
        2 => [s.interruption, s.interruption + s.hysteresis],
        _ => [s.swell, s.swell - s.hysteresis],
    }
}

/// Whether a half-cycle with these sums ends an event of this kind.
pub fn lands(s: &Settings, kind: u64, sums: [u64; 3]) -> bool {
    let [_, back] = borders(s, kind);
    let lies = |sum: &u64| against(s, *sum, back);
    match kind {
        1 => sums.iter().all(|sum| lies(sum).is_ge()),
        2 => sums.iter().any(|sum| lies(sum).is_ge()),
        _ => sums.iter().all(|sum| lies(sum).is_le()),
    }
}
