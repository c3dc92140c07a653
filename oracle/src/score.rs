//! One event: its retained value, the reason why it has no score, its two floats and its cell.
use crate::borders::{self, MOST};
use crate::recording::LONGEST;
use crate::settings::{below, first_bad, reference};
use crate::{Event, Score, Settings};

/// The whole number nearest to 1000 V / R, halves upward: the largest r with (2 r - 1)^2 x N x R x R at most 4,000,000 x S,
/// and 0 where no r from 1 on has that.
pub fn retained(s: &Settings, sum: u64) -> u64 {
    // Twice 1000 V / R, squared, against twice r - 1/2, squared.
    let reached = |r: u64| u128::from(2 * r - 1).pow(2) * reference(s) <= 4_000_000 * u128::from(sum);
    // No allowed sum reaches 2^17 thousandths: a sample of 100,000 is 100 times the smallest reference.
    (0..17).rev().fold(0, |r, bit| if reached(r + (1 << bit)) { r + (1 << bit) } else { r })
}

/// The smallest sum with 1000 V / R at least so many halves: where a comparison has to look. At an even number of them the value
/// rounded down changes, at an odd number the nearest.
pub fn sum_at(s: &Settings, halves: u64) -> u64 {
    (u128::from(halves).pow(2) * reference(s)).div_ceil(4_000_000) as u64
}

/// The smallest sum with this retained value.
pub fn first_sum(s: &Settings, retained: u64) -> u64 {
    sum_at(s, (2 * retained).saturating_sub(1))
}

/// Why the event has no score under the settings and the set of borders: 0 where it has one.
pub fn reason(s: &Settings, set: u64, e: &Event) -> u64 {
    if first_bad(s).is_some() || borders::of(set).is_none() {
        return 6;
    }
    if !is_event(s, e) {
        return 5;
    }
    let [kind, _, _, seen, ..] = *e;
    match (kind, seen) {
        (1, 3) => 0,
        (1, 2) => 1,
        (1, 1) => 2,
        (1, _) => 3,
        _ => 4,
    }
}

/// Whether eleven numbers can be an event at all, under good settings.
fn is_event(s: &Settings, e: &Event) -> bool {
    let [kind, start, end, seen, extreme, retained_value, shortfall, class, parts @ ..] = *e;
    let possible = (1..=3).contains(&kind)
        && start < end
        && end <= LONGEST
        && seen <= 3
        && u128::from(extreme) <= u128::from(s.n) * 10_000_000_000
        && retained_value == retained(s, extreme)
        && adds_up(shortfall, parts);
    let of_its_kind = |h: u64| match kind {
        1 => below(s, extreme, s.sag) && u128::from(shortfall) <= 3 * reference(s) * u128::from(h) && class <= 6,
        _ => shortfall == 0 && class == 0,
    };
    possible && of_its_kind(end - start)
}

/// Whether the shortfalls of a, b and c add up to the whole. They may be anything, so the sum is taken in 128 bits.
fn adds_up(whole: u64, parts: [u64; 3]) -> bool {
    parts.map(u128::from).iter().sum::<u128>() == u128::from(whole)
}

/// The curve's value for h half-cycles, in thousandths of R.
fn curve(s: &Settings, h: u64) -> u64 {
    if h <= 2 {
        0
    } else if 5 * h <= 2 * s.f {
        500
    } else if h <= s.f {
        700
    } else if h <= 20 * s.f {
        800
    } else {
        900
    }
}

/// The last duration of each of the curve's values but the last, and the first of the next: where a comparison has to look.
pub fn beside_the_steps(f: u64) -> [u64; 8] {
    [2, 3, 2 * f / 5, 2 * f / 5 + 1, f, f + 1, 20 * f, 20 * f + 1]
}

/// The two floats of an event, or the reason why it has none.
pub fn score(s: &Settings, set: u64, e: &Event) -> Result<Score, u64> {
    match reason(s, set, e) {
        0 => Ok(floats(s, e)),
        why => Err(why),
    }
}

fn floats(s: &Settings, e: &Event) -> Score {
    let [_, start, end, _, _, retained_value, shortfall, ..] = *e;
    let lost = 1000 - retained_value;
    let allowed = 1000 - curve(s, end - start);
    Score { severity: lost as f64 / allowed as f64, energy: milliseconds(s, shortfall) as f64 / 1000.0 }
}

/// The shortfall as whole milliseconds, rounded down.
fn milliseconds(s: &Settings, shortfall: u64) -> u64 {
    (1000 * u128::from(shortfall) / (reference(s) * 2 * u128::from(s.f))) as u64
}

/// The cell of an event by the set of borders: one above the last of the set where it has no score, 40 where the set is unknown.
pub fn cell(s: &Settings, set: u64, e: &Event) -> u64 {
    let [_, start, end, _, extreme, ..] = *e;
    match borders::of(set) {
        None => MOST,
        Some(borders) if reason(s, set, e) == 0 => borders.cell(s, extreme, end - start),
        Some(borders) => borders.cells(),
    }
}
