//! The retained value: the nearest thousandth of R, halves upward. Each value here is worked out by hand; with another one the
//! numbers are not an event.
use super::recording::{amid, four_squares, one_channel, woven, Recording};
use super::{list, score, Case, Section, HIGH, HOUSE, TEN};
use crate::Settings;

/// N 512 and R 50,000: 4,000,000 x S goes beyond 2^64, and no retained value beyond 2,000.
const LARGEST: Settings = Settings { n: 512, ..HIGH };

/// A cycle's worth of samples on all channels, their squares adding up to the sum.
pub fn all(sum: i32) -> Recording {
    let block = |sum: i32| {
        let four = four_squares(sum);
        woven([&four, &four, &four])
    };
    block(sum / 2) + block(sum - sum / 2)
}

/// The same on channel b alone.
fn b_alone(sum: i32) -> Recording {
    one_channel(1, four_squares(sum / 2), 1000) + one_channel(1, four_squares(sum - sum / 2), 1000)
}

/// The lists of recordings with an extreme on a half and one unit of S beside it.
fn listed() -> Vec<Case> {
    let case = |disturbed: Recording, pins: &str| list(HOUSE, amid(disturbed), pins);
    vec![
        case(all(80_802), "an extreme of 80802 is exactly 100.5: a sag with retained 101"),
        case(all(80_801), "one unit of S less: 100"),
        case(all(79_202), "exactly 99.5: an interruption and its sag, each with the 100 that 10 percent has"),
        case(all(79_201), "one unit less: 99"),
        case(b_alone(6_472_802), "exactly 899.5 on b: a sag with retained 900, as the threshold has"),
        case(b_alone(6_472_801), "one unit less: 899"),
        case(all(11_529_602), "exactly 1200.5: a swell with retained 1201"),
        case(all(11_529_601), "one unit less: 1200"),
        case(all(2), "exactly a half: an interruption and its sag with retained 1"),
        case(all(1), "one unit less: 0"),
    ]
}

/// An extreme with a retained value, of a sag where it is below the threshold and else of a swell.
fn judged(s: Settings, extreme: u64, retained: u64, pins: &str) -> Case {
    let is_sag = crate::settings::below(&s, extreme, s.sag);
    score(s, [if is_sag { 1 } else { 3 }, 7, 9, 3, extreme, retained, 0, 0, 0, 0, 0], pins)
}

/// An extreme with the value that it has, and with those on both sides.
fn scored() -> Vec<Case> {
    let house = |extreme: u64, retained: u64, pins: &str| judged(HOUSE, extreme, retained, pins);
    let ten = |extreme: u64, retained: u64, pins: &str| judged(TEN, extreme, retained, pins);
    let largest = |extreme: u64, retained: u64, pins: &str| judged(LARGEST, extreme, retained, pins);
    vec![
        house(80_802, 101, "exactly 100.5: the half goes upward"),
        house(80_802, 100, "and not downward"),
        house(80_801, 100, "one unit of S less"),
        house(80_801, 101, "and not upward: the rest, 100.125 x N x R x R, is below the half, 100.25"),
        house(80_804, 101, "K7's extreme, 100.501"),
        house(80_804, 100, "and not the value rounded down"),
        house(18, 2, "exactly 1.5"),
        house(17, 1, "one unit less"),
        house(2, 1, "exactly a half"),
        house(1, 0, "one unit less"),
        house(
            6_479_999,
            900,
            "one unit below the sag threshold: still a sag, though retained is what the threshold is",
        ),
        house(6_479_999, 899, "and not the value rounded down"),
        house(11_529_602, 1201, "a swell, exactly 1200.5"),
        house(11_529_602, 1200, "and not the value rounded down"),
        house(11_529_601, 1200, "one unit less"),
        ten(101_204, 100, "N 10, R 1001: 100.5 is an S of 101204.6, and the whole number below it has 100"),
        ten(101_205, 101, "the one above it 101"),
        largest(5_117_440_320_000, 2000, "N 512, R 50000: exactly 1999.5, where 4,000,000 x S is beyond 2^64"),
        largest(5_117_440_319_999, 1999, "one unit less"),
        largest(5_117_440_319_999, 2000, "and not upward"),
        largest(5_120_000_000_000, 2000, "the largest S of all"),
    ]
}

pub fn section() -> Section {
    Section {
        name: "nearest",
        about: "retained values: the nearest thousandth, halves upward",
        cases: listed().into_iter().chain(scored()).collect(),
    }
}
