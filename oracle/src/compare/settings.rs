//! Settings for the comparison: good ones over their whole ranges, and bad ones just outside or far away.
use crate::random::Random;
use crate::Settings;

/// The allowed range of each setting, in their order. N is even and f one of two besides.
const RANGES: [(u64, u64); 7] = [(8, 512), (1_000, 50_000), (50, 60), (50, 95), (1, 20), (105, 150), (0, 5)];

/// Good settings. Every even N comes round with the case's number, so that a run of 253 cases of a sort has them all.
pub fn good(random: &mut Random, number: u64) -> Settings {
    let n = if random.once_in(2) { 8 + 2 * (number % 253) } else { 2 * random.between(4, 16) };
    let [r, sag, interruption, swell, hysteresis] = [1, 3, 4, 5, 6].map(|i| within(random, RANGES[i]));
    let s = Settings { n, r, f: random.pick(&[50, 60]), sag, interruption, swell, hysteresis };
    match random.below(4) {
        0 => usual(s.n, s.f),
        // A reference that 100 divides has thresholds that are whole samples.
        1 | 2 => Settings { r: s.r / 100 * 100, ..s },
        _ => s,
    }
}

/// The settings of the known answers, but for N and f.
fn usual(n: u64, f: u64) -> Settings {
    Settings { n, r: 1_000, f, sag: 90, interruption: 10, swell: 110, hysteresis: 2 }
}

/// From the range, its ends more often than the rest.
fn within(random: &mut Random, (low, high): (u64, u64)) -> u64 {
    match random.below(6) {
        0 => low,
        1 => high,
        _ => random.between(low, high),
    }
}

/// Good settings, or in a sixteenth of the cases bad ones.
pub fn mostly_good(random: &mut Random, number: u64) -> Settings {
    if random.once_in(16) {
        bad(random, number)
    } else {
        good(random, number)
    }
}

/// Good settings or bad ones, evenly.
pub fn good_or_bad(random: &mut Random, number: u64) -> Settings {
    if random.once_in(2) {
        bad(random, number)
    } else {
        good(random, number)
    }
}

/// Settings of which one, two or all are outside their ranges.
fn bad(random: &mut Random, number: u64) -> Settings {
    let s = good(random, number);
    let mut words = [s.n, s.r, s.f, s.sag, s.interruption, s.swell, s.hysteresis];
    let spoilt = random.pick(&[1, 1, 1, 2, 7]);
    for _ in 0..spoilt {
        let i = random.below(7) as usize;
        words[i] = outside(random, i);
    }
    let [n, r, f, sag, interruption, swell, hysteresis] = words;
    Settings { n, r, f, sag, interruption, swell, hysteresis }
}

/// A value outside the range of setting i, often by one only.
fn outside(random: &mut Random, i: usize) -> u64 {
    let (low, high) = RANGES[i];
    match random.below(7) {
        0 | 1 => high + 1,
        2 | 3 => low.wrapping_sub(1),
        4 => random.word(),
        5 => random.pick(&[0, u64::MAX, 1 << 32, 1 << 63]),
        // An odd N within its range, a frequency between the two; elsewhere beyond the range.
        _ if i == 0 => 2 * random.between(4, 255) + 1,
        _ if i == 2 => random.between(51, 59),
        _ => high + random.between(1, 1_000),
    }
}
