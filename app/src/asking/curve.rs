//! The severity curve, as the library has it.
use crate::answered::grid;
use host::{Settings, WORDS};

/// The curve's value for a sag that lasts h half-cycles: the library scores one without any voltage left, whose severity
/// is 1000 / (1000 - c), by whatever set of borders.
pub fn value(s: &Settings, h: u64) -> Option<u64> {
    let mut words = [0; WORDS];
    [words[0], words[2], words[3]] = [1, h, 3];
    host::score(s, grid::FIRST, &words).ok().map(|score| (1000.0 - 1000.0 / score.severity).round() as u64)
}

/// The curve's steps: the first duration in half-cycles, and the value from there on.
pub fn steps(s: &Settings) -> Vec<(u64, u64)> {
    let mut steps: Vec<(u64, u64)> = Vec::new();
    for (h, value) in (1..).map_while(|h| value(s, h).map(|value| (h, value))) {
        if steps.last().is_none_or(|(_, last)| *last != value) {
            steps.push((h, value));
        }
    }
    steps
}
