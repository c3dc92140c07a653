//! The shortfall of one channel straight from the samples, with no use of the list: what a table's sum for that channel grows by.
use crate::kinds::Kind;
use crate::recording;
use crate::settings::{below, reference};
use crate::Settings;

/// What the channel lacks of the reference over every half-cycle that lies in a sag, wherever it is itself below the sag
/// threshold. The recording is accepted.
pub fn straight(s: &Settings, samples: &[i32], channel: usize) -> u64 {
    let halves = recording::halves(s, samples);
    let mut lacking = 0;
    for k in 0..halves.len() {
        let Some(sums) = halves[k] else { continue };
        if Kind::Sag.holds_at(s, &halves, k) && below(s, sums[channel], s.sag) {
            lacking += (reference(s) - u128::from(sums[channel])) as u64;
        }
    }
    lacking
}
