//! Each half-cycle told: its class, the kinds it lies in, and its sums of squares.
use crate::kinds::{Kind, KINDS};
use crate::recording::{self, Half};
use crate::{settings, Refused, Settings, HALF};

/// Tells each half-cycle of a recording into `room`, five numbers each: how many there are, or the refusal.
pub fn halves(s: &Settings, samples: &[i32], room: &mut [u64]) -> Result<u64, Refused> {
    settings::check(s)?;
    recording::check(s, samples)?;
    let halves = recording::halves(s, samples);
    let words: Vec<u64> = (0..halves.len()).flat_map(|k| words(s, &halves, k)).collect();
    if room.len() < words.len() {
        return Err(Refused { number: 7, place: halves.len() as u64 });
    }
    room[..words.len()].copy_from_slice(&words);
    Ok(halves.len() as u64)
}

/// The five numbers of half-cycle k.
fn words(s: &Settings, halves: &[Half], k: usize) -> [u64; HALF] {
    let inside = KINDS.map(|kind| kind.holds_at(s, halves, k));
    let [a, b, c] = halves[k].unwrap_or([0; 3]);
    [class(halves[k], inside), kinds(inside), a, b, c]
}

/// 1 healthy: known and in no event. 2 disturbed: known and in at least one. 3 unknown.
fn class(half: Half, inside: [bool; 3]) -> u64 {
    match half {
        None => 3,
        Some(_) if inside.contains(&true) => 2,
        Some(_) => 1,
    }
}

/// 1 for a sag plus 2 for an interruption plus 4 for a swell.
fn kinds(inside: [bool; 3]) -> u64 {
    let bit = |kind: Kind| match kind {
        Kind::Sag => 1,
        Kind::Interruption => 2,
        Kind::Swell => 4,
    };
    KINDS.iter().zip(inside).map(|(&kind, inside)| bit(kind) * u64::from(inside)).sum()
}
