//! The library's half-cycles of a run of samples: class, kinds and sums of squares of each.
use crate::answered::told::Told;
use host::{Refused, Settings, HALF};

/// How many half-cycles a recording may have.
pub const MOST: usize = 100_000;

/// All half-cycles of a run of samples. The room goes by the length, so that the samples are gone over once: a run has less than one
/// half-cycle for each half cycle of samples, and one that is accepted has no more than `MOST`. How many there are is the library's
/// answer.
pub fn trace(s: &Settings, samples: &[i32]) -> Result<Vec<Told>, Refused> {
    let room = (2 * (samples.len() as u64 / 3)).checked_div(s.n).unwrap_or(0).min(MOST as u64);
    let mut words = vec![0; HALF * room as usize];
    let count = host::halves(s, samples, &mut words)? as usize;
    Ok(words.as_chunks::<HALF>().0[..count].iter().map(|words| Told::of(*words)).collect())
}

/// Half-cycle k as if there were no other; none where there is none, or where a sample of it is refused.
pub fn alone(s: &Settings, samples: &[i32], k: u64) -> Option<Told> {
    trace(s, window(s, samples, k)?).ok()?.first().copied()
}

/// The samples that half-cycle k covers, N of each channel; none where there is no such half-cycle.
pub fn window<'a>(s: &Settings, samples: &'a [i32], k: u64) -> Option<&'a [i32]> {
    let (first, length) = ((k * (s.n / 2) * 3) as usize, (s.n * 3) as usize);
    samples.get(first..first + length)
}
